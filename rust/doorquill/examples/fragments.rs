//! Which session does each fragment of a trace belong to?
//!
//!     cargo run --example fragments -- FILE.ghw SESSION STROBE CLOSE
//!
//! The three are paths of signals, such as `rbc.s_frag`. The command `doorquill fragments` does more: it says why a
//! name cannot be counted by, where here the bench refuses.
use doorquill::{ghw, read_sections, Counted};
use std::error::Error;

fn main() -> Result<(), Box<dyn Error>> {
    let arguments: Vec<String> = std::env::args().skip(1).collect();
    let [file, session, strobe, close] =
        <[String; 4]>::try_from(arguments).map_err(|_| "FILE.ghw SESSION STROBE CLOSE")?;
    let file = std::fs::read(file)?;
    let trace = ghw::open(&file)?;
    // A bit or a slice of another signal has no events of its own, and so no reference to count by.
    let reference = |name: &str| {
        let signal = trace.find(name).ok_or_else(|| format!("no signal {name}"))?;
        signal.reference().ok_or_else(|| format!("{name} has no events of its own"))
    };
    let (session, strobe, close) = (reference(&session)?, reference(&strobe)?, reference(&close)?);

    let reading = read_sections(trace.tables(), trace.big_endian(), trace.sections())?.time_rule()?;
    let (mut rises, mut handed_out, mut held) = (0, 0, 0);
    for counted in reading.fragments(session, strobe, close)? {
        match counted {
            Counted::Fragment { time, session } => {
                println!("{time} fs: a fragment of session {session:x}");
                rises += 1;
            }
            Counted::Closed { count, .. } => handed_out += count,
            Counted::Held { count, .. } => held += count,
        }
    }
    println!("{rises} rises = {handed_out} handed out + {held} still held");
    Ok(())
}
