//! `doorquill explain`: what a refusal's number means.
use crate::json::Object;
use crate::options::Options;
use crate::stop::Stop;
use doorquill::refusal::{meaning, Meaning, MEANINGS};
use std::io::Write;

pub fn run(options: &Options, out: &mut dyn Write) -> Result<(), Stop> {
    let number = match options.number {
        Some(number) => number,
        None => {
            for m in MEANINGS {
                let line = if options.json { object(m) } else { format!("{:>3}  {}", m.number, m.sentence) };
                writeln!(out, "{line}")?;
            }
            return Ok(());
        }
    };
    let m = match meaning(number) {
        Some(m) => m,
        None => {
            return Err(Stop::Usage(format!("no refusal has the number {number}: `doorquill explain` lists them")));
        }
    };
    if options.json {
        writeln!(out, "{}", object(m))?;
        return Ok(());
    }
    writeln!(out, "{} ({}): {}", m.number, m.name, m.sentence)?;
    writeln!(out, "  place       {}", m.place)?;
    writeln!(out, "  smallest    {}", m.smallest)?;
    writeln!(out, "  what to do  {}", m.advice)?;
    Ok(())
}

fn object(m: &Meaning) -> String {
    Object::new()
        .plain("number", m.number)
        .text("name", m.name)
        .text("sentence", m.sentence)
        .text("place", m.place)
        .text("smallest", m.smallest)
        .text("advice", m.advice)
        .line()
}
