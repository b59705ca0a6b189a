//! The port of the GHW section reader beside the crate's own Rust and beside a plain reading of document 01.
mod bench;
mod cases;
mod circle;
#[cfg(dropin)]
mod dropin;
mod gathering;
mod gen;
mod host;
#[cfg_attr(not(port), allow(dead_code))]
mod inputs;
mod judge;
mod plain;
#[allow(dead_code)]
#[path = "../../rust/doorquill/src/raw.rs"]
mod raw;
mod readings;
mod requests;
mod runs;
mod sample;
mod written;

use cases::Entry;
use runs::Session;
use std::process::exit;

const HELP: &str = "compare run [--seed S] [--sections N] [--changes N] [--events N] [--no-exhaustive] [--examples]
    the plain reading, the crate and (where it is linked in) the port, on generated inputs; stops at the first difference
compare self ..           the same, but says that it was run without the port
compare written [--seed S] [--streams N] [--no-exhaustive]
    change streams written as sections and read by all, and sections read back, until N streams went round
compare readings          the inputs with chosen answers
compare requests [--seed S] [--inputs N] [--samples DIR]
    document 02's requests: inputs with chosen answers, and laws on N random ones for each request
compare samples DIR       real files: NAME.ghw, NAME.listing-in, NAME.listing-out
compare dropin [--seed S] [--inputs N] [--samples DIR]
    Doorquill's file in place of the crate's own signals.rs (rust/wellen), beside that file
compare limits            the largest buffers and one past them (up to 5 GB of memory)
compare case FILE         what each side says of the cases of a file
compare sample FILE       writes the fixed list; compare replay FILE puts it to every side again
compare bench [ROUNDS [ROW]]    times";

fn option(args: &[String], name: &str, otherwise: u64) -> u64 {
    match args.iter().position(|a| a == name) {
        None => otherwise,
        Some(i) => args.get(i + 1).and_then(|n| n.parse().ok()).unwrap_or_else(|| {
            eprintln!("{} takes a number", name);
            exit(2)
        }),
    }
}

fn run(args: &[String]) -> bool {
    let seed = option(args, "--seed", 1);
    let mut s = Session::default();
    let started = std::time::Instant::now();
    let whole = || -> runs::Go {
        if !args.iter().any(|a| a == "--no-exhaustive") {
            runs::exhaustive(&mut s)?;
            runs::long(&mut s)?;
            println!(
                "short inputs, exhaustively, and long ones: sections {}, changes {}, events {}",
                s.total(Entry::Sections),
                s.total(Entry::Changes),
                s.total(Entry::Events)
            );
        }
        for (entry, name, count) in
            [(Entry::Sections, "--sections", 100_000), (Entry::Changes, "--changes", 50_000), (Entry::Events, "--events", 50_000)]
        {
            runs::random_runs(&mut s, seed, entry, option(args, name, count))?;
        }
        Ok(())
    }();
    s.report(args.iter().any(|a| a == "--examples"));
    ended(seed, started, host::Host::LINKED, whole.is_ok())
}

/// The last line of a run: by whom, and how it ended.
fn ended(seed: u64, started: std::time::Instant, port: bool, good: bool) -> bool {
    let sides = if port { format!("plain, crate and {}", host::Host::NAME) } else { "plain and crate".to_string() };
    let end = if good { "no difference" } else { "DIFFERENCE" };
    println!("seed {}, {} seconds, {}: {}", seed, started.elapsed().as_secs(), sides, end);
    good
}

fn written(args: &[String]) -> bool {
    let seed = option(args, "--seed", 1);
    let mut s = Session::default();
    let started = std::time::Instant::now();
    let whole = || -> Result<u64, runs::Stop> {
        if !args.iter().any(|a| a == "--no-exhaustive") {
            circle::exhaustive(&mut s)?;
            println!("short streams, exhaustively, and long ones: {}", s.total(Entry::Written));
        }
        circle::random_runs(&mut s, seed, option(args, "--streams", 20_000))
    }();
    s.report(false);
    if let Ok(streams) = whole {
        println!(
            "{} random streams, no two alike and none without a write, went round: written, read as sections with the stream's events,",
            streams
        );
        println!("  read back as the stream itself, written again as the same bytes");
    }
    ended(seed, started, host::Host::LINKED, whole.is_ok())
}

#[cfg(dropin)]
fn dropin(args: &[String]) -> bool {
    let dir = args.iter().position(|a| a == "--samples").and_then(|i| args.get(i + 1));
    dropin::dropin(option(args, "--seed", 1), option(args, "--inputs", 50_000), dir.map(String::as_str))
}

#[cfg(not(dropin))]
fn dropin(_: &[String]) -> bool {
    println!("the drop-in isn't linked in: it needs the port's archive, and libbench.a beside it");
    false
}

fn limits() -> bool {
    let mut s = Session::default();
    let good = runs::limits(&mut s).is_ok();
    s.report(false);
    println!("{}", if good { "no difference" } else { "DIFFERENCE" });
    good
}

fn main() {
    calls::catch_panics();
    let args: Vec<String> = std::env::args().skip(1).collect();
    let file = || {
        args.get(1).cloned().unwrap_or_else(|| {
            eprintln!("{}", HELP);
            exit(2)
        })
    };
    let good = match args.first().map(String::as_str) {
        Some("run") | Some("self") => run(&args),
        Some("written") => written(&args),
        Some("dropin") => dropin(&args),
        Some("limits") => limits(),
        Some("readings") => readings::readings(),
        Some("requests") => {
            let dir = args.iter().position(|a| a == "--samples").and_then(|i| args.get(i + 1));
            requests::requests(option(&args, "--seed", 1), option(&args, "--inputs", 5_000), dir.map(String::as_str))
        }
        Some("samples") => readings::samples(&file()),
        Some("case") => readings::cases(&file()),
        Some("sample") => sample::write(&file()),
        Some("replay") => sample::replay(&file()),
        Some("bench") => {
            let number = |i: usize| args.get(i).and_then(|n: &String| n.parse().ok());
            bench::bench(number(1).unwrap_or(9), number(2))
        }
        _ => {
            eprintln!("{}", HELP);
            exit(2)
        }
    };
    exit(i32::from(!good));
}
