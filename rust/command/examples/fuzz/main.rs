//! Damaged files, put to `ghw::open` and to the whole command in this process. The same seed does the same.
//!
//!     cargo run --example fuzz -- headers COUNT [SEED]
//!     cargo run --example fuzz -- command COUNT [SEED]
mod headers;
mod mutate;

use doorquill::ghw;
use mutate::{damage, Random};
use std::ffi::OsString;
use std::panic::{catch_unwind, AssertUnwindSafe};
use std::time::{Duration, Instant};

const SAMPLES: [&str; 4] = ["kinds_small.ghw", "reassembly_l12.ghw", "names.ghw", "names_filtered.ghw"];

fn main() {
    let args: Vec<String> = std::env::args().skip(1).collect();
    let number = |place: usize| args.get(place).and_then(|text| text.parse().ok());
    let (count, seed) = (number(1).unwrap_or(10_000), number(2).unwrap_or(1));
    let folder = concat!(env!("CARGO_MANIFEST_DIR"), "/../samples");
    let samples: Vec<Vec<u8>> =
        SAMPLES.iter().map(|name| std::fs::read(format!("{folder}/{name}")).expect(name)).collect();
    let good = match args.first().map(String::as_str) {
        Some("headers") => {
            let ends: Vec<usize> =
                samples.iter().map(|file| ghw::open(file).expect("a sample").sections_at()).collect();
            headers::run(seed, count, &samples, &ends, open)
        }
        Some("command") => command(seed, count, &samples),
        _ => {
            eprintln!("fuzz headers COUNT [SEED], or fuzz command COUNT [SEED]");
            std::process::exit(2)
        }
    };
    println!("most memory: {}", headers::peak());
    std::process::exit(i32::from(!good))
}

/// Opens a file, and looks at all that can be asked of it: how much there was to see.
fn open(file: &[u8]) -> headers::Opened {
    let trace = ghw::open(file).map_err(|error| (error.place, error.sentence))?;
    let mut seen = 0;
    for signal in trace.signals() {
        seen += signal.path().len() + signal.type_name().len() + signal.ids().len();
        seen += signal.literals().len() + signal.units().len() + format!("{:?}", signal.values()).len();
        seen += format!("{:?}{:?}{:?}", signal.relation(), signal.bits(), signal.kind()).len();
    }
    for path in trace.signals().take(3).map(|signal| signal.path()) {
        assert!(trace.find(&path).is_some(), "{path}");
    }
    seen += trace.scopes().take(100).map(|scope| scope.path().len()).sum::<usize>();
    Ok(seen)
}

/// Arguments for a file, of which some fit it.
fn arguments(random: &mut Random, file: &str) -> Vec<OsString> {
    let words = |text: &str| text.replace("FILE", file).split(' ').map(OsString::from).collect::<Vec<_>>();
    let lines = [
        "signals FILE",
        "signals FILE --json",
        "signals FILE *a*",
        "check FILE",
        "check FILE --json --salvage",
        "events FILE --salvage",
        "events FILE --raw",
        "events FILE --json --from 5ns --to 1us",
        "events FILE --signal names.bus8 --signal names.r.count",
        "fragments FILE --session reassembly.l12.s_bv --strobe reassembly.l12.s_frag --close reassembly.l12.s_close --salvage",
        "fragments FILE --session reassembly.l12.s_slv --strobe reassembly.clk --close reassembly.l12.s_close --as-bits --at 25ns",
        "fragments FILE --session names.word --strobe names.clk --close names.yes --as-bits --json --salvage",
        "fragments FILE --session kinds.bv12 --strobe kinds.b --close kinds.bool",
    ];
    words(lines[random.below(lines.len())])
}

/// Puts damaged files to the whole command; false where one of them panicked, had no words or took ten seconds.
fn command(seed: u64, count: u64, samples: &[Vec<u8>]) -> bool {
    let path = std::env::temp_dir().join(format!("doorquill-fuzz-{}.ghw", std::process::id()));
    let name = path.to_string_lossy().into_owned();
    let (mut statuses, mut bad, mut slowest) = ([0u64; 3], 0u64, Duration::ZERO);
    let from = Instant::now();
    for turn in 0..count {
        let mut random = Random(seed.wrapping_add(turn.wrapping_mul(0x2545_f491_4f6c_dd1d)));
        let base = random.below(samples.len());
        // half of the damage anywhere, half of it in the sections
        let file = match random.below(2) {
            0 => damage(&mut random, samples, base, usize::MAX),
            _ => {
                let at = ghw::open(&samples[base]).map_or(0, |trace| trace.sections_at());
                let sections: Vec<Vec<u8>> = samples.iter().map(|file| file[at.min(file.len())..].to_vec()).collect();
                [&samples[base][..at], &damage(&mut random, &sections, base, usize::MAX)].concat()
            }
        };
        std::fs::write(&path, &file).expect("a file for the turn");
        let args = arguments(&mut random, &name);
        let (mut out, mut err) = (vec![], vec![]);
        let begun = Instant::now();
        let ran = catch_unwind(AssertUnwindSafe(|| doorquill_command::run(args.clone(), &mut out, &mut err, false)));
        let spent = begun.elapsed();
        slowest = slowest.max(spent);
        let fault = match ran {
            Ok(status @ 0..=1) if spent < Duration::from_secs(10) && (status == 0 || !err.is_empty()) => {
                statuses[status as usize] += 1;
                None
            }
            Ok(status) => Some(format!("status {status} after {spent:?}: {}", String::from_utf8_lossy(&err))),
            Err(_) => Some("a panic".to_string()),
        };
        if let Some(fault) = fault {
            bad += 1;
            println!("seed {seed}, turn {turn}: {args:?}: {fault}");
        }
    }
    let _ = std::fs::remove_file(&path);
    println!(
        "{count} damaged files through the command: {} answered, {} refused, {bad} wrong; the slowest {slowest:?}; {:?} in all",
        statuses[0],
        statuses[1],
        from.elapsed()
    );
    bad == 0
}
