//! Damaged headers, put to an opener.
use crate::mutate::{damage, Random};
use std::panic::{catch_unwind, AssertUnwindSafe};
use std::time::{Duration, Instant};

/// What an opener says of a file: how much there was to see, or the place and the words of its refusal.
pub type Opened = Result<usize, (usize, String)>;

/// Puts damaged headers to `open`; false where one of them panicked, had no place or words, or took a second.
pub fn run(seed: u64, count: u64, samples: &[Vec<u8>], ends: &[usize], open: impl Fn(&[u8]) -> Opened) -> bool {
    let (mut good, mut refused, mut bad, mut slowest) = (0u64, 0u64, 0u64, Duration::ZERO);
    let from = Instant::now();
    for turn in 0..count {
        let mut random = Random(seed.wrapping_add(turn.wrapping_mul(0x2545_f491_4f6c_dd1d)));
        let base = random.below(samples.len());
        let file = damage(&mut random, samples, base, ends[base]);
        let begun = Instant::now();
        let result = catch_unwind(AssertUnwindSafe(|| open(&file)));
        let spent = begun.elapsed();
        slowest = slowest.max(spent);
        let fault = match result {
            Err(_) => Some("a panic".to_string()),
            Ok(Err((place, _))) if place > file.len() => Some(format!("place {place} of {}", file.len())),
            Ok(Err((_, words))) if words.is_empty() => Some("no words".into()),
            _ if spent > Duration::from_secs(1) => Some(format!("{spent:?}")),
            Ok(Ok(_)) => {
                good += 1;
                None
            }
            Ok(Err(_)) => {
                refused += 1;
                None
            }
        };
        if let Some(fault) = fault {
            bad += 1;
            println!("seed {seed}, turn {turn}: {fault}");
        }
    }
    println!(
        "{count} damaged headers: {good} opened, {refused} refused, {bad} wrong; the slowest {slowest:?}; {:?} in all",
        from.elapsed()
    );
    bad == 0
}

/// The most memory that this process has had, as the system says it.
pub fn peak() -> String {
    let status = std::fs::read_to_string("/proc/self/status").unwrap_or_default();
    let line = status.lines().find(|line| line.starts_with("VmHWM"));
    line.map_or("unknown".into(), |line| line.split_whitespace().skip(1).collect::<Vec<_>>().join(" "))
}
