//! Doorquill's file in place of the crate's own `signals.rs` (`rust/wellen`), beside that file on the same inputs: the same calls of the encoder on all that both accept, and
//! the refusal that document 01 has, in words, on all else.
use crate::cases::{Case, Entry};
use crate::gen::{self, Rng};
use crate::plain::{self, Rooms, Tables};
use crate::runs;
use calls::{End, What};
use std::collections::BTreeMap;

/// How the two files took an input.
#[derive(Clone, Copy, PartialEq, Eq, PartialOrd, Ord)]
enum Taken {
    Alike,
    BothRefused,
    /// The number that the crate's own file, built for release, has no counterpart of: it goes on.
    GoesOn(u64),
}

const ROOMS: Rooms = Rooms { events: plain::MOST_OTHER, values: plain::MOST_OTHER, room: 1 << 20, list: 1 << 15, flat: 0 };

fn put(t: &Tables, big: bool, bytes: &[u8]) -> Result<(Taken, usize), String> {
    let own = wellen_release::drive::sections(t, big, bytes);
    let asked = wellen_dropin::drive::sections(t, big, bytes)?;
    let answer = plain::read_sections(t, big, bytes, &ROOMS).answer;
    let words = match (answer.number, &asked.end) {
        (0, Ok(())) => {
            let calls: Vec<What> = own.calls.iter().map(|call| call.what).collect();
            return match own.end {
                End::Done(_) if asked.calls == calls && asked.values == own.values => Ok((Taken::Alike, calls.len())),
                End::Done(_) => Err(format!("other calls: {:?} .. the crate's own: {:?}", asked.calls, calls)),
                end => Err(format!("the crate's own file refuses: {:?}", end)),
            };
        }
        (_, Err(words)) => words,
        (number, Ok(())) => return Err(format!("accepted, where the rules say {}", number)),
    };
    let refusal = doorquill::Refusal { number: answer.number as u8, place: answer.place };
    if *words != refusal.to_string() || !asked.calls.is_empty() {
        return Err(format!("{}, where the rules say: {}; {} calls", words, refusal, asked.calls.len()));
    }
    match own.end {
        End::Done(_) if (13..=15).contains(&answer.number) => Ok((Taken::GoesOn(answer.number), 0)),
        End::Done(_) => Err(format!("{}, where the crate's own file reads", words)),
        _ => Ok((Taken::BothRefused, 0)),
    }
}

#[derive(Default)]
struct Counts {
    taken: BTreeMap<Taken, u64>,
    calls: usize,
}

impl Counts {
    fn put(&mut self, name: &str, t: &Tables, big: bool, bytes: &[u8]) -> Result<(), String> {
        let (taken, calls) = put(t, big, bytes).map_err(|text| {
            let case = Case { big, ..Case::new(Entry::Sections, t, bytes.to_vec()) };
            format!("DIFFERENCE in {}\n{}\n{}", name, text, case.text())
        })?;
        *self.taken.entry(taken).or_default() += 1;
        self.calls += calls;
        Ok(())
    }
}

/// Real files, whole and cut at every eleventh byte; how many there were.
fn samples(counts: &mut Counts, dir: &str) -> Result<usize, String> {
    let entries = std::fs::read_dir(dir).map_err(|e| format!("{}: {}", dir, e))?;
    let mut found = 0;
    for path in entries.flatten().map(|entry| entry.path()).filter(|path| path.extension().map_or(false, |e| e == "listing-in")) {
        let name = path.display().to_string();
        let input = std::fs::read(&path).map_err(|e| format!("{}: {}", name, e))?;
        let (t, big, from) = plain::preamble(&input).map_err(|r| format!("{}: preamble: {:?}", name, r))?;
        for end in (from..=input.len()).rev().step_by(11) {
            counts.put(&name, &t, big, &input[from..end])?;
        }
        found += 1;
    }
    if found == 0 {
        return Err(format!("{}: no real file", dir));
    }
    Ok(found)
}

fn generated(counts: &mut Counts, seed: u64, inputs: u64) -> Result<(), String> {
    let mut rng = Rng::new(seed ^ 7 << 40);
    for i in 0..inputs {
        let blocks = rng.pick(&[1, 2, 3, 4, 6, 9]);
        let t = gen::tables(&mut rng, blocks);
        let case = runs::random(Entry::Sections, &mut rng, &t);
        counts.put(&format!("input {}", i), &case.tables, case.big, &case.input)?;
    }
    Ok(())
}

fn all(counts: &mut Counts, seed: u64, inputs: u64, dir: Option<&str>) -> Result<(), String> {
    if let Some(dir) = dir {
        println!("{} real files, whole and cut at every eleventh byte", samples(counts, dir)?);
    }
    generated(counts, seed, inputs)
}

pub fn dropin(seed: u64, inputs: u64, dir: Option<&str>) -> bool {
    let mut counts = Counts::default();
    let end = all(&mut counts, seed, inputs, dir);
    for (taken, count) in &counts.taken {
        match taken {
            Taken::Alike => println!("  accepted, the same {} calls  {:>9}", counts.calls, count),
            Taken::BothRefused => println!("  refused by both  {:>9}", count),
            Taken::GoesOn(number) => println!("  refused {}, where the crate's own file goes on  {:>9}", number, count),
        }
    }
    match &end {
        Ok(()) => println!("seed {}, {} generated inputs, the drop-in beside the crate's own file: no difference", seed, inputs),
        Err(text) => println!("{}", text),
    }
    end.is_ok()
}
