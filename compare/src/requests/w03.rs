//! W3: reals that follow the flag.
use super::{must, put, records, Request};
use crate::cases::{parse, Case, Entry};
use crate::gen::{self, Rng};
use crate::host::Host;
use crate::judge::plain_outcome;
use crate::plain::{Modes, Outcome, Tables};
use crate::runs::{self, with_rooms, Go, Session};

pub const REQUEST: Request = Request { name: "W3", stored: include_str!("../../requests/W03.txt"), random, real, laws };

/// Sections in which most plain signals are made reals.
fn of_reals(rng: &mut Rng, t: &Tables) -> Case {
    let mut t = t.clone();
    for id in 0..t.kinds.len() {
        if t.vecs[id] == 0 && rng.percent(60) {
            t.kinds[id] = 6;
        }
    }
    runs::random(Entry::Sections, rng, &t)
}

fn random(s: &mut Session, rng: &mut Rng, t: &Tables) -> Go {
    let mut case = of_reals(rng, t);
    case.modes.reals_by_flag = true;
    with_rooms(s, rng, case)
}

/// For the fixed list: the stored inputs under both flags and in both modes, and so many random ones that show a real under each flag, in
/// both modes.
pub fn listed(rng: &mut Rng, each: usize, fits: impl Fn(&Case) -> bool) -> Vec<Case> {
    let stored = parse(REQUEST.stored).expect("the stored inputs are well formed");
    let mut single: Vec<Case> = vec![];
    for named in stored {
        for big in [false, true] {
            let case = Case { big, modes: Modes::default(), ..named.case.clone() };
            if single.iter().all(|other| other.text() != case.text()) {
                single.push(case);
            }
        }
    }
    for big in [false, true] {
        let mut left = each;
        while left > 0 {
            let t = gen::tables(rng, 2);
            let case = of_reals(rng, &t);
            let made = plain_outcome(&case);
            let shows = made.answer.number == 0 && records(&made.events).iter().any(|record| record[0] == 4);
            if case.big == big && shows && fits(&case) {
                single.push(case);
                left -= 1;
            }
        }
    }
    let in_mode = |case: &Case, reals_by_flag| Case { modes: Modes { reals_by_flag, ..case.modes }, ..case.clone() };
    single.iter().flat_map(|case| [in_mode(case, false), in_mode(case, true)]).collect()
}

/// A file as it is, and as a host of the other byte order would have written it.
fn real(file: &Case) -> Vec<Case> {
    let modes = Modes { reals_by_flag: true, ..file.modes };
    vec![Case { modes, ..file.clone() }, Case { modes, big: !file.big, input: turned(&file.tables, &file.input, file.big), ..file.clone() }]
}

fn laws(case: &Case, outcome: &Outcome, host: &mut Host) -> Result<(), String> {
    if case.entry != Entry::Sections || !case.modes.reals_by_flag {
        return Ok(());
    }
    // Between the two modes: the bits of reals have their bytes turned round where the flag is big, and nothing else differs.
    let old = put(&Case { modes: Modes { reals_by_flag: false, ..case.modes }, ..case.clone() }, host)?;
    let mut events = vec![];
    for record in records(&old.events) {
        match record[0] {
            4 if case.big => events.extend(record[..5].iter().chain(record[5..].iter().rev())),
            _ => events.extend(record),
        }
    }
    must(outcome.answer == old.answer && outcome.values == old.values && outcome.events == events, "more than reals differs", &old)?;
    // With every number of fixed size turned round, under the other flag, the same is read.
    if outcome.answer.number != 0 {
        return Ok(());
    }
    let input = turned(&case.tables, &case.input, case.big);
    let other = put(&Case { big: !case.big, input, ..case.clone() }, host)?;
    let same = other.answer == outcome.answer && other.events == outcome.events && other.values == outcome.values;
    must(same, "turned round, something else is read", &other)
}

/// Accepted sections as a host of the other byte order writes them.
fn turned(t: &Tables, bytes: &[u8], big: bool) -> Vec<u8> {
    let mut turning = Turning { out: bytes.to_vec(), at: 0 };
    loop {
        turning.at += 4;
        match &turning.out[turning.at - 4..turning.at] {
            b"SNP\0" => {
                turning.at += 4;
                turning.fixed(8);
                (1..=t.kinds.len()).for_each(|id| turning.value(t, id));
                turning.at += 4;
            }
            b"CYC\0" => turning.cycle(t),
            b"DIR\0" => {
                turning.at += 4;
                let count = <[u8; 4]>::try_from(&turning.out[turning.at..turning.at + 4]).unwrap();
                turning.fixed(4);
                for _ in 0..if big { u32::from_be_bytes(count) } else { u32::from_le_bytes(count) } {
                    turning.at += 4;
                    turning.fixed(4);
                }
                turning.at += 4;
            }
            _ => return turning.out,
        }
    }
}

struct Turning {
    out: Vec<u8>,
    at: usize,
}

impl Turning {
    fn fixed(&mut self, length: usize) {
        self.out[self.at..self.at + length].reverse();
        self.at += length;
    }

    /// The bytes of a LEB128 number.
    fn number(&mut self) -> &[u8] {
        let from = self.at;
        while self.out[self.at] >= 128 {
            self.at += 1;
        }
        self.at += 1;
        &self.out[from..self.at]
    }

    fn value(&mut self, t: &Tables, id: usize) {
        match t.kinds[id - 1] {
            5 => {
                self.number();
            }
            6 => self.fixed(8),
            _ => self.at += 1,
        }
    }

    fn cycle(&mut self, t: &Tables) {
        self.fixed(8);
        loop {
            let mut id = 0;
            loop {
                // An id is below 2^16; what more bytes have is padding.
                let delta = self.number().iter().rev().fold(0, |n: u128, b| n << 7 | u128::from(b & 127)) as usize;
                if delta == 0 {
                    break;
                }
                id += delta;
                self.value(t, id);
            }
            // The sign of a signed number is bit 6 of its last byte.
            if self.number().last().map_or(false, |b| b & 64 != 0) {
                self.at += 4;
                return;
            }
        }
    }
}
