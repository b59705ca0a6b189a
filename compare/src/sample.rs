//! The fixed list: a few thousand cases with their answers, for a program that has no Rust at hand.
//!
//! The list is a run of frames and ends with an empty one. All numbers are big-endian. A frame is the length of its rest (2 bytes) and
//! the rest. Where that begins with a 2-byte 0 it is a heading, and its other bytes are the name of the cases after it. Otherwise it is a
//! case: 21 numbers of 2 bytes, and bytes end to end. The numbers: entry (1 sections, 2 changes, 3 time rule), flag; lengths of the lists
//! refs, vecs, mins, maxs, vec_refs, kinds, states; lengths of the input, of the time rule's value input, and of the event bytes and value
//! bytes that the answer reports; rooms for event bytes, value bytes, working bytes, working numbers; and the answer's number, place, read
//! and steps. The bytes: the lists, the input, the value input, the event bytes and value bytes, each in the order of its length (kinds and
//! states a byte each, the other lists 4 bytes). Past the reported bytes the outputs are zero, and all working room is.
use crate::cases::{parse, Case, Entry, AMPLE};
use crate::gathering;
use crate::gen::{self, Rng};
use crate::host::Host;
use crate::judge::{judge, plain_outcome};
use crate::plain::{Modes, Outcome, Rooms, Tables};
use crate::requests::w03;
use crate::runs::{random, worked_bytes, worked_tables};
use std::collections::{BTreeMap, BTreeSet};

/// The largest of each kind that the program has room for: signals, vectors, input, value input, events, values, working bytes.
const MOST: [usize; 7] = [140, 10, 2560, 40, 2048, 4096, 128];
/// The same for generated cases, which are kept small.
const SMALL: [usize; 7] = [32, 6, 256, 40, 512, 128, 64];

fn sizes(case: &Case) -> [usize; 7] {
    let t = &case.tables;
    let n = t.kinds.len().max(t.refs.len()).max(t.vecs.len());
    let v = t.mins.len().max(t.maxs.len()).max(t.states.len()).max(t.vec_refs.len());
    [n, v, case.input.len(), case.values.len(), case.rooms.events, case.rooms.values, case.rooms.room]
}

fn within(case: &Case, most: [usize; 7]) -> bool {
    case.entry != Entry::Lent
        && !case.entry.circle()
        && sizes(case).iter().zip(most).all(|(s, most)| *s <= most)
        && case.rooms.list <= most[1]
}

fn frame(case: &Case, o: &Outcome) -> Vec<u8> {
    let t = &case.tables;
    let a = &o.answer;
    let r = &case.rooms;
    let entry = match case.entry {
        Entry::Sections => 1,
        Entry::Changes => 2,
        _ => 3,
    };
    let numbers = [
        entry,
        usize::from(case.big) + 2 * usize::from(case.modes.reals_by_flag),
        t.refs.len(),
        t.vecs.len(),
        t.mins.len(),
        t.maxs.len(),
        t.vec_refs.len(),
        t.kinds.len(),
        t.states.len(),
        case.input.len(),
        case.values.len(),
        a.events as usize,
        a.values as usize,
        r.events,
        r.values,
        r.room,
        r.list,
        a.number as usize,
        a.place as usize,
        a.read as usize,
        a.steps as usize,
    ];
    let mut out: Vec<u8> = numbers.iter().flat_map(|n| u16::try_from(*n).expect("small").to_be_bytes()).collect();
    let list = |l: &[u32]| l.iter().flat_map(|x| x.to_be_bytes()).collect::<Vec<u8>>();
    let parts = [
        list(&t.refs),
        list(&t.vecs),
        list(&t.mins),
        list(&t.maxs),
        list(&t.vec_refs),
        t.kinds.clone(),
        t.states.clone(),
        case.input.clone(),
        case.values.clone(),
        o.events.clone(),
        o.values.clone(),
    ];
    out.extend(parts.concat());
    framed(&out)
}

fn framed(rest: &[u8]) -> Vec<u8> {
    let mut frame = u16::try_from(rest.len()).expect("small").to_be_bytes().to_vec();
    frame.extend(rest);
    frame
}

fn heading(name: &str) -> Vec<u8> {
    framed(&[&[0, 0], name.as_bytes()].concat())
}

/// Rooms of a case: just enough, a little more, or one short of something.
fn roomed(rng: &mut Rng, mut case: Case) -> Case {
    case.rooms = AMPLE;
    let made = plain_outcome(&case).made;
    let t = &case.tables;
    let sane = t.mins.len() == t.maxs.len()
        && t.mins.len() == t.states.len()
        && (0..t.mins.len()).all(|v| t.mins[v] <= t.maxs[v] && t.maxs[v] < 1000);
    let (room, list) = if case.entry == Entry::Events {
        (0, 0)
    } else if sane {
        crate::plain::needs(t)
    } else {
        (16, 4)
    };
    let more = rng.pick(&[0, 0, 1, 7]);
    let mut r = Rooms {
        events: made.events.len() + more,
        values: made.values.len() + more,
        room: room + more,
        list: (list + more).min(SMALL[1]),
        flat: 0,
    };
    if case.entry == Entry::Events {
        r = Rooms { values: 0, room: 0, list: 0, ..r };
    } else if more == 0 {
        match rng.below(14) {
            0 => r.values = r.values.saturating_sub(1),
            1 => r.room = r.room.saturating_sub(1),
            2 => r.list = r.list.saturating_sub(1),
            _ => {}
        }
    }
    if more == 0 && rng.percent(12) {
        r.events = r.events.saturating_sub(1 + rng.below(14));
    }
    case.rooms = r;
    case
}

/// Document 01's chosen readings that are no listing and small enough.
fn readings() -> Vec<Case> {
    let mut out: Vec<Case> = vec![];
    for named in parse(include_str!("../readings.txt")).expect("readings.txt is well formed") {
        let mut case = named.case;
        if named.listing || case.entry.circle() {
            continue;
        }
        if case.rooms.room == AMPLE.room {
            case.rooms.room = 64;
            case.rooms.list = MOST[1];
        }
        case.rooms.events = if case.rooms.events == AMPLE.events { 128 } else { case.rooms.events };
        case.rooms.values = if case.rooms.values == AMPLE.values { 32 } else { case.rooms.values };
        if case.entry == Entry::Events {
            case.rooms = Rooms { values: 0, room: 0, list: 0, ..case.rooms };
        }
        if within(&case, MOST) {
            out.push(case);
        } else {
            println!("too large: {}", named.name);
        }
    }
    out
}

/// Document 01's worked example in both flags, and generated cases.
fn oracle() -> Vec<Case> {
    let mut out: Vec<Case> = vec![];
    let mut rng = Rng::new(20_000);
    for big in [false, true] {
        let mut t = worked_tables();
        t.kinds.pop();
        t.refs.pop();
        t.vecs.pop();
        out.push(roomed(&mut rng, Case { big, ..Case::new(Entry::Sections, &t, worked_bytes(big)) }));
    }
    // So many for each entry, flag and answer.
    let mut seen: BTreeSet<String> = out.iter().map(Case::text).collect();
    let mut counts: BTreeMap<(Entry, bool, u64), usize> = BTreeMap::new();
    for turn in 0..400_000 {
        let entry = rng.pick(&[Entry::Sections, Entry::Sections, Entry::Changes, Entry::Events]);
        let blocks = rng.pick(&[1, 2, 3, 4]);
        let t = gen::tables(&mut rng, blocks);
        let mut case = random(entry, &mut rng, &t);
        if turn % 5 == 0 && entry != Entry::Events {
            case.tables = gen::bad_tables(&mut rng, &t);
        }
        let case = roomed(&mut rng, case);
        if !within(&case, SMALL) {
            continue;
        }
        let number = plain_outcome(&case).answer.number;
        let most = if number == 0 { 200 } else { 28 };
        let count = counts.entry((entry, case.big, number)).or_default();
        if *count < most && seen.insert(case.text()) {
            *count += 1;
            out.push(case);
        }
    }
    out
}

/// W3: reals in both modes and under both flags.
fn reals() -> Vec<Case> {
    let mut rng = Rng::new(30_000);
    let cases = w03::listed(&mut rng, 12, |case| within(&roomed(&mut Rng::new(1), case.clone()), SMALL));
    cases.into_iter().map(|case| roomed(&mut rng, case)).filter(|case| within(case, SMALL)).collect()
}

/// What a list has: counts by entry and answer, and the largest sizes.
#[derive(Default)]
struct Summary {
    counts: BTreeMap<(Entry, u64), usize>,
    largest: [usize; 7],
    kinds: [usize; 7],
}

impl Summary {
    fn add(&mut self, case: &Case, number: u64) {
        *self.counts.entry((case.entry, number)).or_default() += 1;
        if number == 0 {
            (0..7).filter(|k| case.tables.kinds.contains(&(*k as u8))).for_each(|k| self.kinds[k] += 1);
        }
        self.largest.iter_mut().zip(sizes(case)).for_each(|(l, s)| *l = (*l).max(s));
    }

    fn show(&self) {
        println!("  accepted cases with a signal of kind 0 to 6: {:?}", self.kinds);
        let l = self.largest;
        println!(
            "  largest: signals {}, vectors {}, input {}, value input {}, event room {}, value room {}, working bytes {}",
            l[0], l[1], l[2], l[3], l[4], l[5], l[6]
        );
    }

    /// What the program prints of a list that is as stored.
    fn text(&self, name: &str) -> String {
        let count = |entry, number| self.counts.get(&(entry, number)).copied().unwrap_or(0);
        let mut out = format!("{}\n", name);
        for number in 0..=20 {
            let [s, c, e] = [Entry::Sections, Entry::Changes, Entry::Events].map(|entry| count(entry, number));
            if s + c + e > 0 {
                let answer = if number == 0 { "accepted".to_string() } else { format!("refused {}", number) };
                out += &format!("{}: sections {}, changes {}, time rule {}\n", answer, s, c, e);
            }
        }
        let all: usize = self.counts.values().sum();
        out + &format!("{} cases: {} as stored, 0 not\n", all, all)
    }
}

/// The list, and beside it what the program prints.
pub fn write(file: &str) -> bool {
    let mut host = Host::default();
    let mut bytes = vec![];
    let mut printed = String::new();
    for (name, cases) in [("gathering", gathering::list()), ("readings", readings()), ("oracle", oracle()), ("reals", reals())] {
        let from = bytes.len();
        let mut summary = Summary::default();
        bytes.extend(heading(name));
        for case in &cases {
            // Only what every side agrees on goes into the list.
            if let Some(text) = judge(case, &mut host).difference {
                println!("DIFFERENCE\n{}\n{}", text, case.text());
                return false;
            }
            assert!(within(case, MOST), "the program has no room for\n{}", case.text());
            let o = plain_outcome(case);
            summary.add(case, o.answer.number);
            bytes.extend(frame(case, &o));
        }
        let text = summary.text(name);
        print!("{}", text);
        println!("  {} bytes", bytes.len() - from);
        summary.show();
        printed += &text;
    }
    bytes.extend([0, 0]);
    if let Err(e) = std::fs::write(file, &bytes).and_then(|()| std::fs::write(format!("{}.printed", file), printed)) {
        println!("{}: {}", file, e);
        return false;
    }
    println!("{} bytes", bytes.len());
    true
}

/// A frame back to a case and the outputs that it must have.
fn unframe(frame: &[u8]) -> (Case, [u64; 6], Vec<u8>, Vec<u8>) {
    let number = |i: usize| usize::from(u16::from_be_bytes([frame[2 * i], frame[2 * i + 1]]));
    let mut at = 42;
    let mut take = |count: usize| {
        at += count;
        frame[at - count..at].to_vec()
    };
    let words = |b: Vec<u8>| b.chunks(4).map(|c| u32::from_be_bytes([c[0], c[1], c[2], c[3]])).collect::<Vec<u32>>();
    let entry = [Entry::Sections, Entry::Changes, Entry::Events][number(0) - 1];
    let tables = Tables {
        refs: words(take(4 * number(2))),
        vecs: words(take(4 * number(3))),
        mins: words(take(4 * number(4))),
        maxs: words(take(4 * number(5))),
        vec_refs: words(take(4 * number(6))),
        kinds: take(number(7)),
        states: take(number(8)),
    };
    let rooms = Rooms { events: number(13), values: number(14), room: number(15), list: number(16), flat: 0 };
    let input = take(number(9));
    let modes = Modes { reals_by_flag: number(1) >= 2 };
    let case = Case { big: number(1) % 2 == 1, modes, values: take(number(10)), rooms, ..Case::new(entry, &tables, input) };
    let answer = [17, 18, 19, 11, 12, 20].map(|i| number(i) as u64);
    let (events, values) = (take(number(11)), take(number(12)));
    assert_eq!(at, frame.len());
    (case, answer, events, values)
}

pub fn replay(file: &str) -> bool {
    let bytes = match std::fs::read(file) {
        Ok(bytes) => bytes,
        Err(e) => {
            println!("{}: {}", file, e);
            return false;
        }
    };
    let mut host = Host::default();
    let mut at = 0;
    let mut count = 0;
    loop {
        let length = usize::from(u16::from_be_bytes([bytes[at], bytes[at + 1]]));
        at += 2;
        if length == 0 {
            println!("{} cases replayed, no difference", count);
            return at == bytes.len();
        }
        if bytes[at..at + 2] == [0, 0] {
            at += length;
            continue;
        }
        let (case, answer, events, values) = unframe(&bytes[at..at + length]);
        let o = plain_outcome(&case);
        let a = o.answer;
        let same = [a.number, a.place, a.read, a.events, a.values, a.steps] == answer && o.events == events && o.values == values;
        if !same || judge(&case, &mut host).difference.is_some() {
            println!("DIFFERENCE at case {}\n{}", count, case.text());
            return false;
        }
        at += length;
        count += 1;
    }
}
