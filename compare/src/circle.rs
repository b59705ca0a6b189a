//! Document 02's W2: change streams written as sections and read by every side, and section bytes read back into change records.
//! The laws are told of plain's outcomes; wherever they go, every other side is held to plain.
use crate::cases::{hex, Case, Entry};
use crate::gen::{self, Rng};
use crate::host::Host;
use crate::judge::{plain_outcome, sides};
use crate::plain::{Outcome, Rooms, Tables, MOST_INPUT};
use crate::runs::{fitted, random, vector, without_last, worked_bytes, worked_tables, Go, Session, Stop};
use std::collections::hash_map::DefaultHasher;
use std::collections::HashSet;
use std::hash::{Hash, Hasher};

const TAILER: &[u8] = b"TAI\0\0\0\0\0\0\0\0\0";

/// Bytes put to an entry under a case's tables and flag, with room enough: plain's outcome, where all sides have it.
fn put(entry: Entry, case: &Case, input: &[u8], host: &mut Host) -> Result<Outcome, String> {
    let case = fitted(Case { big: case.big, ..Case::new(entry, &case.tables, input.to_vec()) }, 0);
    let plain = plain_outcome(&case);
    match sides(&case, &plain, host).difference {
        Some(text) => Err(format!("then {}, input {}\n{}", entry.name(), hex(input), text)),
        None => Ok(plain),
    }
}

fn must(good: bool, what: &str, of: &Outcome) -> Result<(), String> {
    if good {
        return Ok(());
    }
    Err(format!("{}: {:?}, bytes {}", what, of.answer, hex(&of.events)))
}

/// The same events, values and steps, both accepted.
fn alike(a: &Outcome, b: &Outcome) -> Result<(), String> {
    let same = a.answer.number == 0 && b.answer.number == 0 && a.events == b.events && a.values == b.values;
    must(same && a.answer.steps == b.answer.steps, "other events than change reading's", a)
}

/// What holds of a case beside the other entries; nothing is told of those that were there before W2.
pub fn laws(case: &Case, outcome: &Outcome, host: &mut Host) -> Result<(), String> {
    match (case.entry, outcome.answer.number) {
        // Refusals of these calls' own, and the limits of their own rooms.
        (Entry::Written, 1 | 16 | 22 | 23) | (Entry::Back, 1 | 16) => Ok(()),
        (Entry::Written, 0) => written(case, outcome, host),
        (Entry::Back, 0) => back(case, outcome, host),
        (Entry::Written, _) => refused(Entry::Changes, case, outcome, host),
        (Entry::Back, _) => refused(Entry::Sections, case, outcome, host),
        _ => Ok(()),
    }
}

/// "All of 01's refusals that apply": the reading of the same bytes is refused so too.
fn refused(reading: Entry, case: &Case, outcome: &Outcome, host: &mut Host) -> Result<(), String> {
    let read = put(reading, case, &case.input, host)?;
    must(read.answer == outcome.answer, "the reading isn't refused so", &read)
}

/// "Where the written bytes are within the section limit, reading them gives the same events as change reading, and reading what
/// we wrote back into change records and writing again gives the same bytes."
fn written(case: &Case, out: &Outcome, host: &mut Host) -> Result<(), String> {
    let changes = put(Entry::Changes, case, &case.input, host)?;
    let answer = &out.answer;
    must(answer.read == case.input.len() as u64 && answer.steps == changes.answer.steps, "not all was read", out)?;
    if out.events.len() > MOST_INPUT {
        return Ok(());
    }
    let sections = put(Entry::Sections, case, &out.events, host)?;
    alike(&sections, &changes)?;
    must(sections.answer.read == answer.events, "something follows the tailer", &sections)?;
    let back = put(Entry::Back, case, &out.events, host)?;
    must(back.answer.number == 0 && back.events == case.input, "the stream doesn't come back", &back)?;
    let again = put(Entry::Written, case, &back.events, host)?;
    must(again.events == out.events, "other bytes when written again", &again)
}

/// Records of any sections give the same events; written they give 23 where times fall or jump too far between sections, and
/// otherwise come back themselves.
fn back(case: &Case, out: &Outcome, host: &mut Host) -> Result<(), String> {
    let sections = put(Entry::Sections, case, &case.input, host)?;
    must(sections.answer.read == out.answer.read && sections.answer.steps == out.answer.steps, "section reading ended otherwise", out)?;
    let written = put(Entry::Written, case, &out.events, host)?;
    if out.events.len() > MOST_INPUT {
        return must(written.answer.number == 1, "too many change bytes were written", &written);
    }
    alike(&sections, &put(Entry::Changes, case, &out.events, host)?)?;
    if written.answer.number == 23 {
        return Ok(());
    }
    must(written.answer.number == 0, "the records can't be written", &written)?;
    let again = put(Entry::Back, case, &written.events, host)?;
    must(again.events == out.events, "other records when read back again", &again)
}

fn time(time: u64) -> Vec<u8> {
    [&[1][..], &time.to_be_bytes()].concat()
}

fn byte(id: u32, value: u8) -> Vec<u8> {
    [&[2][..], &id.to_be_bytes(), &[value]].concat()
}

fn wide(id: u32, value: u64) -> Vec<u8> {
    [&[3][..], &id.to_be_bytes(), &value.to_be_bytes()].concat()
}

/// Document 01's worked example with signals of kinds 5 and 6 besides.
fn all_kinds() -> Tables {
    let mut t = worked_tables();
    t.kinds.push(6);
    t.refs.push(5);
    t.vecs.push(0);
    t
}

/// Every room up to what is needed and one more, for a stream with every kind of record and of value, and for its sections.
fn every_room(s: &mut Session) -> Go {
    let t = all_kinds();
    let first = [time(10), byte(1, 8), byte(2, 1), byte(3, 0), byte(4, 255), wide(5, 1 << 63), wide(6, 0x3ff0_0000_0000_00ff)];
    let later = [time(10), wide(5, 64), vec![4], time(300), vec![4], time(1 << 62), byte(3, 1), wide(6, 1)];
    let stream = [first.concat(), vec![4], later.concat(), vec![4]].concat();
    for big in [false, true] {
        let written = Case { big, ..Case::new(Entry::Written, &t, stream.clone()) };
        let cycle = Case { entry: Entry::Back, input: plain_outcome(&written).events, ..written.clone() };
        let example = Case { big, ..Case::new(Entry::Back, &without_last(worked_tables()), worked_bytes(big)) };
        for case in [written, cycle, example] {
            let case = fitted(case, 1);
            for events in 0..=case.rooms.events {
                s.put(&Case { rooms: Rooms { events, ..case.rooms }, ..case.clone() })?;
            }
        }
    }
    Ok(())
}

/// Every size of number: values of kind 5, jumps between times and, over the most signals, deltas of ids.
fn every_size(s: &mut Session) -> Go {
    let five = Tables { kinds: vec![5], refs: vec![1], vecs: vec![0], ..Tables::default() };
    for bits in 0..64 {
        let edge = 1u64 << bits;
        let values = [edge - 1, edge, !edge, edge.wrapping_neg()].map(|v| wide(1, v));
        for value in values {
            let stream = [time(edge), value, vec![4]].concat();
            s.put(&fitted(Case::new(Entry::Written, &five, stream), 0))?;
        }
        // Up to 2^63-1 a jump is good, 2^63 is refused; so is every fall.
        for to in [edge - 1, edge, edge + 1] {
            for from in [0, 1, 2, edge] {
                let stream = [time(from), vec![4], time(to), vec![4]].concat();
                s.put(&fitted(Case::new(Entry::Written, &Tables::default(), stream), 0))?;
            }
        }
    }
    let n = 65_535u32;
    let plain = Tables { kinds: vec![4; n as usize], refs: vec![1; n as usize], vecs: vec![0; n as usize], ..Tables::default() };
    for t in [vector(n, 1), plain] {
        let mut stream = vec![];
        for delta in (0..16).flat_map(|bits| [1 << bits, (1 << bits) + 1, (2 << bits) - 1]) {
            let ids = (1..=n / delta).map(|i| i * delta).take(3).filter(|id| *id < n);
            stream.extend([time(7), ids.flat_map(|id| byte(id, 1)).collect(), byte(n, 0), vec![4]].concat());
        }
        s.put(&fitted(Case { big: true, ..Case::new(Entry::Written, &t, stream) }, 0))?;
        let twice = [time(7), byte(n, 0), byte(n, 0), vec![4]].concat();
        s.put(&fitted(Case::new(Entry::Written, &t, twice), 0))?;
    }
    Ok(())
}

/// Every order of a few records between a time and a step end, and the longest inputs with one byte more.
pub fn exhaustive(s: &mut Session) -> Go {
    let t = all_kinds();
    let times = [time(0), time(1), time((1 << 63) - 1), time(1 << 63), time(u64::MAX)];
    let writes = [byte(1, 3), byte(2, 1), wide(5, 5), wide(6, 5)];
    let records: Vec<Vec<u8>> = times.into_iter().chain(writes).chain([vec![4]]).collect();
    let numbers: Vec<usize> = (0..records.len()).collect();
    s.strings(&numbers, 4, &|word| {
        let between: Vec<u8> = word.iter().flat_map(|i| records[*i].clone()).collect();
        Some(Case::new(Entry::Written, &t, [time(1), between, vec![4]].concat()))
    })?;
    // Change bytes just within the limit, and one more.
    let t = Tables { kinds: vec![4, 4, 5], refs: vec![1; 3], vecs: vec![0; 3], ..Tables::default() };
    let mut input = [time(3), byte(1, 1), byte(2, 1), wide(3, 1 << 63), vec![4]].concat();
    input.extend([time(3), vec![4]].concat().repeat((MOST_INPUT - input.len()) / 10));
    assert_eq!(input.len(), MOST_INPUT);
    s.put(&fitted(Case::new(Entry::Written, &t, input.clone()), 0))?;
    input.push(4);
    s.put(&fitted(Case::new(Entry::Written, &t, input), 0))?;
    // So with section bytes; and sections whose records are past the limit.
    for length in [MOST_INPUT, MOST_INPUT + 1] {
        let mut input = TAILER.to_vec();
        input.resize(length, 0x55);
        s.put(&fitted(Case::new(Entry::Back, &t, input), 0))?;
    }
    let steps = [&b"CYC\0"[..], &[0; 8], &[0; 4_000_000], b"\0\x7fECY\0", TAILER].concat();
    s.put(&fitted(Case::new(Entry::Back, &t, steps), 0))
}

/// The case with room enough, and, now and then, with just enough, one byte short, and less; every room of a few small ones.
fn with_rooms(s: &mut Session, rng: &mut Rng, case: &Case) -> Go {
    let exact = fitted(case.clone(), 0);
    let need = exact.rooms.events;
    let mut rooms = vec![need + rng.pick(&[0, 1, 40])];
    if rng.percent(35) {
        rooms.extend([need, need.saturating_sub(1), rng.below(need + 1)]);
    }
    if need < 60 && rng.percent(2) {
        rooms.extend(0..need);
    }
    for events in rooms {
        s.put(&Case { rooms: Rooms { events, ..exact.rooms }, ..exact.clone() })?;
    }
    Ok(())
}

/// What tells one stream from another, its tables and its flag among it.
fn print_of(case: &Case) -> u64 {
    let t = &case.tables;
    let mut hasher = DefaultHasher::new();
    (case.big, &case.input, &t.kinds, &t.refs, &t.vecs, &t.mins, &t.maxs, &t.states, &t.vec_refs).hash(&mut hasher);
    hasher.finish()
}

/// Random streams and sections until so many streams, no two alike and none without a write, went round.
pub fn random_runs(s: &mut Session, seed: u64, streams: u64) -> Result<u64, Stop> {
    every_room(s)?;
    every_size(s)?;
    let mut rng = Rng::new(seed ^ 0x5732 << 40);
    let mut seen = HashSet::new();
    while (seen.len() as u64) < streams {
        let blocks = rng.pick(&[1, 2, 3, 4, 6, 9]);
        let t = gen::tables(&mut rng, blocks);
        for _ in 0..6 {
            let case = random(Entry::Written, &mut rng, &t);
            with_rooms(s, &mut rng, &case)?;
            let out = plain_outcome(&fitted(case.clone(), 0));
            // A time and a step end are ten bytes.
            if out.answer.number == 0 && case.input.len() as u64 > 10 * out.answer.steps {
                seen.insert(print_of(&case));
            }
            if out.answer.number == 0 && rng.percent(30) {
                let mut copy = Case { entry: Entry::Back, input: out.events, ..case };
                if rng.percent(70) {
                    copy.input = gen::damaged(&mut rng, &copy.input);
                }
                with_rooms(s, &mut rng, &copy)?;
            }
        }
        for _ in 0..3 {
            let case = random(Entry::Back, &mut rng, &t);
            with_rooms(s, &mut rng, &case)?;
        }
        // A stream that isn't meant to be written, and tables that aren't good.
        if rng.percent(30) {
            let case = random(Entry::Changes, &mut rng, &t);
            with_rooms(s, &mut rng, &Case { entry: Entry::Written, ..case })?;
        }
        if rng.percent(40) {
            let tables = gen::bad_tables(&mut rng, &t);
            for entry in [Entry::Written, Entry::Back] {
                let case = random(entry, &mut rng, &t);
                with_rooms(s, &mut rng, &Case { tables: tables.clone(), ..case })?;
            }
        }
    }
    Ok(seen.len() as u64)
}

/// Each cycle section of a file, alone with a tailer of zeros: read back into change records and written it is the file's own bytes.
/// How many bytes they have.
pub fn cycles(t: &Tables, big: bool, sections: &[&[u8]], host: &mut Host) -> Result<usize, String> {
    let mut bytes = 0;
    for section in sections.iter().filter(|s| s.starts_with(b"CYC\0")) {
        let alone = [section, TAILER].concat();
        let case = Case { big, ..Case::new(Entry::Back, t, alone) };
        let back = put(Entry::Back, &case, &case.input, host)?;
        laws(&case, &back, host)?;
        let written = put(Entry::Written, &case, &back.events, host)?;
        let same = written.events.iter().zip(&case.input).take_while(|(a, b)| a == b).count();
        must(written.events == case.input, &format!("a cycle section other than the file's from byte {} on", same), &written)?;
        bytes += section.len();
    }
    Ok(bytes)
}
