//! Cases in great number: exhaustive short ones and random ones, counted by entry and answer. Stops at the first difference.
use crate::cases::{Case, Entry, AMPLE};
use crate::gen::{self, Fault, Rng, Writer};
use crate::host::Host;
use crate::judge::{judge, plain_outcome, shrink, NAMED};
use crate::plain::{self, Modes, Rooms, Tables, MOST_OTHER};
use std::collections::BTreeMap;

#[derive(Default)]
pub struct Session {
    pub host: Host,
    counts: BTreeMap<(Entry, u64), u64>,
    named: BTreeMap<&'static str, (u64, Case)>,
}

/// A difference was found and told.
pub struct Stop;
pub type Go = Result<(), Stop>;

impl Session {
    pub fn put(&mut self, case: &Case) -> Go {
        let verdict = judge(case, &mut self.host);
        if let Some(text) = verdict.difference {
            println!("DIFFERENCE\n{}", text);
            let small = shrink(case, &mut self.host);
            let again = judge(&small, &mut self.host).difference.unwrap_or_default();
            println!("\nthe smallest found:\n{}{}", small.text(), again);
            return Err(Stop);
        }
        *self.counts.entry((case.entry, verdict.number)).or_default() += 1;
        if let Some(name) = verdict.named {
            let size = |c: &Case| (c.input.len(), c.tables.kinds.len());
            let (count, smallest) = self.named.entry(name).or_insert_with(|| (0, case.clone()));
            *count += 1;
            if size(case) < size(smallest) {
                *smallest = case.clone();
            }
        }
        Ok(())
    }

    pub fn total(&self, entry: Entry) -> u64 {
        self.counts.iter().filter(|((e, _), _)| *e == entry).map(|(_, c)| c).sum()
    }

    /// All cases, and how they were answered, in a line.
    pub fn summary(&self) -> (u64, String) {
        let mut by_number: BTreeMap<u64, u64> = BTreeMap::new();
        for ((_, number), count) in &self.counts {
            *by_number.entry(*number).or_default() += count;
        }
        let word = |number: &u64| if *number == 0 { "accepted".to_string() } else { format!("refused {}", number) };
        let words: Vec<String> = by_number.iter().map(|(number, count)| format!("{} {}", word(number), count)).collect();
        (by_number.values().sum(), words.join(", "))
    }

    pub fn report(&self, examples: bool) {
        for entry in Entry::ALL {
            if self.total(entry) == 0 {
                continue;
            }
            println!("{}: {} inputs", entry.name(), self.total(entry));
            for ((_, number), count) in self.counts.iter().filter(|((e, _), _)| *e == entry) {
                match number {
                    0 => println!("  accepted   {:>9}", count),
                    _ => println!("  refused {:>2} {:>9}", number, count),
                }
            }
        }
        if !self.named.is_empty() {
            println!("intended differences from the crate:");
        }
        for (name, what) in NAMED {
            if let Some((count, _)) = self.named.get(name) {
                println!("  {}: {} inputs ({})", name, count, what);
            }
        }
        if examples {
            for (name, (_, case)) in &self.named {
                println!("\n# {}\n{}", name, case.text().trim_end());
            }
        }
        if Host::LINKED {
            println!("{}: {} calls, lent memory checked at each", Host::NAME, self.host.calls);
        }
    }

    /// Every string of at most `most` tokens.
    pub fn strings<T: Copy>(&mut self, tokens: &[T], most: usize, case: &dyn Fn(&[T]) -> Option<Case>) -> Go {
        let mut word: Vec<usize> = vec![];
        loop {
            let chosen: Vec<T> = word.iter().map(|i| tokens[*i]).collect();
            if let Some(case) = case(&chosen) {
                self.put(&fitted(case, 3))?;
            }
            // The next word, shorter ones first.
            let mut i = word.len();
            loop {
                if i == 0 {
                    word = vec![0; word.len() + 1];
                    break;
                }
                i -= 1;
                word[i] += 1;
                if word[i] < tokens.len() {
                    break;
                }
                word[i] = 0;
            }
            if word.len() > most {
                return Ok(());
            }
        }
    }
}

/// The case with rooms that are enough, by `slack` more than needed.
pub fn fitted(mut case: Case, slack: usize) -> Case {
    case.rooms = Rooms { events: MOST_OTHER, values: MOST_OTHER, ..AMPLE };
    let made = plain_outcome(&case).made;
    let (room, list) = needs(&case.tables);
    case.rooms = Rooms {
        events: made.events.len() + slack,
        values: made.values.len() + slack,
        room: room + slack,
        list: list + slack,
        flat: 4 * list + slack,
    };
    case
}

/// Working room for tables that may be bad.
fn needs(t: &Tables) -> (usize, usize) {
    let even = t.mins.len() == t.maxs.len() && t.mins.len() == t.states.len();
    let sane = even && (0..t.mins.len()).all(|v| t.mins[v] <= t.maxs[v] && t.maxs[v] < 1 << 20);
    if sane {
        plain::needs(t)
    } else {
        (64, t.mins.len())
    }
}

/// The case with ample rooms, and, now and then, with each room exactly enough, one short, and less.
pub fn with_rooms(s: &mut Session, rng: &mut Rng, case: Case) -> Go {
    let slack = rng.pick(&[0, 1, 40]);
    let case = fitted(case, slack);
    s.put(&case)?;
    if Host::LINKED && case.entry == Entry::Sections && rng.percent(30) {
        let even = case.tables.maxs.len() == case.tables.mins.len()
            && case.tables.states.len() == case.tables.mins.len()
            && case.tables.vec_refs.len() == case.tables.mins.len();
        if even {
            let mut lent = Case { modes: Modes::default(), ..case.clone() };
            lent.entry = Entry::Lent;
            s.put(&lent)?;
            if lent.rooms.flat > slack {
                lent.rooms.flat -= slack + 1;
                s.put(&lent)?;
            }
        }
    }
    if !rng.percent(35) {
        return Ok(());
    }
    let exact = fitted(case, 0);
    s.put(&exact)?;
    let r = exact.rooms;
    let less = |n: usize| n.checked_sub(1);
    let fewer = Rooms { events: rng.below(r.events + 1), ..r };
    let mut all = vec![Some(fewer)];
    all.push(less(r.events).map(|events| Rooms { events, ..r }));
    if exact.entry != Entry::Events {
        let fewer = Rooms { values: rng.below(r.values + 1), ..r };
        all.push(Some(fewer));
        all.push(less(r.values).map(|values| Rooms { values, ..r }));
        all.push(less(r.room).map(|room| Rooms { room, ..r }));
        all.push(less(r.list).map(|list| Rooms { list, ..r }));
    }
    for rooms in all.into_iter().flatten() {
        s.put(&Case { rooms, ..exact.clone() })?;
    }
    Ok(())
}

const SECTION_FAULTS: [Fault; 10] = [
    Fault::None,
    Fault::Value,
    Fault::Id,
    Fault::Number,
    Fault::Time,
    Fault::Mark,
    Fault::Zeros,
    Fault::Negative,
    Fault::Record,
    Fault::Order,
];
const CHANGE_FAULTS: [Fault; 6] = [Fault::None, Fault::Value, Fault::Id, Fault::Order, Fault::Kind, Fault::Bounds];
const STEP_FAULTS: [Fault; 7] = [Fault::Value, Fault::Id, Fault::Order, Fault::Kind, Fault::Bounds, Fault::Rising, Fault::Jump];
const EVENT_FAULTS: [Fault; 4] = [Fault::None, Fault::Order, Fault::Kind, Fault::Bounds];

/// A random case of an entry, with ample rooms.
pub fn random(entry: Entry, rng: &mut Rng, t: &Tables) -> Case {
    let faults: &[Fault] = match entry {
        Entry::Changes => &CHANGE_FAULTS,
        Entry::Events => &EVENT_FAULTS,
        Entry::Written => &STEP_FAULTS,
        _ => &SECTION_FAULTS,
    };
    // Most streams to be written are good.
    let (good, whole) = if entry == Entry::Written { (75, 92) } else { (50, 80) };
    let fault = if rng.percent(good) { Fault::None } else { rng.pick(faults) };
    let big = rng.percent(40);
    let mut case = Case::new(entry, t, vec![]);
    case.big = big && !matches!(entry, Entry::Changes | Entry::Events);
    let writer = Writer::new(rng, t, case.big, fault);
    match entry {
        Entry::Changes => case.input = writer.changes(),
        Entry::Events => {
            case.tables = Tables::default();
            let (input, values) = writer.events();
            case.input = input;
            case.values = values;
        }
        Entry::Written => case.input = writer.steps(),
        _ => case.input = writer.sections(),
    }
    if rng.percent(100 - whole) {
        case.input = gen::damaged(rng, &case.input);
    }
    case
}

pub fn random_runs(s: &mut Session, seed: u64, entry: Entry, count: u64) -> Go {
    let mut rng = Rng::new(seed ^ (entry as u64 + 1) << 40);
    let until = s.total(entry) + count;
    while s.total(entry) < until {
        let blocks = rng.pick(&[1, 2, 3, 4, 6, 9]);
        let t = gen::tables(&mut rng, blocks);
        for _ in 0..6 {
            let case = random(entry, &mut rng, &t);
            with_rooms(s, &mut rng, case)?;
        }
        if entry != Entry::Events && rng.percent(40) {
            let bad = gen::bad_tables(&mut rng, &t);
            let mut case = random(entry, &mut rng, &t);
            case.tables = bad;
            with_rooms(s, &mut rng, case)?;
        }
    }
    Ok(())
}

/// One signal of kinds 0, 4 and 5, and a two-state vector of ids 2 and 3: document 01's example and one more.
pub fn worked_tables() -> Tables {
    Tables {
        kinds: vec![0, 3, 3, 4, 5],
        refs: vec![1, 2, 2, 3, 4],
        vecs: vec![0, 1, 1, 0, 0],
        mins: vec![2],
        maxs: vec![3],
        states: vec![1],
        vec_refs: vec![2],
    }
}

pub fn without_last(mut t: Tables) -> Tables {
    t.kinds.pop();
    t.refs.pop();
    t.vecs.pop();
    t
}

/// Document 01's worked example, with a directory before its tailer.
pub fn worked_bytes(big: bool) -> Vec<u8> {
    let time = |t: u64| if big { t.to_be_bytes() } else { t.to_le_bytes() };
    let word = |n: u32| if big { n.to_be_bytes() } else { n.to_le_bytes() };
    let mut b = b"SNP\0".to_vec();
    b.extend([0; 4]);
    b.extend(time(0));
    b.extend([3, 1, 0, 0x2a]);
    b.extend(b"ESN\0CYC\0");
    b.extend(time(10));
    b.extend([3, 1, 0, 5, 1, 4, 0, 0x7f]);
    b.extend(b"ECY\0DIR\0");
    b.extend([1, 2, 3, 4]);
    b.extend(word(1));
    b.extend(b"SNP\0");
    b.extend(word(7));
    b.extend(b"EOD\0TAI\0");
    b.extend([0; 8]);
    b
}

fn cycle_of(body: &[u8], end: &[u8]) -> Vec<u8> {
    let mut b = b"CYC\0".to_vec();
    b.extend([0; 8]);
    b.extend(body);
    b.extend(end);
    b
}

const CLOSED: &[u8] = b"\x00\x7fECY\0TAI\0\0\0\0\0\0\0\0\0";

pub fn vector(width: u32, state: u8) -> Tables {
    let n = width as usize;
    Tables {
        kinds: vec![if state == 1 { 3 } else { 1 }; n],
        refs: vec![1; n],
        vecs: vec![1; n],
        mins: vec![1],
        maxs: vec![width],
        states: vec![state],
        vec_refs: vec![1],
    }
}

/// Writes (id, value) and step ends (id 0) as a change stream; every step is closed.
fn change_stream(acts: &[(u32, u8)]) -> Vec<u8> {
    let mut out = vec![];
    let mut open = false;
    for (i, (id, value)) in acts.iter().chain(&[(0, 0)]).enumerate() {
        if !open {
            out.push(1);
            out.extend((i as u64).to_be_bytes());
            open = true;
        }
        if *id == 0 {
            out.push(4);
            open = false;
        } else {
            out.push(2);
            out.extend(id.to_be_bytes());
            out.push(*value);
        }
    }
    out
}

/// Short inputs, every one of their kind.
pub fn exhaustive(s: &mut Session) -> Go {
    let none = Tables::default();
    let one = Tables { kinds: vec![3], refs: vec![1], vecs: vec![1], mins: vec![1], maxs: vec![1], states: vec![1], vec_refs: vec![1] };
    let bytes: Vec<u8> = (0..=255).collect();

    // All inputs of at most two bytes.
    s.strings(&bytes, 2, &|b| Some(Case::new(Entry::Sections, &none, b.to_vec())))?;
    s.strings(&bytes, 2, &|b| Some(Case::new(Entry::Changes, &one, b.to_vec())))?;
    s.strings(&bytes, 2, &|b| Some(Case::new(Entry::Events, &none, b.to_vec())))?;

    // Cycles whose bodies are short strings of telling bytes, cut off and closed.
    let t = worked_tables();
    let telling = [0, 1, 2, 3, 4, 5, 8, 9, 127, 128, 129, 255];
    s.strings(&telling, 4, &|b| Some(Case::new(Entry::Sections, &t, cycle_of(b, &[]))))?;
    s.strings(&telling, 4, &|b| Some(Case::new(Entry::Sections, &t, cycle_of(b, CLOSED))))?;

    // Every number of one and two bytes as a delta, as a value, as a time delta; ten bytes with every tenth.
    let many = Tables { kinds: vec![4; 40], refs: vec![1; 40], vecs: vec![0; 40], ..Tables::default() };
    let five = Tables { kinds: vec![5], refs: vec![1], vecs: vec![0], ..Tables::default() };
    let mut numbers: Vec<Vec<u8>> = (0..=255).map(|b| vec![b]).collect();
    numbers.extend((0..=65_535u16).map(|b| b.to_be_bytes().to_vec()));
    for lead in [0x80, 0x81, 0xff] {
        for count in 8..=10 {
            numbers.extend((0..=255).map(|tenth| [vec![lead; count], vec![tenth]].concat()));
        }
    }
    for number in &numbers {
        let places =
            [(&many, number.clone(), &[7][..]), (&five, [&[1][..], number].concat(), &[]), (&none, [&[0][..], number].concat(), &[])];
        for (t, body, after) in places {
            let mut case = Case::new(Entry::Sections, t, cycle_of(&[&body[..], after].concat(), CLOSED));
            s.put(&fitted(case.clone(), 0))?;
            case.input = cycle_of(&body, &[]);
            s.put(&fitted(case, 0))?;
        }
    }

    // The worked example: every byte replaced by every other, every prefix, and every pair of rooms.
    let t = without_last(t);
    for big in [false, true] {
        let good = worked_bytes(big);
        let whole = Case { big, ..Case::new(Entry::Sections, &t, good.clone()) };
        for at in 0..good.len() {
            for byte in 0..=255 {
                let mut case = whole.clone();
                case.input[at] = byte;
                s.put(&fitted(case, 0))?;
            }
            let mut case = whole.clone();
            case.input.truncate(at);
            s.put(&fitted(case, 0))?;
        }
        let exact = fitted(whole, 0);
        for events in 0..=exact.rooms.events {
            for values in 0..=exact.rooms.values {
                s.put(&Case { rooms: Rooms { events, values, ..exact.rooms }, ..exact.clone() })?;
            }
        }
    }

    // Every order of a few writes and step ends.
    let bits = |width: u32, values: &[u8]| {
        let mut acts = vec![(0, 0)];
        acts.extend((1..=width).flat_map(|id| values.iter().map(move |v| (id, *v)).collect::<Vec<_>>()));
        acts
    };
    let stream = |t: Tables| move |acts: &[(u32, u8)]| Some(Case::new(Entry::Changes, &t, change_stream(acts)));
    s.strings(&bits(1, &[0, 1]), 8, &stream(vector(1, 1)))?;
    s.strings(&bits(1, &[0, 1, 3, 8]), 5, &stream(vector(1, 0)))?;
    s.strings(&bits(2, &[0, 1]), 6, &stream(vector(2, 1)))?;
    s.strings(&bits(3, &[0, 1]), 5, &stream(vector(3, 1)))?;
    s.strings(&bits(2, &[1, 2, 3]), 5, &stream(vector(2, 0)))?;
    // Two vectors that share a reference, the later number on the lower ids.
    let shared = Tables {
        kinds: vec![3; 4],
        refs: vec![1; 4],
        vecs: vec![2, 2, 1, 1],
        mins: vec![3, 1],
        maxs: vec![4, 2],
        states: vec![1, 1],
        vec_refs: vec![1, 1],
    };
    s.strings(&bits(4, &[0, 1]), 5, &stream(shared))?;
    // Both ends of wider vectors, with all bits between them at once (id 99).
    for width in [7, 8, 9, 12, 15, 16, 17] {
        let t = vector(width, 1);
        let acts = [(0, 0), (1, 0), (1, 1), (width, 0), (width, 1), (99, 1)];
        s.strings(&acts, 5, &|acts| {
            let mut all = vec![];
            for act in acts {
                match act.0 {
                    99 => all.extend((2..width).map(|id| (id, act.1))),
                    _ => all.push(*act),
                }
            }
            Some(Case::new(Entry::Changes, &t, change_stream(&all)))
        })?;
    }

    // Every order of a few times, values and reals.
    let record = |token: u8| match token {
        0..=2 => [&[1, 0, 0, 0, 0, 0, 0, 0][..], &[token]].concat(),
        3 => vec![3, 0, 0, 0, 1, 0, 0, 0, 0, 0, 0, 0, 1],
        _ => vec![4, 0, 0, 0, 2, 0x3f, 0xf0, 0, 0, 0, 0, 0, 0],
    };
    s.strings(&[0, 1, 2, 3, 4], 7, &|tokens| {
        let mut case = Case::new(Entry::Events, &none, tokens.iter().flat_map(|t| record(*t)).collect());
        case.values = vec![9];
        Some(case)
    })
}

/// Buffers at their limit and one past it. The port needs about 1 GB for each in turn, and 4 GB for the numbers.
pub fn limits(s: &mut Session) -> Go {
    let none = Tables::default();
    let tail = b"TAI\0\0\0\0\0\0\0\0\0".to_vec();
    let base = Rooms { events: 16, values: 16, room: 16, list: 16, flat: 16 };
    for most in [plain::MOST_OTHER, plain::MOST_OTHER + 1] {
        let rooms =
            [Rooms { events: most, ..base }, Rooms { values: most, ..base }, Rooms { room: most, ..base }, Rooms { list: most, ..base }];
        for rooms in rooms {
            s.put(&Case { rooms, ..Case::new(Entry::Sections, &none, tail.clone()) })?;
            s.put(&Case { rooms, ..Case::new(Entry::Changes, &none, vec![]) })?;
        }
        if Host::LINKED {
            s.put(&Case { rooms: Rooms { flat: most, ..base }, ..Case::new(Entry::Lent, &none, tail.clone()) })?;
        }
        s.put(&Case { rooms: Rooms { events: most, ..base }, ..Case::new(Entry::Events, &none, vec![]) })?;
        s.put(&Case { rooms: Rooms { events: most, ..base }, ..Case::new(Entry::Written, &none, vec![]) })?;
        s.put(&Case { rooms: Rooms { events: most, ..base }, ..Case::new(Entry::Back, &none, tail.clone()) })?;
        s.put(&Case { values: vec![1; most], rooms: base, ..Case::new(Entry::Events, &none, vec![]) })?;
        // Times that repeat, and one byte of an unknown kind where the limit is past.
        let mut input = vec![0; most];
        input.chunks_mut(9).for_each(|record| record[0] = 1);
        s.put(&Case { rooms: base, ..Case::new(Entry::Events, &none, input) })?;
    }
    Ok(())
}

/// Few long cases: document 01's limits as far as they're cheap, and more times than a block of the crate's encoder holds.
pub fn long(s: &mut Session) -> Go {
    let tail = b"TAI\0\0\0\0\0\0\0\0\0".to_vec();
    let signals = |n: usize| Tables { kinds: vec![2; n], refs: vec![1; n], vecs: vec![0; n], ..Tables::default() };
    let vectors = |count: u32| {
        let n = count as usize;
        let mut t = Tables { kinds: vec![3; n], refs: vec![1; n], vecs: (1..=count).collect(), ..Tables::default() };
        t.mins = (1..=count).collect();
        t.maxs = t.mins.clone();
        t.states = vec![1; n];
        t.vec_refs = vec![1; n];
        t
    };
    for t in [signals(65_535), signals(65_536), vectors(16_383), vectors(16_384), vector(65_535, 0), vector(65_535, 1)] {
        s.put(&fitted(Case::new(Entry::Sections, &t, tail.clone()), 0))?;
        let mut file = cycle_of(&[1, 1], CLOSED);
        s.put(&fitted(Case::new(Entry::Sections, &t, file.clone()), 0))?;
        file = cycle_of(&[0xff, 0xff, 3, 1], CLOSED);
        s.put(&fitted(Case::new(Entry::Sections, &t, file), 0))?;
        let changes = change_stream(&[(65_535, 1), (1, 1), (16_383, 0), (1, 0), (0, 0), (2, 1)]);
        s.put(&fitted(Case::new(Entry::Changes, &t, changes), 0))?;
    }
    for length in [16_777_215, 16_777_216] {
        let mut input = tail.clone();
        input.resize(length, 0x55);
        s.put(&fitted(Case::new(Entry::Sections, &Tables::default(), input), 0))?;
        let mut input = [vec![1; 9], vec![4]].concat().repeat(1_677_721);
        input.resize(length, 0);
        s.put(&fitted(Case::new(Entry::Changes, &Tables::default(), input), 0))?;
    }
    // 70,000 rising times, some with a value, then one that falls, and one that rises.
    for falls in [0u64, 65_534, 65_535, 65_536, 69_999] {
        let mut input = vec![];
        let mut put = |time: u64| {
            input.push(1);
            input.extend(time.to_be_bytes());
            if time % 7 == 0 {
                input.extend([2, 0, 0, 0, 1, 0, 0, 0, 0, 0, 0, 0, 1]);
            }
        };
        (0..70_000).for_each(&mut put);
        put(falls);
        put(falls / 7 * 7);
        put(70_000);
        let mut case = Case::new(Entry::Events, &Tables::default(), input);
        case.values = vec![1];
        s.put(&fitted(case, 0))?;
    }
    Ok(())
}
