//! What is timed: section bytes and change records that are made for it.
use crate::gen::{signed, unsigned, Rng};
use crate::plain::{self, Acts, At, Refusal, Tables, Value, MOST_INPUT, MOST_OTHER, MOST_SIGNALS};
use crate::written;

/// Section bytes.
pub struct Input {
    pub name: String,
    pub tables: Tables,
    pub big: bool,
    pub bytes: Vec<u8>,
    pub writes: u64,
}

/// Change records, or event records and their values.
pub struct Records {
    pub name: String,
    pub tables: Tables,
    pub bytes: Vec<u8>,
    pub count: u64,
}

struct Maker {
    rng: Rng,
    t: Tables,
    bytes: Vec<u8>,
    writes: u64,
}

impl Maker {
    fn new(seed: u64) -> Self {
        Maker { rng: Rng::new(seed), t: Tables::default(), bytes: vec![], writes: 0 }
    }

    fn signal(&mut self, kind: u8) -> u32 {
        self.t.kinds.push(kind);
        self.t.refs.push(self.t.kinds.len() as u32);
        self.t.vecs.push(0);
        self.t.kinds.len() as u32
    }

    /// A vector on the next ids, with the first of them as its reference.
    fn vector(&mut self, width: u32, state: u8) -> (u32, u32) {
        let min = self.t.kinds.len() as u32 + 1;
        let number = self.t.mins.len() as u32 + 1;
        for _ in 0..width {
            self.t.kinds.push(if state == 0 { 1 } else { 3 });
            self.t.refs.push(min);
            self.t.vecs.push(number);
        }
        self.t.mins.push(min);
        self.t.maxs.push(min + width - 1);
        self.t.states.push(state);
        self.t.vec_refs.push(min);
        (min, min + width - 1)
    }

    fn value(&mut self, id: u32) {
        self.writes += 1;
        match self.t.kinds[id as usize - 1] {
            0 | 1 => {
                let byte = 2 + self.rng.below(2) as u8;
                self.bytes.push(byte);
            }
            2 | 3 => {
                let byte = self.rng.below(2) as u8;
                self.bytes.push(byte);
            }
            4 => {
                let byte = self.rng.next() as u8;
                self.bytes.push(byte);
            }
            5 => {
                let number = self.rng.below(100_000) as i64 - 50_000;
                signed(&mut self.bytes, number, 0);
            }
            _ => {
                let bits = self.rng.next();
                self.bytes.extend(bits.to_le_bytes());
            }
        }
    }

    fn snapshot(&mut self) {
        self.bytes.extend(b"SNP\0");
        self.bytes.extend([0; 12]);
        for id in 1..=self.t.kinds.len() as u32 {
            self.value(id);
        }
        self.bytes.extend(b"ESN\0CYC\0");
        self.bytes.extend([0; 8]);
    }

    /// A step's changes on these ids, which rise, and the time to the next step.
    fn step(&mut self, ids: &[u32], time: i64) {
        let mut last = 0;
        for id in ids {
            unsigned(&mut self.bytes, u64::from(id - last), 0);
            self.value(*id);
            last = *id;
        }
        self.bytes.push(0);
        signed(&mut self.bytes, time, 0);
    }

    /// Steps of 1 to `most` ids, drawn from all.
    fn steps(&mut self, count: usize, most: usize) {
        for _ in 0..count {
            let signals = self.t.kinds.len();
            let mut ids: Vec<u32> = (0..1 + self.rng.below(most)).map(|_| 1 + self.rng.below(signals) as u32).collect();
            ids.sort_unstable();
            ids.dedup();
            self.step(&ids, 1_000_000);
        }
    }

    fn end(mut self, name: &str) -> Input {
        self.bytes.push(0);
        self.bytes.push(0x7f);
        self.bytes.extend(END);
        Input { name: name.to_string(), tables: self.t, big: false, bytes: self.bytes, writes: self.writes }
    }
}

/// A cycle's end mark, and the tailer.
const END: &[u8] = b"ECY\0TAI\0\0\0\0\0\0\0\0\0";

/// 53,000 signals, many writes in each step, 16 MB.
fn many_writes() -> Input {
    let mut m = Maker::new(1);
    let mut blocks = vec![];
    let widths = [8, 16, 32, 12, 4, 64, 1, 24, 9, 48];
    let mut i = 0;
    while m.t.kinds.len() < 45_000 {
        blocks.push(m.vector(widths[i % widths.len()], (i / widths.len() % 2) as u8));
        i += 1;
    }
    while m.t.kinds.len() < 53_000 {
        let id = m.signal(PLAIN[i % PLAIN.len()]);
        blocks.push((id, id));
        i += 1;
    }
    m.snapshot();
    while m.bytes.len() < 16_700_000 {
        let mut ids = vec![];
        for (min, max) in &blocks {
            match m.rng.below(20) {
                0 => ids.extend(*min..=*max),
                1 => ids.extend((*min..=*max).filter(|_| m.rng.below(2) == 0)),
                _ => {}
            }
        }
        m.step(&ids, 5_000_000);
    }
    m.end("16 MB, 53,000 signals, many writes")
}

/// 30,000 fragments on a dozen buses: the changed bits of two buses and a strobe that rises, then the strobe that falls.
fn fragments() -> Input {
    let mut m = Maker::new(2);
    let strobe = m.signal(2);
    let buses: Vec<(u32, u32)> =
        [(32, 0), (64, 1), (12, 0), (16, 0), (32, 1), (64, 0), (8, 1), (12, 1), (48, 0), (32, 0), (16, 1), (64, 1)]
            .iter()
            .map(|(width, state)| m.vector(*width, *state))
            .collect();
    m.snapshot();
    for _ in 0..30_000 {
        let first = m.rng.below(buses.len() - 1);
        let second = first + 1 + m.rng.below(buses.len() - first - 1);
        let mut ids = vec![strobe];
        for bus in [first, second] {
            let (min, max) = buses[bus];
            ids.extend((min..=max).filter(|_| m.rng.below(2) == 0));
        }
        m.step(&ids, 2_000_000);
        m.step(&[strobe], 3_000_000);
    }
    m.end("30,000 fragments on 12 buses")
}

/// A nine-state bus of 4096 bits and one bit of it in each step.
fn wide() -> Input {
    let mut m = Maker::new(3);
    m.vector(4096, 0);
    m.snapshot();
    for _ in 0..20_000 {
        let id = 1 + m.rng.below(4096) as u32;
        m.step(&[id], 1_000_000);
    }
    m.end("4096-bit bus, one-bit changes")
}

/// Vectors of 4 bits and a few writes in each step.
fn many_vectors(name: &str, count: usize) -> Input {
    let mut m = Maker::new(4);
    for i in 0..count {
        m.vector(4, (i % 2) as u8);
    }
    m.snapshot();
    m.steps(200_000, 4);
    m.end(name)
}

/// The kinds of signals outside vectors.
const PLAIN: [u8; 5] = [0, 2, 4, 5, 6];

/// 1,000 signals outside vectors, of these kinds in turn.
fn plain_signals(name: &str, kinds: &[u8], steps: usize, most: usize) -> Input {
    let mut m = Maker::new(5);
    for i in 0..1_000 {
        m.signal(kinds[i % kinds.len()]);
    }
    m.snapshot();
    m.steps(steps, most);
    m.end(name)
}

struct Writes(u64);

impl Acts for Writes {
    fn time(&mut self, _: u64, _: At) -> Result<(), Refusal> {
        Ok(())
    }
    fn write(&mut self, _: usize, _: Value, _: At) -> Result<(), Refusal> {
        self.0 += 1;
        Ok(())
    }
    fn step_end(&mut self, _: At) -> Result<(), Refusal> {
        Ok(())
    }
}

/// The reassembly sample, whose steps come again and again with 1 ns between any two rounds, 16 MB.
fn reassembly() -> Input {
    let file = include_bytes!("../../crates/reassembly_fragments/stdin");
    let (tables, big, at) = plain::preamble(file).expect("a good preamble");
    let sections = &file[at..];
    let find = |mark: &[u8]| sections.windows(mark.len()).position(|bytes| bytes == mark).expect("a mark");
    // From behind the cycle's head up to its closing delta: whole steps, with a delta between any two.
    let (from, to) = (find(b"CYC\0") + 12, find(b"\x7fECY\0"));
    let mut bytes = sections[..to].to_vec();
    while bytes.len() + (to - from) + 4 + END.len() <= MOST_INPUT {
        signed(&mut bytes, 1_000_000, 0);
        bytes.extend(&sections[from..to]);
    }
    bytes.push(0x7f);
    bytes.extend(END);
    let mut writes = Writes(0);
    plain::sections(&tables, big, &bytes, &mut writes).expect("good sections");
    Input { name: "a reassembly file, again and again, 16 MB".to_string(), tables, big, bytes, writes: writes.0 }
}

/// The section bytes of the rows, in their order.
pub const SECTIONS: [fn() -> Input; 13] = [
    many_writes,
    fragments,
    wide,
    || many_vectors("16,000 vectors of 4 bits, few writes", 16_000),
    || many_vectors("1,000 vectors of 4 bits, few writes", 1_000),
    || plain_signals("plain signals of kind 0, few writes", &[0], 100_000, 7),
    || plain_signals("plain signals of kind 2, few writes", &[2], 100_000, 7),
    || plain_signals("plain signals of kind 4, few writes", &[4], 100_000, 7),
    || plain_signals("plain signals of kind 5, few writes", &[5], 100_000, 7),
    || plain_signals("plain signals of kind 6, few writes", &[6], 100_000, 7),
    || plain_signals("plain signals of kind 0, up to 400 a step", &[0], 4_000, 400),
    || plain_signals("plain signals of all kinds, few writes", &PLAIN, 100_000, 4),
    reassembly,
];

/// Section bytes as change records, of as many whole steps as an input holds.
pub fn records(input: Input) -> Records {
    let mut bytes = written::read_back(&input.tables, input.big, &input.bytes, MOST_OTHER).events;
    let (mut at, mut count, mut whole) = (0, 0, (0, 0));
    while at < bytes.len() && at < MOST_INPUT {
        let kind = bytes[at];
        at += [9, 6, 13, 1][kind as usize - 1];
        count += 1;
        if kind == 4 && at <= MOST_INPUT {
            whole = (at, count);
        }
    }
    bytes.truncate(whole.0);
    Records { name: input.name, tables: input.tables, bytes, count: whole.1 }
}

/// The widest vector on which rule (c) acts.
const WIDEST: u32 = MOST_SIGNALS as u32 / 8 * 8;

/// As many steps as an input holds, each of which writes every bit of the widest vector, in this order.
fn widest(name: &str, ids: impl Iterator<Item = u32> + Clone) -> Records {
    let mut m = Maker::new(6);
    m.vector(WIDEST, 1);
    let (mut bytes, mut steps) = (vec![], 0);
    while bytes.len() + 10 + 6 * WIDEST as usize <= MOST_INPUT {
        bytes.push(1);
        bytes.extend((steps as u64).to_be_bytes());
        for id in ids.clone() {
            bytes.push(2);
            bytes.extend(id.to_be_bytes());
            bytes.push(m.rng.below(2) as u8);
        }
        bytes.push(4);
        steps += 1;
    }
    Records { name: name.to_string(), tables: m.t, bytes, count: steps * (u64::from(WIDEST) + 2) }
}

pub fn falling() -> Records {
    widest("16 MB, the widest vector by falling ids", (1..=WIDEST).rev())
}

/// The bits of the last mask byte first.
pub fn falling_behind() -> Records {
    widest("16 MB, the same behind the eight lowest ids", (1..=8).chain((9..=WIDEST).rev()))
}

/// Steps in which a strobe rises and falls while one of sixteen sessions is shown.
#[cfg(dropin)]
pub fn sessions() -> Input {
    let mut m = Maker::new(7);
    let (min, max) = m.vector(4, 1);
    let strobe = m.signal(2);
    m.signal(2);
    m.snapshot();
    for _ in 0..300_000 {
        let ids: Vec<u32> = (min..=max).filter(|_| m.rng.below(2) == 0).chain([strobe]).collect();
        m.step(&ids, 1_000_000);
    }
    m.end("300,000 steps of a session vector and a strobe")
}
