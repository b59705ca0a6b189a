//! Seeded generators of tables, section files, change streams and event streams: valid ones, ones with a fault, damaged copies.
use crate::plain::Tables;

/// xorshift64*.
pub struct Rng(u64);

impl Rng {
    pub fn new(seed: u64) -> Self {
        Rng(seed.wrapping_mul(0x9e37_79b9_7f4a_7c15) ^ 0x2545_f491_4f6c_dd1d | 1)
    }
    pub fn next(&mut self) -> u64 {
        self.0 ^= self.0 >> 12;
        self.0 ^= self.0 << 25;
        self.0 ^= self.0 >> 27;
        self.0.wrapping_mul(0x2545_f491_4f6c_dd1d)
    }
    pub fn below(&mut self, n: usize) -> usize {
        ((self.next() >> 33) % n.max(1) as u64) as usize
    }
    pub fn percent(&mut self, p: usize) -> bool {
        self.below(100) < p
    }
    pub fn pick<T: Copy>(&mut self, from: &[T]) -> T {
        from[self.below(from.len())]
    }
    /// A number of 64 bits with small and extreme ones among them.
    pub fn number(&mut self) -> u64 {
        match self.below(8) {
            0..=2 => self.below(20) as u64,
            3 => self.below(100_000) as u64,
            4 => 1u64 << self.below(64),
            5 => (1u64 << self.below(64)).wrapping_sub(1),
            6 => u64::MAX - self.below(3) as u64,
            _ => self.next(),
        }
    }
    /// A number by its size in LEB128: around the last that so many groups hold, signed or not, and the same below zero.
    pub fn leb128(&mut self) -> u64 {
        let bits = 7 * (1 + self.below(10)) - self.below(2);
        let edge = if bits < 64 { 1u64 << bits } else { 1 << 63 };
        let number = edge.wrapping_add(self.below(3) as u64).wrapping_sub(2);
        match self.below(4) {
            0 => self.number(),
            1 => !number,
            _ => number,
        }
    }
}

const WIDTHS: [u32; 27] = [1, 2, 3, 4, 5, 6, 7, 8, 9, 10, 11, 12, 13, 14, 15, 16, 17, 18, 19, 20, 63, 64, 65, 66, 128, 300, 24];

/// Good tables of at most `blocks` plain signals and vectors.
pub fn tables(rng: &mut Rng, blocks: usize) -> Tables {
    let mut t = Tables::default();
    let count = rng.below(blocks + 1);
    let mut used: Vec<u32> = vec![];
    let mut vectors: Vec<(u32, u32, u8, u32)> = vec![];
    for _ in 0..count {
        let reference = match rng.below(10) {
            0..=5 => used.len() as u32 + 1,
            6 => u32::MAX - rng.below(3) as u32,
            7 => (rng.next() as u32).max(1),
            _ if !used.is_empty() => rng.pick(&used),
            _ => 1,
        };
        used.push(reference);
        if rng.percent(45) {
            let kind = rng.pick(&[0, 2, 4, 5, 6]);
            t.kinds.push(kind);
            t.refs.push(reference);
            t.vecs.push(0);
        } else {
            let width = match rng.below(20) {
                0..=9 => WIDTHS[rng.below(9)],
                10..=16 => WIDTHS[rng.below(20)],
                17 => rng.pick(&[63, 64, 65, 66, 24, 32]),
                18 => rng.pick(&WIDTHS),
                _ => 1 + rng.below(40) as u32,
            };
            let state = rng.below(2) as u8;
            let min = t.kinds.len() as u32 + 1;
            vectors.push((min, min + width - 1, state, reference));
            for _ in 0..width {
                t.kinds.push(if state == 0 { 1 } else { 3 });
                t.refs.push(reference);
                t.vecs.push(0);
            }
        }
    }
    // Vector numbers need not follow ids.
    if rng.percent(40) {
        for i in (1..vectors.len()).rev() {
            let j = rng.below(i + 1);
            vectors.swap(i, j);
        }
    }
    for (v, (min, max, state, reference)) in vectors.into_iter().enumerate() {
        t.mins.push(min);
        t.maxs.push(max);
        t.states.push(state);
        t.vec_refs.push(reference);
        for id in min..=max {
            t.vecs[id as usize - 1] = v as u32 + 1;
        }
    }
    t
}

/// Tables with something wrong, most often.
pub fn bad_tables(rng: &mut Rng, good: &Tables) -> Tables {
    let mut t = good.clone();
    for _ in 0..1 + rng.below(2) {
        let n = t.kinds.len();
        let vectors = t.mins.len();
        match rng.below(16) {
            0 if n > 0 => t.kinds[rng.below(n)] = 7 + rng.below(249) as u8,
            1 if n > 0 => t.kinds[rng.below(n)] = rng.below(8) as u8,
            2 if !t.refs.is_empty() => {
                let i = rng.below(t.refs.len());
                t.refs[i] = rng.pick(&[0, 1, 2, u32::MAX]);
            }
            3 | 4 if !t.vecs.is_empty() => {
                let i = rng.below(t.vecs.len());
                t.vecs[i] = rng.pick(&[0, 1, 2, vectors as u32, vectors as u32 + 1, u32::MAX]);
            }
            5 if vectors > 0 => t.mins[rng.below(vectors)] = rng.pick(&[0, 1, 2, n as u32, n as u32 + 1, u32::MAX]),
            6 if !t.maxs.is_empty() => {
                let i = rng.below(t.maxs.len());
                t.maxs[i] = rng.pick(&[0, 1, 2, n as u32, n as u32 + 1, u32::MAX]);
            }
            7 if vectors > 0 && !t.maxs.is_empty() => {
                let v = rng.below(vectors.min(t.maxs.len()));
                t.mins[v] = t.mins[v].wrapping_add(1).wrapping_sub(rng.below(3) as u32);
                t.maxs[v] = t.maxs[v].wrapping_add(1).wrapping_sub(rng.below(3) as u32);
            }
            8 if !t.states.is_empty() => {
                let i = rng.below(t.states.len());
                t.states[i] = rng.pick(&[0, 1, 2, 255]);
            }
            9 if !t.vec_refs.is_empty() => {
                let i = rng.below(t.vec_refs.len());
                t.vec_refs[i] = rng.pick(&[0, 1, 2, 3]);
            }
            10 => {
                t.kinds.pop();
            }
            11 => t.refs.push(1),
            12 => {
                t.vecs.pop();
            }
            13 => t.mins.push(1),
            14 => {
                t.states.pop();
            }
            _ => {
                // One vector more, over a range of others.
                let min = 1 + rng.below(n + 1) as u32;
                t.mins.push(min);
                t.maxs.push(min + rng.below(3) as u32);
                t.states.push(rng.below(2) as u8);
                t.vec_refs.push(1 + rng.below(3) as u32);
            }
        }
    }
    t
}

/// A LEB128 number with `pad` bytes more than it needs, as far as ten bytes hold them.
pub fn unsigned(out: &mut Vec<u8>, number: u64, pad: usize) {
    let from = out.len();
    leb128::write::unsigned(out, number).unwrap();
    pad_to(out, from, pad, 0);
}

pub fn signed(out: &mut Vec<u8>, number: i64, pad: usize) {
    let from = out.len();
    leb128::write::signed(out, number).unwrap();
    pad_to(out, from, pad, if number < 0 { 127 } else { 0 });
}

fn pad_to(out: &mut Vec<u8>, from: usize, pad: usize, group: u8) {
    for _ in 0..pad.min(10 - (out.len() - from)) {
        let last = out.len() - 1;
        out[last] |= 128;
        out.push(group);
    }
}

/// What a generator writes wrong, once, at a place of its choice.
#[derive(Clone, Copy, PartialEq)]
pub enum Fault {
    None,
    Value,
    Id,
    Number,
    Time,
    Mark,
    Zeros,
    Negative,
    Record,
    Order,
    Kind,
    Bounds,
    Rising,
    Jump,
}

pub struct Writer<'a> {
    pub rng: &'a mut Rng,
    t: &'a Tables,
    big: bool,
    out: Vec<u8>,
    fault: Fault,
    /// Where the fault may stand, it stands with this chance.
    chance: usize,
}

impl<'a> Writer<'a> {
    pub fn new(rng: &'a mut Rng, t: &'a Tables, big: bool, fault: Fault) -> Self {
        let chance = rng.pick(&[100, 40, 10]);
        Writer { rng, t, big, out: vec![], fault, chance }
    }

    fn now(&mut self, fault: Fault) -> bool {
        let now = self.fault == fault && self.rng.percent(self.chance);
        if now {
            self.fault = Fault::None;
        }
        now
    }

    fn pad(&mut self) -> usize {
        if self.rng.percent(85) {
            0
        } else {
            1 + self.rng.below(9)
        }
    }

    fn fixed(&mut self, number: u64, bytes: usize) {
        let be = number.to_be_bytes();
        if self.big {
            self.out.extend_from_slice(&be[8 - bytes..]);
        } else {
            self.out.extend(be[8 - bytes..].iter().rev());
        }
    }

    /// A number of ten bytes or more that doesn't fit.
    fn too_large(&mut self) {
        let lead = self.rng.pick(&[0x80, 0xff, 0x81]);
        self.out.extend([lead; 9]);
        let tenth = match self.rng.below(3) {
            0 => 2 + self.rng.below(125) as u8,
            1 => 128 + self.rng.below(128) as u8,
            _ => self.rng.pick(&[1, 2, 126, 127]),
        };
        self.out.push(tenth);
    }

    fn byte(&mut self, kind: u8) -> u8 {
        let bad = self.now(Fault::Value);
        match kind {
            0 | 1 if bad => 9 + self.rng.below(247) as u8,
            0 | 1 => self.rng.below(9) as u8,
            2 | 3 if bad => 2 + self.rng.below(254) as u8,
            2 | 3 => self.rng.below(2) as u8,
            _ => self.rng.next() as u8,
        }
    }

    fn value(&mut self, id: usize) {
        match self.t.kinds[id - 1] {
            5 if self.now(Fault::Number) => self.too_large(),
            5 => {
                let (number, pad) = (self.rng.number() as i64, self.pad());
                let number = if self.rng.percent(30) { number.wrapping_neg() } else { number };
                signed(&mut self.out, number, pad);
            }
            6 => {
                let bits = self.rng.number();
                self.out.extend(bits.to_be_bytes());
            }
            kind => {
                let byte = self.byte(kind);
                self.out.push(byte);
            }
        }
    }

    fn mark(&mut self, mark: &[u8; 4]) {
        if self.now(Fault::Mark) {
            let other =
                *self.rng.pick(&[b"SNP\0", b"CYC\0", b"DIR\0", b"TAI\0", b"ESN\0", b"ECY\0", b"EOD\0", b"XXX\0", b"ESN ", b"ECZ\0"]);
            self.out.extend(other);
        } else {
            self.out.extend(mark);
        }
    }

    fn snapshot(&mut self) {
        self.mark(b"SNP\0");
        let zeros = if self.now(Fault::Zeros) { 1u32 << self.rng.below(32) } else { 0 };
        self.out.extend(zeros.to_be_bytes());
        let time = self.rng.number();
        self.fixed(time, 8);
        for id in 1..=self.t.kinds.len() {
            self.value(id);
        }
        self.mark(b"ESN\0");
    }

    /// Ids in rising order: a few, or whole vectors, or all.
    fn ids(&mut self) -> Vec<usize> {
        let n = self.t.kinds.len();
        let mut chosen = vec![false; n];
        if n > 0 {
            for _ in 0..self.rng.below(5) {
                let id = 1 + self.rng.below(n);
                chosen[id - 1] = true;
                let v = self.t.vecs[id - 1] as usize;
                if v > 0 && self.rng.percent(50) {
                    let (min, max) = (self.t.mins[v - 1] as usize, self.t.maxs[v - 1] as usize);
                    let holes = self.rng.pick(&[0, 0, 0, 10, 50]);
                    for other in min..=max {
                        chosen[other - 1] = !self.rng.percent(holes);
                    }
                }
            }
        }
        (1..=n).filter(|id| chosen[id - 1]).collect()
    }

    fn change_list(&mut self) {
        let n = self.t.kinds.len() as u64;
        let mut last = 0;
        for id in self.ids() {
            if self.now(Fault::Id) {
                let delta = match self.rng.below(6) {
                    0 => n + 1 - last as u64 + self.rng.below(3) as u64,
                    1 => (1 << 32) * (1 + self.rng.below(3) as u64) + (id - last) as u64,
                    2 => u64::MAX - self.rng.below(4) as u64,
                    3 => (id as u64).wrapping_sub(last as u64).wrapping_sub(self.rng.below(5) as u64).max(1),
                    4 => 0u64.wrapping_sub(last as u64).max(1),
                    _ => self.rng.number().max(1),
                };
                unsigned(&mut self.out, delta, 0);
            } else if self.now(Fault::Number) {
                self.too_large();
            } else {
                let pad = self.pad();
                unsigned(&mut self.out, (id - last) as u64, pad);
            }
            last = id;
            self.value(id);
        }
        let pad = self.pad();
        unsigned(&mut self.out, 0, pad);
    }

    fn cycle(&mut self) {
        self.mark(b"CYC\0");
        let over = self.now(Fault::Time);
        let mut time = if over { u64::MAX - self.rng.below(4) as u64 } else { self.rng.number() };
        self.fixed(time, 8);
        let steps = 1 + self.rng.below(4);
        for step in 0..steps {
            self.change_list();
            if self.now(Fault::Number) {
                self.too_large();
            }
            let pad = self.pad();
            if step + 1 < steps {
                let delta = match self.rng.below(5) {
                    0 | 1 => 0,
                    2 => self.rng.below(200) as u64,
                    _ => self.rng.number() >> 1,
                };
                // Without the fault the time never passes 2^64-1.
                let delta = if over { delta } else { delta.min(u64::MAX - time) };
                time = time.wrapping_add(delta);
                signed(&mut self.out, delta as i64, pad);
            } else {
                let delta = match self.rng.below(4) {
                    0 | 1 => -1,
                    2 => -1 - self.rng.below(300) as i64,
                    _ => !((self.rng.number() >> 1) as i64),
                };
                signed(&mut self.out, delta, pad);
            }
        }
        self.mark(b"ECY\0");
    }

    fn directory(&mut self) {
        self.mark(b"DIR\0");
        let unchecked = self.rng.number() as u32;
        self.out.extend(unchecked.to_be_bytes());
        let count = self.rng.below(4);
        if self.now(Fault::Negative) {
            let number = 0x8000_0000 | self.rng.number() & 0xffff_ffff;
            self.fixed(number, 4);
        } else if self.now(Fault::Record) {
            let more = count as u64 + 1 + (self.rng.number() & 0xfff_ffff);
            self.fixed(more, 4);
        } else {
            self.fixed(count as u64, 4);
        }
        for _ in 0..count {
            let id = self.rng.number() as u32;
            self.out.extend(id.to_be_bytes());
            let mut position = self.rng.number() & 0x7fff_ffff;
            if self.now(Fault::Negative) {
                position |= 0x8000_0000;
            }
            self.fixed(position, 4);
        }
        self.mark(b"EOD\0");
    }

    pub fn sections(mut self) -> Vec<u8> {
        let count = self.rng.pick(&[0, 1, 1, 2, 2, 3, 4, 6]);
        for _ in 0..count {
            match self.rng.below(10) {
                0..=2 => self.snapshot(),
                3..=8 => self.cycle(),
                _ => self.directory(),
            }
        }
        if self.now(Fault::Order) {
            // No tailer.
            return self.out;
        }
        self.mark(b"TAI\0");
        let any = self.rng.next();
        self.out.extend(any.to_be_bytes());
        if self.rng.percent(10) {
            for _ in 0..self.rng.below(9) {
                let byte = self.rng.next() as u8;
                self.out.push(byte);
            }
        }
        self.out
    }

    fn record(&mut self, kind: u8, body: &[u8]) {
        if self.now(Fault::Kind) {
            let other = self.rng.pick(&[0, 5, 6, 128, 255, 1, 2, 3, 4]);
            self.out.push(other);
        } else {
            self.out.push(kind);
        }
        self.out.extend(body);
    }

    fn write(&mut self, id: usize) {
        self.write_of(id, Rng::number);
    }

    fn write_of(&mut self, id: usize, number: fn(&mut Rng) -> u64) {
        let mut named = id as u32;
        if self.now(Fault::Id) {
            named = self.rng.pick(&[0, self.t.kinds.len() as u32 + 1, u32::MAX, 65_536]);
        }
        let mut body = named.to_be_bytes().to_vec();
        let kind = self.t.kinds[id - 1];
        let wide = (kind >= 5) != self.now(Fault::Bounds);
        if wide {
            let number = number(self.rng);
            body.extend(number.to_be_bytes());
            self.record(3, &body);
        } else {
            let byte = self.byte(kind.min(4));
            body.push(byte);
            self.record(2, &body);
        }
    }

    pub fn changes(mut self) -> Vec<u8> {
        let n = self.t.kinds.len();
        for _ in 0..self.rng.below(5) {
            if !self.now(Fault::Order) {
                let time = self.rng.number();
                self.record(1, &time.to_be_bytes());
            }
            let mut id = 1 + self.rng.below(n);
            for _ in 0..if n > 0 { self.rng.below(24) } else { 0 } {
                // Near the last one most often: whole vectors, and bits again.
                id = match self.rng.below(6) {
                    0 => 1 + self.rng.below(n),
                    1 | 2 => id,
                    3 => (id + self.rng.below(3)).clamp(2, n + 1) - 1,
                    _ => id % n + 1,
                };
                let v = self.t.vecs[id - 1] as usize;
                if v > 0 && self.rng.percent(8) {
                    let (min, max) = (self.t.mins[v - 1] as usize, self.t.maxs[v - 1] as usize);
                    for bit in min..=max {
                        self.write(bit);
                    }
                } else {
                    self.write(id);
                }
                if self.now(Fault::Order) {
                    let time = self.rng.number();
                    self.record(1, &time.to_be_bytes());
                }
            }
            if !self.now(Fault::Order) {
                self.record(4, &[]);
            }
        }
        self.out
    }

    /// A time that may follow another: the same, a little or much later, as far as 2^63-1 later; with the fault one that may not.
    fn later(&mut self, time: u64) -> u64 {
        const FAR: u64 = 1 << 63;
        let most = (u64::MAX - time).min(FAR - 1);
        if (time > 0 || most == FAR - 1) && self.now(Fault::Jump) {
            return match self.rng.below(4) {
                0 if time > 0 => time - 1,
                1 if time > 0 => time - 1 - self.rng.number() % time,
                2 if u64::MAX - time >= FAR => u64::MAX,
                _ if u64::MAX - time >= FAR => time + FAR,
                _ => time - 1,
            };
        }
        let delta = match self.rng.below(7) {
            0 | 1 => 0,
            2 => self.rng.below(200) as u64,
            3 => FAR - 1,
            4 => most,
            _ => self.rng.leb128() % FAR,
        };
        time + delta.min(most)
    }

    /// A change stream that can be written as a section: times that don't fall, ids that rise in a step.
    pub fn steps(mut self) -> Vec<u8> {
        let mut time = if self.rng.percent(60) { self.rng.below(12) as u64 } else { self.rng.number() };
        let count = self.rng.pick(&[0, 1, 1, 2, 2, 2, 3, 3, 4, 6]);
        for step in 0..count {
            if step > 0 {
                time = self.later(time);
            }
            if !self.now(Fault::Order) {
                self.record(1, &time.to_be_bytes());
            }
            let mut last = 0;
            for id in self.ids() {
                let again = last > 0 && self.now(Fault::Rising);
                let id = if !again {
                    id
                } else if self.rng.percent(50) {
                    last
                } else {
                    1 + self.rng.below(last)
                };
                self.write_of(id, Rng::leb128);
                last = id;
                if self.now(Fault::Order) {
                    self.record(1, &time.to_be_bytes());
                }
            }
            if !self.now(Fault::Order) {
                self.record(4, &[]);
            }
        }
        self.out
    }

    /// An event stream and its value buffer.
    pub fn events(mut self) -> (Vec<u8>, Vec<u8>) {
        let mut values = vec![0; self.rng.below(40)];
        values.iter_mut().for_each(|b| *b = self.rng.next() as u8);
        let base = if self.rng.percent(70) { 0 } else { self.rng.number().min(u64::MAX - 8) };
        let pool = 1 + self.rng.below(6);
        let mut time = base;
        let count = self.rng.below(20);
        if count > 0 && !self.now(Fault::Order) {
            self.record(1, &base.to_be_bytes());
        }
        for _ in 0..count {
            let reference = match self.rng.below(12) {
                0 => 0,
                1 => u32::MAX,
                2 => self.rng.next() as u32,
                _ => self.rng.below(9) as u32,
            };
            match self.rng.below(10) {
                0..=2 => {
                    time = base + self.rng.below(pool) as u64;
                    self.record(1, &time.to_be_bytes());
                }
                3 => {
                    time = time.saturating_add(self.rng.below(3) as u64);
                    self.record(1, &time.to_be_bytes());
                }
                4 => {
                    let mut body = reference.to_be_bytes().to_vec();
                    body.extend(self.rng.number().to_be_bytes());
                    self.record(4, &body);
                }
                _ => {
                    let mut start = self.rng.below(values.len() + 1);
                    let mut length = match self.rng.below(3) {
                        0 => values.len() - start,
                        _ => self.rng.below(values.len() - start + 1),
                    };
                    if self.now(Fault::Bounds) {
                        match self.rng.below(4) {
                            0 => length = values.len() - start + 1,
                            1 => start = values.len() + 1,
                            2 => length = u32::MAX as usize,
                            _ => start = u32::MAX as usize,
                        }
                    }
                    let mut body = reference.to_be_bytes().to_vec();
                    body.extend((start as u32).to_be_bytes());
                    body.extend((length as u32).to_be_bytes());
                    let kind = 2 + self.rng.below(2) as u8;
                    self.record(kind, &body);
                }
            }
        }
        (self.out, values)
    }
}

/// A copy with one to three things done to its bytes.
pub fn damaged(rng: &mut Rng, bytes: &[u8]) -> Vec<u8> {
    let mut out = bytes.to_vec();
    for _ in 0..1 + rng.below(3) {
        let at = rng.below(out.len() + 1);
        match rng.below(9) {
            0 | 1 if at < out.len() => out[at] ^= 1 << rng.below(8),
            2 if at < out.len() => out[at] = rng.pick(&[0, 1, 2, 8, 9, 127, 128, 129, 255]),
            3 => out.truncate(at),
            4 => out.insert(at, rng.next() as u8),
            5 if at < out.len() => {
                out.remove(at);
            }
            6 => {
                let to = (at + 1 + rng.below(12)).min(out.len());
                let part = out[at..to].to_vec();
                let to = rng.below(out.len() + 1);
                out.splice(to..to, part);
            }
            7 => {
                let to = (at + 1 + rng.below(8)).min(out.len());
                out.drain(at..to);
            }
            _ if out.len() > 1 => {
                // Cut near the end, where marks and tailers stand.
                let cut = rng.below(out.len().min(24));
                out.truncate(out.len() - cut);
            }
            _ => {}
        }
    }
    out
}
