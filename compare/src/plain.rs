//! A plain reading of document 01: the three entries, their refusals and the listing, slow and without the crate.
//! It keeps no packed bytes and no masks: a vector is a list of its values and a list of "written since the last event".
pub use crate::raw::Answer;
pub use calls::Tables;

pub const MOST_SIGNALS: usize = 65_535;
pub const MOST_VECTORS: usize = 16_383;
pub const MOST_INPUT: usize = 16_777_215;
pub const MOST_OTHER: usize = 1_073_741_823;

/// Lengths of the lent buffers. `flat` is asked for only by the entry over lent vector records.
#[derive(Clone, Copy, Debug, PartialEq, Eq)]
pub struct Rooms {
    pub events: usize,
    pub values: usize,
    pub room: usize,
    pub list: usize,
    pub flat: usize,
}

/// Document 02's manners of reading; with all of them off a reading is document 01's.
#[derive(Clone, Copy, Debug, Default, PartialEq, Eq)]
pub struct Modes {
    /// W3: "a second mode that follows the flag", for the eight bytes of kind 6 in sections.
    pub reals_by_flag: bool,
}

/// Why an id was refused: what told it from other refusals of the same number.
#[derive(Clone, Copy, Debug, PartialEq, Eq)]
pub enum Why {
    Rule,
    /// The id that a delta came to, as a plain sum.
    Id(u128),
    /// A value byte that is out of range for this signal kind.
    Value(u8),
    /// A value before any time, or a real.
    Early {
        real: bool,
    },
}

#[derive(Clone, Copy, Debug)]
pub struct Refusal {
    pub number: u64,
    pub place: usize,
    pub why: Why,
}

pub fn refuse<T>(number: u64, place: usize) -> Result<T, Refusal> {
    Err(Refusal { number, place, why: Why::Rule })
}

/// The answer, the bytes that the outputs hold (everything past them is zero), and what had been made before a refusal.
#[derive(Clone, Debug)]
pub struct Outcome {
    pub answer: Answer,
    pub events: Vec<u8>,
    pub values: Vec<u8>,
    pub why: Why,
    pub made: Made,
}

#[derive(Clone, Debug, Default)]
pub struct Made {
    pub events: Vec<u8>,
    pub values: Vec<u8>,
    pub count: usize,
    pub steps: u64,
    event_room: usize,
    value_room: usize,
}

impl Made {
    pub fn within(event_room: usize, value_room: usize) -> Self {
        Made { event_room, value_room, ..Made::default() }
    }

    /// "16: next event doesn't fit event or value room", at the next unread byte.
    pub fn event(&mut self, record: &[u8], value: &[u8], unread: usize) -> Result<(), Refusal> {
        if self.events.len() + record.len() > self.event_room || self.values.len() + value.len() > self.value_room {
            return refuse(16, unread);
        }
        self.events.extend_from_slice(record);
        self.values.extend_from_slice(value);
        self.count += 1;
        Ok(())
    }

    fn time(&mut self, time: u64, unread: usize) -> Result<(), Refusal> {
        let mut record = vec![1];
        record.extend(time.to_be_bytes());
        self.event(&record, &[], unread)?;
        self.steps += 1;
        Ok(())
    }

    fn value(&mut self, nine: bool, reference: u32, bytes: &[u8], unread: usize) -> Result<(), Refusal> {
        let mut record = vec![if nine { 3 } else { 2 }];
        record.extend(reference.to_be_bytes());
        record.extend((self.values.len() as u32).to_be_bytes());
        record.extend((bytes.len() as u32).to_be_bytes());
        self.event(&record, bytes, unread)
    }

    fn real(&mut self, reference: u32, bits: u64, unread: usize) -> Result<(), Refusal> {
        let mut record = vec![4];
        record.extend(reference.to_be_bytes());
        record.extend(bits.to_be_bytes());
        self.event(&record, &[], unread)
    }

    pub fn outcome(self, end: Result<usize, Refusal>, value_bytes: bool) -> Outcome {
        match end {
            Ok(read) => {
                let values = if value_bytes { self.values.len() as u64 } else { 0 };
                let answer = Answer { number: 0, place: 0, read: read as u64, events: self.events.len() as u64, values, steps: self.steps };
                Outcome { answer, events: self.events.clone(), values: self.values.clone(), why: Why::Rule, made: self }
            }
            Err(r) => {
                let answer = Answer { number: r.number, place: r.place as u64, ..Answer::default() };
                Outcome { answer, events: vec![], values: vec![], why: r.why, made: self }
            }
        }
    }
}

/// Bytes and numbers of working room: "one buffer for all value bytes, all mask bytes (width divided by 8, rounded up)
/// and two flag runs, each V/8 rounded up; another of V 4-byte numbers".
pub fn needs(t: &Tables) -> (usize, usize) {
    let up = |n: usize, by: usize| (n + by - 1) / by;
    let vectors = t.mins.len();
    let mut bytes = 2 * up(vectors, 8);
    for v in 0..vectors {
        let width = (t.maxs[v] - t.mins[v] + 1) as usize;
        bytes += up(width, if t.states[v] == 0 { 2 } else { 8 }) + up(width, 8);
    }
    (bytes, vectors)
}

/// Checks 1 to 6, in that order and lowest number first within one.
pub fn check(t: &Tables, input: usize, rooms: &Rooms, flat: Option<usize>) -> Result<(), Refusal> {
    let others = [rooms.events, rooms.values, rooms.room, rooms.list, flat.unwrap_or(0)];
    if input > MOST_INPUT || others.iter().any(|r| *r > MOST_OTHER) {
        return refuse(1, 0);
    }
    let (n, vectors) = (t.kinds.len(), t.mins.len());
    let equal =
        t.refs.len() == n && t.vecs.len() == n && t.maxs.len() == vectors && t.states.len() == vectors && t.vec_refs.len() == vectors;
    if !equal || n > MOST_SIGNALS || vectors > MOST_VECTORS {
        return refuse(2, 0);
    }
    // Without room for the flat lists no record is looked at.
    if flat.map_or(false, |f| f < 4 * vectors) {
        return refuse(6, 0);
    }
    for v in 0..vectors {
        let good = 1 <= t.mins[v] && t.mins[v] <= t.maxs[v] && t.maxs[v] as usize <= n && t.states[v] <= 1 && t.vec_refs[v] != 0;
        if !good {
            return refuse(3, v + 1);
        }
    }
    for id in 1..=n {
        let (kind, reference, vector) = (t.kinds[id - 1], t.refs[id - 1], t.vecs[id - 1] as usize);
        let good = kind <= 6
            && reference != 0
            && match kind {
                1 | 3 => {
                    1 <= vector
                        && vector <= vectors
                        && t.mins[vector - 1] as usize <= id
                        && id <= t.maxs[vector - 1] as usize
                        && t.states[vector - 1] == u8::from(kind == 3)
                        && t.vec_refs[vector - 1] == reference
                }
                _ => vector == 0,
            };
        if !good {
            return refuse(4, id);
        }
    }
    let mut lowest = None;
    for v in 0..vectors {
        // Later offences of this vector, and those of a vector that begins above the lowest one, don't matter.
        let first =
            (t.mins[v]..=t.maxs[v]).take_while(|id| lowest.map_or(true, |l| *id < l)).find(|id| t.vecs[*id as usize - 1] as usize != v + 1);
        lowest = first.or(lowest);
    }
    if let Some(id) = lowest {
        return refuse(5, id as usize);
    }
    let (bytes, numbers) = needs(t);
    if rooms.room < bytes || rooms.list < numbers {
        return refuse(6, 0);
    }
    Ok(())
}

/// "mapped by [5,2,0,1,3,6,7,4,8]".
const MAP: [u8; 9] = [5, 2, 0, 1, 3, 6, 7, 4, 8];

/// The byte of a value of kinds 0 to 4, judged and mapped.
fn byte_value(kind: u8, byte: u8, place: usize) -> Result<u8, Refusal> {
    let bad = Err(Refusal { number: 14, place, why: Why::Value(kind) });
    match kind {
        0 | 1 if byte > 8 => bad,
        0 | 1 => Ok(MAP[byte as usize]),
        2 | 3 if byte > 1 => bad,
        _ => Ok(byte),
    }
}

/// One vector: its values by bit number, which of them were written since its last event, and whether it was written in this step.
struct Vector {
    nine: bool,
    reference: u32,
    max: usize,
    values: Vec<u8>,
    written: Vec<bool>,
}

impl Vector {
    /// "Bit 0 lies lowest in the last byte; unused high places are zero."
    fn bytes(&self) -> Vec<u8> {
        let (bits, each) = if self.nine { (4, 2) } else { (1, 8) };
        let mut bytes: Vec<u8> =
            self.values.chunks(each).map(|chunk| chunk.iter().rev().fold(0, |byte, value| byte << bits | value)).collect();
        bytes.reverse();
        bytes
    }

    fn event(&mut self, made: &mut Made, unread: usize) -> Result<(), Refusal> {
        made.value(self.nine, self.reference, &self.bytes(), unread)?;
        self.written.iter_mut().for_each(|w| *w = false);
        Ok(())
    }
}

/// A written value: a byte of kinds 0 to 4 as it stands in the input and as it is mapped, or the eight bytes of kinds 5 and 6.
#[derive(Clone, Copy)]
pub enum Value {
    Byte { byte: u8, mapped: u8 },
    Wide(u64),
}

/// Where an act stands: the first byte of its record (of its delta or value in sections), and the next unread byte after it.
#[derive(Clone, Copy)]
pub struct At {
    pub record: usize,
    pub unread: usize,
}

/// What sections and change records say, one act after the other, to one who makes something of it.
pub trait Acts {
    fn time(&mut self, time: u64, at: At) -> Result<(), Refusal>;
    fn write(&mut self, id: usize, value: Value, at: At) -> Result<(), Refusal>;
    fn step_end(&mut self, at: At) -> Result<(), Refusal>;
}

struct Gatherer {
    vectors: Vec<Vector>,
    /// Vectors in the order of their first write in the step.
    order: Vec<usize>,
}

impl Gatherer {
    fn new(t: &Tables) -> Self {
        let vectors = (0..t.mins.len())
            .map(|v| {
                let width = (t.maxs[v] - t.mins[v] + 1) as usize;
                Vector {
                    nine: t.states[v] == 0,
                    reference: t.vec_refs[v],
                    max: t.maxs[v] as usize,
                    values: vec![0; width],
                    written: vec![false; width],
                }
            })
            .collect();
        Gatherer { vectors, order: vec![] }
    }

    /// A write of a mapped value to a vector's bit.
    fn write(&mut self, number: usize, id: usize, value: u8, made: &mut Made, unread: usize) -> Result<(), Refusal> {
        let v = &mut self.vectors[number - 1];
        let bit = v.max - id;
        // (a) if that bit was written since the vector's last event and the new value differs, make an event of the stored
        // vector and clear its marks
        if v.written[bit] && v.values[bit] != value {
            v.event(made, unread)?;
        }
        // (b) store and mark
        v.values[bit] = value;
        v.written[bit] = true;
        if !self.order.contains(&number) {
            self.order.push(number);
        }
        // (c) if the width is at most 7 or a multiple of 8 and every bit is marked, make an event and clear
        let width = v.values.len();
        if (width <= 7 || width % 8 == 0) && v.written.iter().all(|w| *w) {
            v.event(made, unread)?;
        }
        Ok(())
    }

    /// "At step end each vector with marks makes one event, in order of its first write in the step."
    fn step_end(&mut self, made: &mut Made, unread: usize) -> Result<(), Refusal> {
        for number in std::mem::take(&mut self.order) {
            let v = &mut self.vectors[number - 1];
            if v.written.contains(&true) {
                v.event(made, unread)?;
            }
        }
        Ok(())
    }
}

/// The readings: acts become events.
struct Reading<'a> {
    t: &'a Tables,
    gatherer: Gatherer,
    made: &'a mut Made,
}

impl<'a> Reading<'a> {
    fn new(t: &'a Tables, made: &'a mut Made) -> Self {
        Reading { t, gatherer: Gatherer::new(t), made }
    }
}

impl Acts for Reading<'_> {
    fn time(&mut self, time: u64, at: At) -> Result<(), Refusal> {
        self.made.time(time, at.unread)
    }

    fn write(&mut self, id: usize, value: Value, at: At) -> Result<(), Refusal> {
        let (kind, reference, vector) = (self.t.kinds[id - 1], self.t.refs[id - 1], self.t.vecs[id - 1] as usize);
        match value {
            Value::Byte { mapped, .. } if kind == 1 || kind == 3 => self.gatherer.write(vector, id, mapped, self.made, at.unread),
            Value::Byte { mapped, .. } => self.made.value(kind == 0, reference, &[mapped], at.unread),
            Value::Wide(bits) if kind == 5 => self.made.value(false, reference, &bits.to_be_bytes(), at.unread),
            Value::Wide(bits) => self.made.real(reference, bits, at.unread),
        }
    }

    fn step_end(&mut self, at: At) -> Result<(), Refusal> {
        self.gatherer.step_end(self.made, at.unread)
    }
}

/// The section bytes and the next unread one.
struct Input<'a> {
    bytes: &'a [u8],
    at: usize,
    big: bool,
    modes: Modes,
}

impl<'a> Input<'a> {
    /// The next `count` bytes, all or none: "7: input ends inside .. its first byte" or where it "must still follow".
    fn take(&mut self, count: usize) -> Result<&'a [u8], Refusal> {
        if self.bytes.len() - self.at < count {
            return refuse(7, self.at);
        }
        self.at += count;
        Ok(&self.bytes[self.at - count..self.at])
    }

    /// A fixed-size integer by the flag, as its bits unsigned.
    fn fixed(&self, bytes: &[u8]) -> u64 {
        let add = |n: u64, b: &u8| n << 8 | u64::from(*b);
        if self.big {
            bytes.iter().fold(0, add)
        } else {
            bytes.iter().rev().fold(0, add)
        }
    }

    /// The seven-bit groups of a LEB128 number. "At most ten bytes. The tenth must be 0 or 1 (unsigned), 0 or 127 (signed)."
    fn groups(&mut self, tenth: u8) -> Result<Vec<u8>, Refusal> {
        let first = self.at;
        let mut groups = vec![];
        loop {
            if self.at == self.bytes.len() {
                return refuse(7, first);
            }
            let byte = self.bytes[self.at];
            if groups.len() == 9 && byte != 0 && byte != tenth {
                return refuse(12, first);
            }
            self.at += 1;
            groups.push(byte % 128);
            if byte < 128 {
                return Ok(groups);
            }
        }
    }

    fn unsigned(&mut self) -> Result<u64, Refusal> {
        let groups = self.groups(1)?;
        Ok(groups.iter().rev().fold(0u128, |n, g| n * 128 + u128::from(*g)) as u64)
    }

    fn signed(&mut self) -> Result<i64, Refusal> {
        let groups = self.groups(127)?;
        let number = groups.iter().rev().fold(0i128, |n, g| n * 128 + i128::from(*g));
        let negative = groups[groups.len() - 1] >= 64;
        Ok((if negative { number - (1i128 << (7 * groups.len())) } else { number }) as i64)
    }

    fn end_mark(&mut self, mark: &[u8; 4]) -> Result<(), Refusal> {
        let place = self.at;
        if self.take(4)? != mark {
            return refuse(10, place);
        }
        Ok(())
    }

    fn not_negative(&mut self, bytes: &[u8], place: usize) -> Result<u64, Refusal> {
        let number = self.fixed(bytes);
        if number >= 1 << 31 {
            return refuse(11, place);
        }
        Ok(number)
    }
}

fn value(t: &Tables, id: usize, input: &mut Input, acts: &mut dyn Acts) -> Result<(), Refusal> {
    let record = input.at;
    let value = match t.kinds[id - 1] {
        5 => Value::Wide(input.signed()? as u64),
        6 if input.modes.reals_by_flag => {
            let bytes = input.take(8)?;
            Value::Wide(input.fixed(bytes))
        }
        // "eight bytes, always little-endian, the flag aside"
        6 => Value::Wide(input.take(8)?.iter().rev().fold(0, |n, b| n << 8 | u64::from(*b))),
        kind => {
            let byte = input.take(1)?[0];
            Value::Byte { byte, mapped: byte_value(kind, byte, record)? }
        }
    };
    acts.write(id, value, At { record, unread: input.at })
}

fn snapshot(t: &Tables, input: &mut Input, acts: &mut dyn Acts) -> Result<(), Refusal> {
    let record = input.at;
    let head = input.take(12)?;
    if head[..4] != [0; 4] {
        return refuse(9, record);
    }
    acts.time(input.fixed(&head[4..]), At { record, unread: input.at })?;
    for id in 1..=t.kinds.len() {
        value(t, id, input, acts)?;
    }
    acts.step_end(At { record: input.at, unread: input.at })?;
    input.end_mark(b"ESN\0")
}

fn cycle(t: &Tables, input: &mut Input, acts: &mut dyn Acts) -> Result<(), Refusal> {
    let mut record = input.at;
    let head = input.take(8)?;
    let mut time = input.fixed(head);
    loop {
        acts.time(time, At { record, unread: input.at })?;
        let mut id = 0;
        loop {
            record = input.at;
            let delta = input.unsigned()?;
            if delta == 0 {
                break;
            }
            let sum = id as u128 + u128::from(delta);
            if sum > t.kinds.len() as u128 {
                return Err(Refusal { number: 13, place: record, why: Why::Id(sum) });
            }
            id = sum as usize;
            value(t, id, input, acts)?;
        }
        acts.step_end(At { record, unread: input.at })?;
        record = input.at;
        let delta = input.signed()?;
        if delta < 0 {
            return input.end_mark(b"ECY\0");
        }
        time = match time.checked_add(delta as u64) {
            Some(time) => time,
            None => return refuse(15, record),
        };
    }
}

fn directory(input: &mut Input) -> Result<(), Refusal> {
    let place = input.at;
    let head = input.take(8)?;
    let count = input.not_negative(&head[4..], place + 4)?;
    for _ in 0..count {
        input.take(4)?;
        let place = input.at;
        let position = input.take(4)?;
        input.not_negative(position, place)?;
    }
    input.end_mark(b"EOD\0")
}

/// The next section, and whether it was the tailer.
fn section(t: &Tables, input: &mut Input, acts: &mut dyn Acts) -> Result<bool, Refusal> {
    let place = input.at;
    match input.take(4)? {
        b"SNP\0" => snapshot(t, input, acts)?,
        b"CYC\0" => cycle(t, input, acts)?,
        b"DIR\0" => directory(input)?,
        b"TAI\0" => {
            input.take(8)?;
            return Ok(true);
        }
        _ => return refuse(8, place),
    }
    Ok(false)
}

/// All sections up to the tailer: the bytes read.
pub fn sections_in(t: &Tables, modes: Modes, big: bool, bytes: &[u8], acts: &mut dyn Acts) -> Result<usize, Refusal> {
    let mut input = Input { bytes, at: 0, big, modes };
    while !section(t, &mut input, acts)? {}
    Ok(input.at)
}

pub fn sections(t: &Tables, big: bool, bytes: &[u8], acts: &mut dyn Acts) -> Result<usize, Refusal> {
    sections_in(t, Modes::default(), big, bytes, acts)
}

/// Each section's bytes, the tailer's last.
pub fn cut<'a>(t: &Tables, big: bool, bytes: &'a [u8]) -> Result<Vec<&'a [u8]>, Refusal> {
    let mut made = Made::within(MOST_OTHER, MOST_OTHER);
    let mut acts = Reading::new(t, &mut made);
    let mut input = Input { bytes, at: 0, big, modes: Modes::default() };
    let mut out = vec![];
    loop {
        let from = input.at;
        let last = section(t, &mut input, &mut acts)?;
        out.push(&bytes[from..input.at]);
        if last {
            return Ok(out);
        }
    }
}

pub fn read_sections_in(t: &Tables, modes: Modes, big: bool, bytes: &[u8], rooms: &Rooms) -> Outcome {
    let mut made = Made::within(rooms.events, rooms.values);
    let end = check(t, bytes.len(), rooms, None).and_then(|()| sections_in(t, modes, big, bytes, &mut Reading::new(t, &mut made)));
    made.outcome(end, true)
}

pub fn read_sections(t: &Tables, big: bool, bytes: &[u8], rooms: &Rooms) -> Outcome {
    read_sections_in(t, Modes::default(), big, bytes, rooms)
}

/// The entry over lent vector records: `flat` lends four numbers for each vector.
pub fn read_sections_lent(t: &Tables, big: bool, bytes: &[u8], rooms: &Rooms) -> Outcome {
    let mut made = Made::within(rooms.events, rooms.values);
    let end = check(t, bytes.len(), rooms, Some(rooms.flat)).and_then(|()| sections(t, big, bytes, &mut Reading::new(t, &mut made)));
    made.outcome(end, true)
}

fn number(bytes: &[u8]) -> u64 {
    bytes.iter().fold(0, |n, b| n << 8 | u64::from(*b))
}

/// All change records: the bytes read.
pub fn changes(t: &Tables, bytes: &[u8], acts: &mut dyn Acts) -> Result<usize, Refusal> {
    let mut open = false;
    let mut at = 0;
    loop {
        if at == bytes.len() {
            return if open { refuse(7, at) } else { Ok(at) };
        }
        let kind = bytes[at];
        let length = match kind {
            1 => 9,
            2 => 6,
            3 => 13,
            4 => 1,
            _ => return refuse(17, at),
        };
        if bytes.len() - at < length {
            return refuse(7, at);
        }
        let record = &bytes[at..at + length];
        let stands = At { record: at, unread: at + length };
        if (kind == 1) == open {
            return refuse(18, at);
        }
        match kind {
            1 => {
                open = true;
                acts.time(number(&record[1..]), stands)?;
            }
            4 => {
                open = false;
                acts.step_end(stands)?;
            }
            _ => {
                let id = number(&record[1..5]) as usize;
                if id == 0 || id > t.kinds.len() {
                    return Err(Refusal { number: 13, place: at, why: Why::Id(id as u128) });
                }
                let signal = t.kinds[id - 1];
                if (kind == 2) != (signal <= 4) {
                    return refuse(19, at);
                }
                let value = match kind {
                    2 => Value::Byte { byte: record[5], mapped: byte_value(signal, record[5], at + 5)? },
                    _ => Value::Wide(number(&record[5..])),
                };
                acts.write(id, value, stands)?;
            }
        }
        at = stands.unread;
    }
}

pub fn read_changes(t: &Tables, bytes: &[u8], rooms: &Rooms) -> Outcome {
    let mut made = Made::within(rooms.events, rooms.values);
    let end = check(t, bytes.len(), rooms, None).and_then(|()| changes(t, bytes, &mut Reading::new(t, &mut made)));
    made.outcome(end, true)
}

/// The bytes of an event record with its kind, where the kind is known.
pub fn event_length(kind: u8) -> Option<usize> {
    match kind {
        1 => Some(9),
        2 | 3 | 4 => Some(13),
        _ => None,
    }
}

fn kept(bytes: &[u8], values: usize, made: &mut Made) -> Result<usize, Refusal> {
    let mut last: Option<u64> = None;
    let mut skipping = false;
    let mut at = 0;
    while at < bytes.len() {
        let kind = bytes[at];
        let length = match event_length(kind) {
            Some(length) => length,
            None => return refuse(17, at),
        };
        if bytes.len() - at < length {
            return refuse(7, at);
        }
        let record = &bytes[at..at + length];
        let next = at + length;
        if kind == 1 {
            let time = number(&record[1..]);
            if last == Some(time) {
                // an equal one is dropped and changes nothing else, not even skipping
            } else if last.map_or(false, |l| time < l) {
                skipping = true;
            } else {
                made.event(record, &[], next)?;
                made.steps += 1;
                last = Some(time);
                skipping = false;
            }
        } else {
            if last.is_none() {
                return Err(Refusal { number: 18, place: at, why: Why::Early { real: kind == 4 } });
            }
            if kind != 4 && number(&record[5..9]) + number(&record[9..]) > values as u64 {
                return refuse(20, at);
            }
            if !skipping {
                made.event(record, &[], next)?;
            }
        }
        at = next;
    }
    Ok(at)
}

pub fn time_rule(bytes: &[u8], values: usize, room: usize) -> Outcome {
    let mut made = Made::within(room, 0);
    let over = bytes.len() > MOST_OTHER || values > MOST_OTHER || room > MOST_OTHER;
    let end = if over { refuse(1, 0) } else { kept(bytes, values, &mut made) };
    made.outcome(end, false)
}

/// What the listing's preamble says: the tables, the flag and where the section bytes begin.
pub fn preamble(bytes: &[u8]) -> Result<(Tables, bool, usize), Refusal> {
    if bytes.len() > 32_768 {
        return refuse(1, 32_768);
    }
    let mut t = Tables::default();
    let mut at = 0;
    loop {
        if at == bytes.len() {
            return refuse(7, at);
        }
        let length = match bytes[at] {
            1 => 10,
            2 => 14,
            3 => 2,
            _ => return refuse(17, at),
        };
        if bytes.len() - at < length {
            return refuse(7, at);
        }
        let r = &bytes[at..at + length];
        let word = |i: usize| number(&r[i..i + 4]) as u32;
        match r[0] {
            1 if t.kinds.len() == 256 => return refuse(2, at),
            1 => {
                t.kinds.push(r[1]);
                t.refs.push(word(2));
                t.vecs.push(word(6));
            }
            2 if t.mins.len() == 64 => return refuse(2, at),
            2 => {
                t.mins.push(word(1));
                t.maxs.push(word(5));
                t.states.push(r[9]);
                t.vec_refs.push(word(10));
            }
            _ if r[1] > 1 => return refuse(17, at),
            _ => return Ok((t, r[1] == 1, at + length)),
        }
        at += length;
    }
}

/// The rooms that the listing program lends.
pub const LISTING_ROOMS: Rooms = Rooms { events: 16_384, values: 8_192, room: 264, list: 64, flat: 0 };

/// The lines of a reading's events.
pub fn lines(events: &[u8], values: &[u8]) -> String {
    let hex = |bytes: &[u8]| bytes.iter().map(|b| format!("{:02x}", b)).collect::<String>();
    let mut out = String::new();
    let mut at = 0;
    while at < events.len() {
        let body = &events[at + 1..];
        let word = |i: usize| number(&body[i..i + 4]) as usize;
        match events[at] {
            1 => {
                out += &format!("time {}\n", number(&body[..8]));
                at += 9;
                continue;
            }
            4 => out += &format!("real {} {}\n", word(0), hex(&body[4..12])),
            kind => {
                let name = if kind == 2 { "two" } else { "nine" };
                out += &format!("{} {} {}\n", name, word(0), hex(&values[word(4)..word(4) + word(8)]));
            }
        }
        at += 13;
    }
    out
}

/// The last line of an accepted reading, or the only one of a refused one.
pub fn verdict(answer: &Answer) -> String {
    if answer.number == 0 {
        format!("done {} {}\n", answer.read, answer.steps)
    } else {
        format!("refused {} {}\n", answer.number, answer.place)
    }
}

pub fn listing(bytes: &[u8]) -> String {
    match preamble(bytes) {
        Err(r) => verdict(&Answer { number: r.number, place: r.place as u64, ..Answer::default() }),
        Ok((t, big, from)) => {
            let o = read_sections(&t, big, &bytes[from..], &LISTING_ROOMS);
            lines(&o.events, &o.values) + &verdict(&o.answer)
        }
    }
}
