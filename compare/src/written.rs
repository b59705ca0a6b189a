//! Document 02's W2 in plain: change records written as one cycle section, and section bytes read back into change records.
//! Both stand on the plain reading's own left-to-right walk, so every refusal of a reading comes as it does there.
use crate::plain::{changes, check, refuse, sections, Acts, At, Made, Outcome, Refusal, Rooms, Tables, Value, MOST_OTHER};

/// So many groups of seven bits, lowest first, all but the last marked as followed by another.
fn groups(number: i128, count: u32) -> Vec<u8> {
    (0..count).map(|i| (number >> (7 * i)) as u8 & 127 | if i + 1 < count { 128 } else { 0 }).collect()
}

/// "LEB128 numbers in their shortest form": the fewest groups that hold the number.
fn unsigned(number: u64) -> Vec<u8> {
    let number = i128::from(number);
    let holds = |count: &u32| number < 1 << (7 * count);
    groups(number, (1..=10).find(holds).expect("ten groups hold 64 bits"))
}

/// The same where the highest bit of the last group is the sign.
fn signed(number: i64) -> Vec<u8> {
    let number = i128::from(number);
    let holds = |count: &u32| (-(1 << (7 * count - 1))..1 << (7 * count - 1)).contains(&number);
    groups(number, (1..=10).find(holds).expect("ten groups hold 64 bits"))
}

/// "16 means that the record's bytes, or the closing ones at the input's end, don't fit"; by 16 the record counts as read.
struct Writer<'a> {
    t: &'a Tables,
    big: bool,
    /// The last time record's time, once there was one.
    time: Option<u64>,
    /// The last id written in this step; 0 before the first.
    id: usize,
    made: &'a mut Made,
}

impl Writer<'_> {
    /// The closing delta and the end mark where there is a cycle, and the tailer.
    fn close(&mut self, end: usize) -> Result<usize, Refusal> {
        let mut bytes = vec![];
        if self.time.is_some() {
            bytes.extend(signed(-1));
            bytes.extend(b"ECY\0");
        }
        bytes.extend(b"TAI\0");
        bytes.extend([0; 8]);
        self.made.event(&bytes, &[], end)?;
        Ok(end)
    }
}

impl Acts for Writer<'_> {
    /// "23 time falls or jumps too far": neighbouring times differ by at most 2^63-1.
    fn time(&mut self, time: u64, at: At) -> Result<(), Refusal> {
        let bytes = match self.time {
            None => {
                let fixed = if self.big { time.to_be_bytes() } else { time.to_le_bytes() };
                [&b"CYC\0"[..], &fixed].concat()
            }
            Some(last) => match time.checked_sub(last) {
                Some(delta) if delta < 1 << 63 => signed(delta as i64),
                _ => return refuse(23, at.record),
            },
        };
        self.made.event(&bytes, &[], at.unread)?;
        self.made.steps += 1;
        self.time = Some(time);
        self.id = 0;
        Ok(())
    }

    /// "22 ids not rising". The byte of a byte write is the one that sections have.
    fn write(&mut self, id: usize, value: Value, at: At) -> Result<(), Refusal> {
        if id <= self.id {
            return refuse(22, at.record);
        }
        let mut bytes = unsigned((id - self.id) as u64);
        match value {
            Value::Byte { byte, .. } => bytes.push(byte),
            Value::Wide(number) if self.t.kinds[id - 1] == 5 => bytes.extend(signed(number as i64)),
            Value::Wide(bits) => bytes.extend(bits.to_le_bytes()),
        }
        self.made.event(&bytes, &[], at.unread)?;
        self.id = id;
        Ok(())
    }

    fn step_end(&mut self, at: At) -> Result<(), Refusal> {
        self.made.event(&[0], &[], at.unread)
    }
}

/// The way back: each act is its change record.
struct Records<'a> {
    made: &'a mut Made,
}

impl Acts for Records<'_> {
    fn time(&mut self, time: u64, at: At) -> Result<(), Refusal> {
        self.made.event(&[&[1][..], &time.to_be_bytes()].concat(), &[], at.unread)?;
        self.made.steps += 1;
        Ok(())
    }

    /// "bounded and mapped as in sections": the byte stands in the record as it stood in the section.
    fn write(&mut self, id: usize, value: Value, at: At) -> Result<(), Refusal> {
        let id = (id as u32).to_be_bytes();
        let record = match value {
            Value::Byte { byte, .. } => [&[2][..], &id, &[byte]].concat(),
            Value::Wide(bits) => [&[3][..], &id, &bits.to_be_bytes()].concat(),
        };
        self.made.event(&record, &[], at.unread)
    }

    fn step_end(&mut self, at: At) -> Result<(), Refusal> {
        self.made.event(&[4], &[], at.unread)
    }
}

/// Checks 1 to 5. 6 asks about working room, of which these calls are lent none and need none: here there is always enough.
fn checks(t: &Tables, input: usize, room: usize) -> Result<(), Refusal> {
    check(t, input, &Rooms { events: room, values: 0, room: MOST_OTHER, list: MOST_OTHER, flat: 0 }, None)
}

pub fn write_sections(t: &Tables, big: bool, bytes: &[u8], room: usize) -> Outcome {
    let mut made = Made::within(room, 0);
    let end = checks(t, bytes.len(), room).and_then(|()| {
        let mut writer = Writer { t, big, time: None, id: 0, made: &mut made };
        changes(t, bytes, &mut writer).and_then(|end| writer.close(end))
    });
    made.outcome(end, false)
}

pub fn read_back(t: &Tables, big: bool, bytes: &[u8], room: usize) -> Outcome {
    let mut made = Made::within(room, 0);
    let end = checks(t, bytes.len(), room).and_then(|()| sections(t, big, bytes, &mut Records { made: &mut made }));
    made.outcome(end, false)
}
