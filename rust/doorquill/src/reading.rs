//! The readings: section bytes or change records to events, and what is asked of events.
use crate::bench::{self, Counted};
use crate::call::{self, Rooms};
use crate::raw::Answer;
use crate::rooms::{self, zeros, Outputs};
use crate::{Events, Refusal, Tables, MOST_BUFFER};
use std::sync::Arc;

/// An accepted reading: its events, and their value bytes.
#[derive(Clone, Debug, Default, PartialEq, Eq)]
pub struct Reading {
    events: Vec<u8>,
    /// The time rule drops events and no value bytes: what it keeps shares them.
    values: Arc<Vec<u8>>,
    bytes_read: u64,
    steps: u64,
}

/// How section bytes are read.
#[derive(Clone, Copy, Debug, PartialEq, Eq)]
pub struct How {
    /// The header's flag: numbers of fixed size have their highest byte first.
    pub big_endian: bool,
    /// Reals follow the flag; otherwise they are little-endian whatever it says.
    pub reals_by_flag: bool,
}

impl How {
    /// As wellen reads.
    pub fn wellen(big_endian: bool) -> How {
        How { big_endian, reals_by_flag: false }
    }
}

/// Reads section bytes: what stands behind the hierarchy of a GHW file, up to its tailer.
///
/// Refused are, with their places in `sections`, 7 to 15 for what the bytes hold; 1 to 5 for too many bytes and for bad
/// tables; 16 where the values would take more than [`MOST_BUFFER`] bytes.
///
/// Reals are little-endian whatever the flag says, as wellen reads them.
pub fn read_sections(tables: &Tables, big_endian: bool, sections: &[u8]) -> Result<Reading, Refusal> {
    read_sections_as(tables, How::wellen(big_endian), sections)
}

/// Reads section bytes as [`read_sections`] does, in a manner of choice.
pub fn read_sections_as(tables: &Tables, how: How, sections: &[u8]) -> Result<Reading, Refusal> {
    let outputs = Outputs::of_sections(tables, sections.len(), MOST_BUFFER);
    read(tables, outputs, |rooms| call::read_sections(tables, how, sections, rooms))
}

/// Reads change records (document 01), through the same gatherer.
///
/// A record is a byte of kind and a body: 1 a time (8 bytes), which opens a step; 2 a byte write (id, 1 byte) and 3 a
/// wide write (id, 8 bytes); 4 the step's end. Numbers are big-endian, ids have 4 bytes.
pub fn read_changes(tables: &Tables, changes: &[u8]) -> Result<Reading, Refusal> {
    let outputs = Outputs::of_changes(tables, changes.len(), MOST_BUFFER);
    read(tables, outputs, |rooms| call::read_changes(tables, changes, rooms))
}

/// Writes change records as sections: one cycle, numbers in their shortest form, and a tailer.
///
/// Read again they give the events of [`read_changes`], and [`read_back`] gives the records themselves. Ids must rise
/// within a step (else 22) and times must not fall (else 23).
pub fn write_sections(tables: &Tables, big_endian: bool, changes: &[u8]) -> Result<Vec<u8>, Refusal> {
    fill(rooms::sections_written(changes.len()), |out| call::write_sections(tables, big_endian, changes, out))
}

/// Reads sections back into change records, one for each time, value and step end. It refuses what [`read_sections`]
/// refuses.
pub fn read_back(tables: &Tables, big_endian: bool, sections: &[u8]) -> Result<Vec<u8>, Refusal> {
    fill(rooms::read_back(tables, sections.len()), |out| call::read_back(tables, big_endian, sections, out))
}

fn accepted(answer: Answer) -> Result<Answer, Refusal> {
    match answer.number {
        0 => Ok(answer),
        number => Err(Refusal { number: number as u8, place: answer.place }),
    }
}

/// The part that a call reported of its output.
fn reported(mut output: Vec<u8>, bytes: u64) -> Vec<u8> {
    output.truncate(bytes as usize);
    output.shrink_to_fit();
    output
}

/// A call with one output.
fn fill(length: usize, call: impl FnOnce(&mut [u8]) -> Answer) -> Result<Vec<u8>, Refusal> {
    let mut out = zeros(length)?;
    let answer = accepted(call(&mut out))?;
    Ok(reported(out, answer.events))
}

/// A reading, with larger outputs as long as refusal 16 asks for them.
fn read(tables: &Tables, mut outputs: Outputs, call: impl Fn(Rooms<'_>) -> Answer) -> Result<Reading, Refusal> {
    let mut room = zeros(rooms::working(tables))?;
    let mut list = zeros(rooms::list(tables))?;
    loop {
        let (mut events, mut values) = (zeros(outputs.events)?, zeros(outputs.values)?);
        let answer = call(Rooms { events: &mut events, values: &mut values, room: &mut room, list: &mut list });
        if answer.number == 16 {
            if let Some(more) = outputs.after_full(answer.place) {
                outputs = more;
                continue;
            }
        }
        let answer = accepted(answer)?;
        return Ok(Reading {
            events: reported(events, answer.events),
            values: Arc::new(reported(values, answer.values)),
            bytes_read: answer.read,
            steps: answer.steps,
        });
    }
}

impl Reading {
    /// A host's own event records and value bytes, in document 01's form. They are judged by whatever is called on
    /// them.
    pub fn from_records(events: Vec<u8>, values: Vec<u8>) -> Reading {
        Reading { events, values: Arc::new(values), bytes_read: 0, steps: 0 }
    }

    /// The events, in order.
    pub fn events(&self) -> Events<'_> {
        Events::of(&self.events, &self.values)
    }

    /// What the time rule keeps: times rise, and what came at a time that fell is dropped.
    pub fn time_rule(&self) -> Result<Reading, Refusal> {
        let mut kept = zeros(self.events.len())?;
        let answer = accepted(call::time_rule(&self.events, &self.values, &mut kept))?;
        Ok(Reading {
            events: reported(kept, answer.events),
            values: Arc::clone(&self.values),
            bytes_read: answer.read,
            steps: answer.steps,
        })
    }

    /// Counts fragments: each rise of the strobe between step ends, to the session then shown.
    ///
    /// The references are those of a two-state vector of at most 32 bits and of two two-state signals. A reference that
    /// no event has counts as a line that stays at 0: it is the caller's to see that the names are right.
    pub fn fragments(&self, session: u32, strobe: u32, close: u32) -> Result<Vec<Counted>, Refusal> {
        let out = fill(rooms::counted(self.events.len()), |out| {
            call::bench(&self.events, &self.values, session, strobe, close, out)
        })?;
        Ok(bench::account(&out))
    }

    /// Bytes of the input that were read: up to the tailer's end. 0 of a host's own records.
    pub fn bytes_read(&self) -> u64 {
        self.bytes_read
    }

    /// Time events. 0 of a host's own records.
    pub fn steps(&self) -> u64 {
        self.steps
    }

    /// The event records and the value bytes, in document 01's form.
    pub fn records(&self) -> (&[u8], &[u8]) {
        (&self.events, &self.values)
    }
}

#[cfg(test)]
mod tests {
    use super::*;
    use crate::States;

    /// The true limit would take a gigabyte; a smaller one ends the same way.
    #[test]
    fn full_at_the_limit_is_a_refusal() {
        let mut tables = Tables::new();
        tables.vector(States::Nine, 4096, 1);
        // Bit 4095 in each of a hundred steps: 2,048 value bytes for every four of the input.
        let steps = [1, 3, 0, 1].repeat(100);
        let sections = [&b"CYC\0\0\0\0\0\0\0\0\0"[..], &steps, &[0, 0x7f], b"ECY\0TAI\0\0\0\0\0\0\0\0\0"].concat();
        let within = |limit| {
            let outputs = Outputs::of_sections(&tables, sections.len(), limit);
            read(&tables, outputs, |rooms| call::read_sections(&tables, How::wellen(false), &sections, rooms))
        };
        assert_eq!(within(100 * 2048).unwrap().records().1.len(), 100 * 2048);
        // The hundredth value is given at its step's end, before the delta that follows: 12 + 4 * 99 + 3.
        let refusal = within(100 * 2048 - 1).unwrap_err();
        assert_eq!(refusal, Refusal { number: 16, place: 411 });
        let words = "refused (16): the next event or record does not fit the room for it, at byte 411";
        assert_eq!(refusal.to_string(), words);
    }
}
