//! How much memory each call is lent, and why that is enough.
//!
//! A caller never sees refusal 6 or 16 for want of room, as long as what the input makes is within document 01's limit
//! of 1,073,741,823 bytes for a buffer:
//!
//! * **Working room** is just what check 6 asks for. Tables that pass checks 1 to 5 have vectors whose ranges lie
//!   apart, so it is never more than some 66 KiB; tables that would ask for more are refused before check 6.
//! * **Events.** Every event but a time owns at least one write, so there are at most as many as writes. A value event
//!   takes 13 bytes and a write at least one byte of a snapshot or two of a cycle; a time takes 9 bytes and at least
//!   two of a cycle. So 13 bytes for each section byte are always enough. A reading begins with half of that and room
//!   for one whole snapshot more, which is enough for every file that GHDL writes; where it is not, the second attempt
//!   has all 13. A byte write of change records takes 6 bytes and all other records take as many as their events: 13
//!   bytes for every 6.
//! * **Values.** Each value event takes at most the bytes of the widest signal: so many for each write are always
//!   enough. With a wide bus that would be far too much (a 4096-bit nine-state bus: 2,048 bytes for a section byte), so
//!   a reading begins with four bytes for each byte of the input and some more. Where that is full, refusal 16 says how
//!   far the reading came: the next attempt has in proportion to that, at least twice and at most eight times as much,
//!   up to what is always enough or to the limit.
//! * **Sections written.** A step takes 10 bytes of change records and at most 11 of sections; a write never takes more
//!   than its record; 29 bytes open and close the section.
//! * **Sections read back.** A write's record has 6 bytes, or 13 for a number or a real; a number may take one byte of
//!   a section. So 13 bytes for each section byte, 6 where no signal is a number.
//! * **The time rule** keeps at most what it reads.
//! * **The bench.** A rise of the strobe makes at most 34 bytes, a fragment and a closing. Every rise but the first
//!   takes two steps and two events of the strobe, 44 bytes; the first takes one of each, 22. At the end at most 32
//!   sessions are held, of 13 bytes each. So 428 bytes more than the events have are always enough.
use crate::{Refusal, States, Tables, MOST_BUFFER, MOST_SECTION_BYTES, MOST_VECTORS};

/// More than the working room of any tables that pass checks 1 to 5: `(5 * 65,535 + 11 * 16,383) / 8` bytes of values
/// and marks, and two runs of 16,383 flags.
const MOST_WORKING_ROOM: usize = 131_072;

/// What a reading's outputs are lent: at first, and at most.
#[derive(Clone, Copy, Debug, PartialEq, Eq)]
pub(crate) struct Outputs {
    pub events: usize,
    pub values: usize,
    most_events: usize,
    most_values: usize,
    input: usize,
}

impl Outputs {
    pub fn of_sections(tables: &Tables, input: usize, limit: usize) -> Outputs {
        let most = 13 * within_input(input);
        let first = most / 2 + 13 * (tables.signals() + 20);
        Outputs::new(first, most, widest(tables).saturating_mul(input), input, limit)
    }

    pub fn of_changes(tables: &Tables, input: usize, limit: usize) -> Outputs {
        let most = 13 * within_input(input) / 6;
        Outputs::new(most, most, widest(tables).saturating_mul(input / 6), input, limit)
    }

    fn new(first_events: usize, most_events: usize, most_values: usize, input: usize, limit: usize) -> Outputs {
        let (most_events, most_values) = (most_events.min(limit), most_values.min(limit));
        let first_values = 4 * within_input(input) + 65_536;
        Outputs {
            events: first_events.min(most_events),
            values: first_values.min(most_values),
            most_events,
            most_values,
            input: within_input(input),
        }
    }

    /// What to lend after a refusal 16 at this place; `None` where there is no more to be lent.
    pub fn after_full(self, place: u64) -> Option<Outputs> {
        if self.events == self.most_events && self.values == self.most_values {
            return None;
        }
        // At most 2^30 bytes for at most 2^24, and a quarter more of that: within 64 bits.
        let proportion = self.values as u64 * self.input as u64 * 5 / (4 * place.clamp(1, self.input.max(1) as u64));
        let values = (proportion as usize).clamp(2 * self.values, 8 * self.values);
        Some(Outputs { events: self.most_events, values: values.min(self.most_values), ..self })
    }
}

/// An input over the limit is refused by check 1 whatever is lent: no room is made for it.
fn within_input(input: usize) -> usize {
    if input > MOST_SECTION_BYTES {
        0
    } else {
        input
    }
}

/// The vectors' states and widths, whatever the lists hold.
fn vectors(tables: &Tables) -> impl Iterator<Item = (States, u32)> + '_ {
    let ranges = tables.mins.iter().zip(&tables.maxs).zip(&tables.states);
    ranges.map(|((&min, &max), &state)| {
        let states = if state == 1 { States::Two } else { States::Nine };
        (states, max.saturating_sub(min).saturating_add(1))
    })
}

/// The most value bytes that one event can have.
fn widest(tables: &Tables) -> usize {
    let plain = if tables.kinds.contains(&5) { 8 } else { 1 };
    vectors(tables).map(|(states, width)| states.bytes(width)).max().unwrap_or(0).max(plain)
}

/// The bytes of working room that check 6 asks for: values and marks of all vectors, and two runs of flags.
pub(crate) fn working(tables: &Tables) -> usize {
    let flags = 2 * States::Two.bytes(tables.vectors().min(MOST_VECTORS) as u32);
    let chunks = vectors(tables).map(|(states, width)| states.bytes(width) + States::Two.bytes(width));
    chunks.fold(flags, usize::saturating_add).min(MOST_WORKING_ROOM)
}

/// The numbers of working room that check 6 asks for.
pub(crate) fn list(tables: &Tables) -> usize {
    tables.vectors().min(MOST_VECTORS)
}

pub(crate) fn sections_written(changes: usize) -> usize {
    let changes = within_input(changes);
    changes + changes / 10 + 32
}

pub(crate) fn read_back(tables: &Tables, sections: usize) -> usize {
    within_input(sections) * if tables.kinds.contains(&5) { 13 } else { 6 }
}

pub(crate) fn counted(events: usize) -> usize {
    events.saturating_add(428).min(MOST_BUFFER)
}

/// Zeroed room. Where the system has no memory for it, that is refusal 6.
pub(crate) fn zeros<T: Clone + Default>(length: usize) -> Result<Vec<T>, Refusal> {
    let mut room = Vec::new();
    room.try_reserve_exact(length).map_err(|_| Refusal { number: 6, place: 0 })?;
    room.resize(length, T::default());
    Ok(room)
}

#[cfg(test)]
mod tests {
    use super::*;

    fn bus(width: u32) -> Tables {
        let mut tables = Tables::new();
        tables.vector(States::Nine, width, 1);
        tables
    }

    #[test]
    fn a_narrow_file_has_all_its_room_at_once() {
        let outputs = Outputs::of_sections(&bus(8), 1_000_000, MOST_BUFFER);
        assert_eq!(outputs.values, 4_000_000);
        assert_eq!(outputs.events, 6_500_000 + 13 * 28);
        let more = outputs.after_full(999_999).unwrap();
        assert_eq!((more.events, more.values), (13_000_000, 4_000_000));
        assert_eq!(more.after_full(999_999), None);
    }

    #[test]
    fn a_wide_file_begins_small_and_goes_on_by_the_place() {
        let first = Outputs::of_sections(&bus(4096), 1_000_000, MOST_BUFFER);
        assert_eq!(first.values, 4_065_536);
        // Full at a third of the input: a quarter more than three times as much is asked for.
        let more = first.after_full(333_333).unwrap();
        assert!((3 * first.values..4 * first.values).contains(&more.values), "{more:?}");
        // Full at once, or at the end: at most eight times, at least twice.
        assert_eq!(first.after_full(0).unwrap().values, 8 * first.values);
        assert_eq!(first.after_full(1_000_000).unwrap().values, 2 * first.values);
        // Never more than the limit, and there it ends.
        let mut last = first;
        while let Some(more) = last.after_full(10) {
            last = more;
        }
        assert_eq!(last.values, MOST_BUFFER);
    }

    #[test]
    fn no_room_for_an_input_over_the_limit() {
        let outputs = Outputs::of_sections(&bus(4096), MOST_SECTION_BYTES + 1, MOST_BUFFER);
        assert_eq!((outputs.events, outputs.values), (0, 65_536));
        assert_eq!((sections_written(usize::MAX), read_back(&bus(1), usize::MAX)), (32, 0));
    }

    #[test]
    fn working_room_is_what_check_6_asks_for() {
        assert_eq!((working(&Tables::new()), list(&Tables::new())), (0, 0));
        assert_eq!(working(&bus(9)), 5 + 2 + 2);
        let vast = Tables { mins: vec![0; 9], maxs: vec![u32::MAX; 9], states: vec![0; 9], ..Tables::new() };
        assert_eq!(working(&vast), MOST_WORKING_ROOM);
    }
}
