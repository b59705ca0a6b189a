//! Refusals in words: one table, from which come the text of a [`Refusal`], the names in `include/doorquill.h`, the
//! page `docs/REFUSALS.md` and what `doorquill explain` prints. Tests hold the header and the page to it, and put every
//! smallest input to the call that it names.
use std::fmt;

/// Why a call gave no reading: document 01's number and the place that it names.
#[derive(Clone, Copy, Debug, PartialEq, Eq, Hash)]
pub struct Refusal {
    /// The number; [`meaning`] has the words.
    pub number: u8,
    /// The place; [`Meaning::place`] says of what.
    pub place: u64,
}

impl fmt::Display for Refusal {
    fn fmt(&self, f: &mut fmt::Formatter<'_>) -> fmt::Result {
        let Refusal { number, place } = self;
        match meaning(*number) {
            None => write!(f, "refused ({number}): a number that this crate does not know, at {place}"),
            Some(Meaning { sentence, counts, .. }) => {
                write!(f, "refused ({number}): {sentence}")?;
                match counts {
                    Counts::Nothing => Ok(()),
                    Counts::Vectors => write!(f, ", vector {place}"),
                    Counts::Ids => write!(f, ", id {place}"),
                    Counts::Bytes => write!(f, ", at byte {place}"),
                }
            }
        }
    }
}

impl std::error::Error for Refusal {}

/// What a refusal's place counts.
#[derive(Clone, Copy, Debug, PartialEq, Eq)]
pub enum Counts {
    /// Nothing: the place is always 0.
    Nothing,
    /// Vector numbers, from 1.
    Vectors,
    /// Ids, from 1.
    Ids,
    /// Bytes of the input, from 0.
    Bytes,
}

/// What a refusal number means.
#[derive(Clone, Copy, Debug, PartialEq, Eq)]
pub struct Meaning {
    /// The number.
    pub number: u8,
    /// Its name, which has `DOORQUILL_` before it in the header.
    pub name: &'static str,
    /// What is wrong, in a few words.
    pub sentence: &'static str,
    /// What its place counts.
    pub counts: Counts,
    /// Where its place stands.
    pub place: &'static str,
    /// The smallest input that shows it: the call, and what it is lent, as `docs/REFUSALS.md` explains.
    pub smallest: &'static str,
    /// What to do.
    pub advice: &'static str,
}

/// The meaning of a number.
pub fn meaning(number: u8) -> Option<&'static Meaning> {
    MEANINGS.iter().find(|m| m.number == number)
}

/// Every number that a call can answer, in order.
pub const MEANINGS: &[Meaning] = &[
    Meaning {
        number: 1,
        name: "BUFFER_OVER_LIMIT",
        sentence: "a buffer over its limit",
        counts: Counts::Nothing,
        place: "always 0",
        smallest: "read_sections; input 00*16777216",
        advice: "Sections and change records may have 16,777,215 bytes, every other buffer 1,073,741,823. For a shorter file, record fewer signals (GHDL's --read-wave-opt) or stop the run earlier (--stop-time).",
    },
    Meaning {
        number: 2,
        name: "LISTS",
        sentence: "table lists of unequal length, or too many signals or vectors",
        counts: Counts::Nothing,
        place: "always 0",
        smallest: "read_sections; kinds 2",
        advice: "Give the three lists of signals one length and the four of vectors one. There may be 65,535 signals and 16,383 vectors: record fewer of them (GHDL's --read-wave-opt).",
    },
    Meaning {
        number: 3,
        name: "VECTOR",
        sentence: "a bad vector in the tables",
        counts: Counts::Vectors,
        place: "the vector's number, from 1",
        smallest: "read_sections; mins 0; maxs 0; states 0; vec_refs 0",
        advice: "A vector's lowest id is at least 1, its highest is no lower and no higher than the last signal, its state is 0 (nine) or 1 (two), and its reference is not 0.",
    },
    Meaning {
        number: 4,
        name: "SIGNAL",
        sentence: "a bad signal in the tables",
        counts: Counts::Ids,
        place: "the signal's id, from 1",
        smallest: "read_sections; kinds 2; refs 0; vecs 0",
        advice: "A signal's kind is at most 6 and its reference is not 0. Kinds 1 and 3 name a vector that holds the id, has the same reference and has nine or two states as the kind says; all other kinds name none.",
    },
    Meaning {
        number: 5,
        name: "RANGE",
        sentence: "a signal inside a vector's range that does not name that vector",
        counts: Counts::Ids,
        place: "the signal's id, from 1; the lowest where there are several",
        smallest: "read_sections; kinds 2; refs 1; vecs 0; mins 1; maxs 1; states 1; vec_refs 1",
        advice: "Every id from a vector's lowest to its highest belongs to that vector and to no other: make the range smaller, or give the signal the vector's number.",
    },
    Meaning {
        number: 6,
        name: "ROOM_SHORT",
        sentence: "too little working room",
        counts: Counts::Nothing,
        place: "always 0",
        smallest: "read_sections; kinds 3; refs 1; vecs 1; mins 1; maxs 1; states 1; vec_refs 1; room 3; list 1",
        advice: "Lend value bytes and mask bytes of all vectors and two flags for each, and one number for each vector. The Rust crate makes this room itself: there the number says that the system had no memory left.",
    },
    Meaning {
        number: 7,
        name: "INPUT_ENDS",
        sentence: "the input ends too early",
        counts: Counts::Bytes,
        place: "the first byte of the mark, head, field, number or record that is cut; the input's length where one must still follow",
        smallest: "read_sections; input none",
        advice: "The file is cut: a simulation that was killed leaves it so. The command's `--salvage` reads it up to the last whole step.",
    },
    Meaning {
        number: 8,
        name: "MARK",
        sentence: "an unknown section mark",
        counts: Counts::Bytes,
        place: "the mark's first byte",
        smallest: "read_sections; input 00000000",
        advice: "A section begins with SNP, CYC, DIR or TAI and a zero byte. Either the sections do not begin here, or the tables have too few or too many signals, so that a snapshot ended elsewhere.",
    },
    Meaning {
        number: 9,
        name: "ZEROS",
        sentence: "a snapshot's first four bytes that are not zero",
        counts: Counts::Bytes,
        place: "the snapshot's head, behind its mark",
        smallest: "read_sections; input 534e5000 01000000 0000000000000000",
        advice: "The file is damaged here, or these are no section bytes.",
    },
    Meaning {
        number: 10,
        name: "END_MARK",
        sentence: "a wrong end mark",
        counts: Counts::Bytes,
        place: "the mark's first byte",
        smallest: "read_sections; input 44495200 00000000 00000000 00000000",
        advice: "A snapshot ends with ESN, a cycle with ECY, a directory with EOD, each with a zero byte. Most often the tables have too few or too many signals, or a wrong kind, so that values ended elsewhere.",
    },
    Meaning {
        number: 11,
        name: "NEGATIVE",
        sentence: "a negative number in the directory",
        counts: Counts::Bytes,
        place: "the number's first byte",
        smallest: "read_sections; input 44495200 00000000 ffffffff",
        advice: "The file is damaged here, or the flag for its byte order is wrong.",
    },
    Meaning {
        number: 12,
        name: "LEB128",
        sentence: "a LEB128 number over 64 bits",
        counts: Counts::Bytes,
        place: "the number's first byte",
        smallest: "read_sections; input 43594300 0000000000000000 80*9 02",
        advice: "The file is damaged here, or a kind in the tables is wrong, so that other bytes are taken for a number.",
    },
    Meaning {
        number: 13,
        name: "ID",
        sentence: "an id that is 0 or past the last signal",
        counts: Counts::Bytes,
        place: "the id's delta, or the record",
        smallest: "read_sections; input 43594300 0000000000000000 01",
        advice: "The tables have fewer signals than the input speaks of, or the file is damaged before this byte.",
    },
    Meaning {
        number: 14,
        name: "VALUE",
        sentence: "a value out of its kind's range",
        counts: Counts::Bytes,
        place: "the value's byte",
        smallest: "read_sections; kinds 2; refs 1; vecs 0; input 43594300 0000000000000000 01 02",
        advice: "A nine-state value is 0 to 8 and a two-state value 0 or 1. The signal's kind is wrong in the tables, or the file is damaged here.",
    },
    Meaning {
        number: 15,
        name: "TIME",
        sentence: "a time past 2^64-1",
        counts: Counts::Bytes,
        place: "the time's delta",
        smallest: "read_sections; input 43594300 ffffffffffffffff 00 01",
        advice: "The file is damaged, or the flag for its byte order is wrong: 2^64 femtoseconds are five hours.",
    },
    Meaning {
        number: 16,
        name: "FULL",
        sentence: "the next event or record does not fit the room for it",
        counts: Counts::Bytes,
        place: "the next unread byte",
        smallest: "time_rule; events 01 0000000000000000; out 8",
        advice: "Lend more room for the output. The Rust crate makes this room itself, as large as it may be: there the number says that events or values would take more than 1,073,741,823 bytes, and the way out is to record fewer signals or a shorter run.",
    },
    Meaning {
        number: 17,
        name: "KIND",
        sentence: "an unknown kind of record",
        counts: Counts::Bytes,
        place: "the record's first byte",
        smallest: "read_changes; input 00",
        advice: "Change records and event records have kinds 1 to 4. A `.ghw` file is none of these: open it with `doorquill`, or by `ghw::open`.",
    },
    Meaning {
        number: 18,
        name: "ORDER",
        sentence: "a record out of order",
        counts: Counts::Bytes,
        place: "the record's first byte",
        smallest: "read_changes; input 04",
        advice: "A time opens a step and a step's end closes it: no time inside an open step, no write and no step's end outside one. In an event stream a time comes first.",
    },
    Meaning {
        number: 19,
        name: "UNSUITED",
        sentence: "a write that does not suit the signal's kind",
        counts: Counts::Bytes,
        place: "the record's first byte",
        smallest: "read_changes; kinds 5; refs 1; vecs 0; input 01 0000000000000000 02 00000001 00",
        advice: "Kinds 0 to 4 take byte writes (record 2), numbers and reals take wide writes (record 3).",
    },
    Meaning {
        number: 20,
        name: "PAST_VALUES",
        sentence: "an event whose value lies past the end of the value bytes",
        counts: Counts::Bytes,
        place: "the record's first byte",
        smallest: "time_rule; events 01 0000000000000000 02 00000001 00000000 00000001; values none",
        advice: "Lend the value bytes that belong to these events, all of them.",
    },
    Meaning {
        number: 21,
        name: "SESSIONS",
        sentence: "a new session while 32 are live",
        counts: Counts::Bytes,
        place: "the record that ended the step, or the length of the events",
        smallest: "bench; 33 sessions, one fragment of each and none closed: 1846 event bytes, 33 value bytes",
        advice: "The bench holds 32 sessions that are not closed. Either sessions are never closed in this trace, or the close line is another signal.",
    },
    Meaning {
        number: 22,
        name: "IDS_FALL",
        sentence: "an id that is not above the one before it in its step",
        counts: Counts::Bytes,
        place: "the record's first byte",
        smallest: "write_sections; kinds 2; refs 1; vecs 0; input 01 0000000000000000 02 00000001 00 02 00000001 00",
        advice: "Sections can hold one value for each signal in a step, by rising id: sort the writes of a step, and keep the last for each id.",
    },
    Meaning {
        number: 23,
        name: "TIME_FALLS",
        sentence: "a time that falls, or jumps by more than 2^63-1",
        counts: Counts::Bytes,
        place: "the record's first byte",
        smallest: "write_sections; input 01 0000000000000001 04 01 0000000000000000",
        advice: "A cycle section holds times that do not fall: put the steps in order of time.",
    },
    Meaning {
        number: 34,
        name: "BENCH",
        sentence: "two of the bench's references equal, or an event of the three that cannot be counted",
        counts: Counts::Bytes,
        place: "0 where two references are equal, else the event's first byte",
        smallest: "bench; session 1; strobe 1; close 2",
        advice: "Session, strobe and close are three signals. All are two-state; a session's value has 1 to 4 bytes, the other two have one. `doorquill fragments --as-bits` turns std_logic lines into two-state ones.",
    },
];
