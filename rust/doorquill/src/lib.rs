//! GHW waveforms, the traces of the VHDL simulator GHDL, read by a proved library.
//!
//! [`ghw::open`] reads what stands before the signal sections of a `.ghw` file: names, types, hierarchy, and from these
//! the signal tables. Everything from there on is done by calls that are proved for every input (`crates/` in the
//! repository): [`read_sections`] gathers values into events, [`Reading::time_rule`] keeps what has rising times, and
//! [`Reading::fragments`] counts fragments to sessions. This crate lends them memory, enough of it, and puts their
//! answers into types.
//!
//! Whatever is wrong with an input comes back as a [`Refusal`]: a number, a place and a sentence. No input makes this
//! crate panic.
//!
//! # The worked example of the rules
//!
//! A nine-state signal, a two-state vector of two bits and a byte; a snapshot at time 0 and a cycle of two steps:
//!
//! ```
//! use doorquill::{read_sections, Event, Kind, States, Tables};
//!
//! let mut tables = Tables::new();
//! assert_eq!(tables.signal(Kind::NineState, 1), 1);
//! let vector = tables.vector(States::Two, 2, 2);
//! assert_eq!((vector.number, vector.min, vector.max), (1, 2, 3));
//! assert_eq!(tables.signal(Kind::U8, 3), 4);
//!
//! let sections = [
//!     &b"SNP\0"[..], &[0; 12], &[3, 1, 0, 0x2a], b"ESN\0",
//!     b"CYC\0", &10u64.to_le_bytes(), &[3, 1, 0, 5, 1, 4, 0, 0x7f], b"ECY\0",
//!     b"TAI\0", &[0; 8],
//! ]
//! .concat();
//!
//! let reading = read_sections(&tables, false, &sections)?;
//! let value = |reference, states, bytes| Event::Value { reference, states, bytes };
//! let events: Vec<Event> = reading.events().collect();
//! assert_eq!(events, [
//!     Event::Time(0),
//!     value(1, States::Nine, &[1]),
//!     value(2, States::Two, &[2]),
//!     value(3, States::Two, &[0x2a]),
//!     Event::Time(10),
//!     value(2, States::Two, &[3]),
//!     Event::Time(15),
//!     value(1, States::Nine, &[3]),
//! ]);
//! assert_eq!((reading.bytes_read(), reading.steps()), (60, 3));
//!
//! // One byte damaged: a value that no bit can have.
//! let mut damaged = sections;
//! damaged[17] = 7;
//! let refusal = read_sections(&tables, false, &damaged).unwrap_err();
//! assert_eq!(refusal.to_string(), "refused (14): a value out of its kind's range, at byte 17");
//! # Ok::<(), doorquill::Refusal>(())
//! ```
//!
//! # Memory
//!
//! The calls allocate nothing: this crate lends them all room, and enough of it. Of events, 13 bytes for each section
//! byte always are enough, since every event but a time owns at least one write; a reading begins with half of that and
//! one snapshot's worth, which is enough for what GHDL writes. Of values, the bytes of the widest signal for each write
//! are; a reading begins with four bytes for each byte of the input, and where a wide bus makes more, the place of
//! refusal 16 says by how much to go on. So refusal 16 is seen only where a file's values would take more than
//! [`MOST_BUFFER`] bytes, and 6 only where the system has no memory left. `src/rooms.rs` has the sizes of all calls,
//! with their reasons.
//!
//! # Linking
//!
//! `build.rs` takes the proved archives from the folder that `DOORQUILL_LIB` names, else from `target/staticlib` at the
//! repository's top or from `lib` of a release. They are for x86-64 Linux. The calls keep no state: readings may be
//! made in as many threads as one likes.
#![deny(unsafe_code)]
#![warn(missing_docs)]

mod bench;
mod call;
mod event;
pub mod ghw;
pub mod raw;
mod reading;
pub mod refusal;
mod rooms;
#[cfg(test)]
mod smallest;
mod tables;

pub use bench::Counted;
pub use event::{Event, Events};
pub use reading::{read_back, read_changes, read_sections, read_sections_as, write_sections, How, Reading};
pub use refusal::Refusal;
pub use tables::{Kind, States, Tables, Vector};

/// The most signals that tables may have.
pub const MOST_SIGNALS: usize = 65_535;
/// The most vectors that tables may have.
pub const MOST_VECTORS: usize = 16_383;
/// The most section or change bytes that a call reads.
pub const MOST_SECTION_BYTES: usize = 16_777_215;
/// The most bytes or numbers in any other buffer.
pub const MOST_BUFFER: usize = 1_073_741_823;
