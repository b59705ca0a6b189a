//! The crate's `Encoder` for the time rule: its text from `struct Block` to the end of `impl Encoder`, cut out of
//! `wavemem.rs` at build time. The whole file can't be taken: it has a chain of `if let` and `&&`, which older compilers
//! refuse, and it stands on rayon, lz4_flex and on files of the crate that the source folder doesn't have
//! (`signal/source.rs`, `signal/compressed.rs` and others). What the text names besides is below; the encoder of one
//! signal keeps what reaches it.
use crate::signal::{BitVecRef, SignalSource, States, Time, TimeTableIdx};
use crate::{SignalRef, TimeTable};
use calls::{Call, What};
use std::cell::RefCell;
use std::cmp::Ordering;
use std::num::NonZeroU32;

/// The encoder warns on standard output when a time falls.
macro_rules! println {
    ($($word:tt)*) => {{ let _ = format_args!($($word)*); }};
}

include!(env!("ENCODER_TEXT"));

#[derive(Debug, Clone, Copy)]
pub enum SignalEncoding {
    Real,
    BitVector(u32),
}

pub struct Hierarchy;

impl Hierarchy {
    fn ground_signal_encodings(&self) -> std::vec::IntoIter<Option<SignalEncoding>> {
        Vec::new().into_iter()
    }
}

struct Reader {
    blocks: Vec<Block>,
}

trait Source {}
impl Source for Reader {}
impl SignalSource {
    fn new(_: Box<dyn Source>) -> Self {
        SignalSource
    }
}

struct MetaData;
impl MetaData {
    fn encode(&self) -> u64 {
        0
    }
}

thread_local! {
    /// The value or real that reached an encoder of a signal last.
    static REACHED: RefCell<Option<(bool, Vec<u8>)>> = RefCell::new(None);
}

#[derive(Clone)]
struct SignalEncoder {
    tpe: SignalEncoding,
}

impl SignalEncoder {
    fn new(tpe: SignalEncoding, _: usize) -> Self {
        SignalEncoder { tpe }
    }
    fn add_n_bit_change(&mut self, _: TimeTableIdx, value: BitVecRef<'_>) {
        let mut bytes = Vec::new();
        value.append_to_vec(&mut bytes);
        REACHED.with(|r| *r.borrow_mut() = Some((value.states() == States::Nine, bytes)));
    }
    fn add_real_change(&mut self, _: TimeTableIdx, value: f64) {
        REACHED.with(|r| *r.borrow_mut() = Some((false, value.to_bits().to_be_bytes().to_vec())));
    }
    fn add_vcd_change(&mut self, _: TimeTableIdx, _: &[u8]) {
        unimplemented!()
    }
    fn finish(&mut self) -> Option<(Vec<u8>, MetaData)> {
        None
    }
}

pub mod inside {
    use super::*;

    /// The crate's encoder over one signal. A reference is any number here, 0 too, so the signal's place in the table says nothing
    /// of it: each call is made for signal 0, and the reference is carried beside it.
    pub struct TimeRule {
        encoder: Encoder,
        calls: Vec<Call>,
    }

    impl TimeRule {
        pub fn new() -> Self {
            let mut encoder = Encoder::new(&Hierarchy);
            encoder.signals.push(Some(SignalEncoder::new(SignalEncoding::Real, 0)));
            REACHED.with(|r| r.borrow_mut().take());
            TimeRule { encoder, calls: Vec::new() }
        }

        /// A time is kept where the encoder's time table has changed.
        pub fn time(&mut self, at: usize, time: u64) {
            let state = |e: &Encoder| (e.blocks.len(), e.time_table.len());
            let before = state(&self.encoder);
            self.encoder.time_change(time);
            if state(&self.encoder) != before {
                let kept = *self.encoder.time_table.last().unwrap();
                self.calls.push(Call { at, what: What::Time(kept) });
            }
        }

        /// The signal is declared just as wide as the value, so that nothing is trimmed.
        pub fn value(&mut self, at: usize, nine: bool, reference: u32, start: usize, bytes: &[u8]) {
            let states = if nine { States::Nine } else { States::Two };
            let width = bytes.len() as u32 * states.bits_in_a_byte();
            self.encoder.signals[0].as_mut().unwrap().tpe = SignalEncoding::BitVector(width);
            self.encoder.raw_value_change(SignalRef::from_index(0).unwrap(), bytes, states);
            if let Some((nine, reached)) = REACHED.with(|r| r.borrow_mut().take()) {
                assert_eq!(reached, bytes);
                self.calls.push(Call { at, what: What::Value { nine, reference, start, length: reached.len() } });
            }
        }

        pub fn real(&mut self, at: usize, reference: u32, bits: u64) {
            self.encoder.real_change(SignalRef::from_index(0).unwrap(), f64::from_bits(bits));
            if let Some((_, reached)) = REACHED.with(|r| r.borrow_mut().take()) {
                let bits = reached.iter().fold(0, |n, b| n << 8 | u64::from(*b));
                self.calls.push(Call { at, what: What::Real { reference, bits } });
            }
        }

        pub fn take(&mut self) -> Vec<Call> {
            std::mem::take(&mut self.calls)
        }
    }
}
