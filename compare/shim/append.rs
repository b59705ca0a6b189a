//! The encoder of the benchmark: appends the same event records and value bytes to two vectors.
use crate::signal::{SignalSource, States};
use crate::{SignalRef, TimeTable};
use std::cell::RefCell;

/// The two vectors, lent for a reading.
#[derive(Default)]
pub struct Hierarchy {
    pub events: RefCell<Vec<u8>>,
    pub values: RefCell<Vec<u8>>,
}

pub struct Encoder {
    events: Vec<u8>,
    values: Vec<u8>,
    steps: u64,
}

impl Encoder {
    pub fn new(hierarchy: &Hierarchy) -> Self {
        Encoder { events: hierarchy.events.take(), values: hierarchy.values.take(), steps: 0 }
    }
    #[inline]
    pub fn time_change(&mut self, time: u64) {
        let mut record = [1u8; 9];
        record[1..].copy_from_slice(&time.to_be_bytes());
        self.events.extend_from_slice(&record);
        self.steps += 1;
    }
    #[inline]
    pub fn raw_value_change(&mut self, id: SignalRef, value: &[u8], states: States) {
        let mut record = [0u8; 13];
        record[0] = if states == States::Nine { 3 } else { 2 };
        record[1..5].copy_from_slice(&(id.index() as u32 + 1).to_be_bytes());
        record[5..9].copy_from_slice(&(self.values.len() as u32).to_be_bytes());
        record[9..].copy_from_slice(&(value.len() as u32).to_be_bytes());
        self.events.extend_from_slice(&record);
        self.values.extend_from_slice(value);
    }
    #[inline]
    pub fn real_change(&mut self, id: SignalRef, value: f64) {
        let mut record = [4u8; 13];
        record[1..5].copy_from_slice(&(id.index() as u32 + 1).to_be_bytes());
        record[5..].copy_from_slice(&value.to_bits().to_be_bytes());
        self.events.extend_from_slice(&record);
    }
    pub fn finish(self) -> (SignalSource, TimeTable) {
        (SignalSource { events: self.events, values: self.values, steps: self.steps }, Vec::new())
    }
}
