//! The encoder that records each call with the next unread byte.
use crate::signal::{SignalSource, States};
use crate::{SignalRef, TimeTable};
use calls::{Call, What};
use std::cell::{Cell, RefCell};
use std::rc::Rc;

#[derive(Default)]
pub struct Log {
    pub calls: Vec<Call>,
    pub values: Vec<u8>,
}

/// The log outlives the encoder, which an error or a panic drops.
#[derive(Clone, Default)]
pub struct Hierarchy {
    pub log: Rc<RefCell<Log>>,
    pub at: Rc<Cell<usize>>,
}

pub struct Encoder {
    to: Hierarchy,
}

impl Encoder {
    pub fn new(hierarchy: &Hierarchy) -> Self {
        Encoder { to: hierarchy.clone() }
    }
    fn call(&mut self, what: What) {
        let at = self.to.at.get();
        self.to.log.borrow_mut().calls.push(Call { at, what });
    }
    pub fn time_change(&mut self, time: u64) {
        self.call(What::Time(time));
    }
    pub fn raw_value_change(&mut self, id: SignalRef, value: &[u8], states: States) {
        let nine = match states {
            States::Two => false,
            States::Nine => true,
            States::Four => unreachable!("no four-state value in a section"),
        };
        let start = self.to.log.borrow().values.len();
        self.to.log.borrow_mut().values.extend_from_slice(value);
        self.call(What::Value { nine, reference: id.index() as u32 + 1, start, length: value.len() });
    }
    pub fn real_change(&mut self, id: SignalRef, value: f64) {
        self.call(What::Real { reference: id.index() as u32 + 1, bits: value.to_bits() });
    }
    pub fn finish(self) -> (SignalSource, TimeTable) {
        (SignalSource, Vec::new())
    }
}
