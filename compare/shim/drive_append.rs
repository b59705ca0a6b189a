//! One reading through the crate's code and the appending encoder.
use crate::ghw::signals::read_signals;
use crate::Hierarchy;
use std::cell::RefCell;

pub use crate::ghw::common::{GhwDecodeInfo, HeaderData};
pub use crate::signal::SignalSource;

/// The vectors are emptied first and keep their room. None where the crate gives an error.
#[inline(never)]
pub fn read(header: &HeaderData, info: GhwDecodeInfo, input: &[u8], mut events: Vec<u8>, mut values: Vec<u8>) -> Option<SignalSource> {
    events.clear();
    values.clear();
    let hierarchy = Hierarchy { events: RefCell::new(events), values: RefCell::new(values) };
    let mut input = input;
    read_signals(header, info, &hierarchy, &mut input).ok().map(|(source, _)| source)
}
