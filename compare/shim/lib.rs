//! The crate's own files, unedited, in the module tree that they ask for. They are taken at build time from the folder
//! WELLEN_SRC; the encoder's text is cut out of `wavemem.rs` at build time into ENCODER_TEXT.
//! What stands in for the rest of the crate is in this file. `--cfg append` chooses the encoder that the benchmark
//! uses; without it the encoder records each call. `--cfg dropin` takes Doorquill's own file (`rust/wellen`) in place of the crate's `signals.rs`.
#![allow(dead_code, unused_imports, unused_macros, unstable_name_collisions)]

use std::num::NonZeroU32;

pub mod ghw {
    pub mod common {
        mod verbatim {
            include!(concat!(env!("WELLEN_SRC"), "/src/ghw/common.rs"));
        }
        pub use self::verbatim::*;

        /// Two methods of numbers that older compilers lack. Where the number has them, its own are used.
        pub trait Newer: Copy {
            fn div_ceil(self, by: Self) -> Self;
            fn is_multiple_of(self, of: Self) -> bool;
        }
        impl Newer for u32 {
            fn div_ceil(self, by: u32) -> u32 {
                self / by + u32::from(self % by != 0)
            }
            fn is_multiple_of(self, of: u32) -> bool {
                self % of == 0
            }
        }
        impl Newer for usize {
            fn div_ceil(self, by: usize) -> usize {
                self / by + usize::from(self % by != 0)
            }
            fn is_multiple_of(self, of: usize) -> bool {
                self % of == 0
            }
        }
    }

    #[cfg(dropin)]
    pub use crate::replaced as signals;

    #[cfg(not(dropin))]
    pub mod signals {
        include!(concat!(env!("WELLEN_SRC"), "/src/ghw/signals.rs"));

        /// A child of the module, so that it reaches the private gatherer.
        pub mod inside {
            use super::*;

            pub struct Gatherer {
                vecs: VecBuffer,
            }

            impl Gatherer {
                pub fn new(vectors: Vec<GhwVecInfo>) -> Self {
                    Gatherer { vecs: VecBuffer::from_vec_info(vectors) }
                }
                pub fn write(&mut self, info: &GhwSignals, id: u32, enc: &mut Encoder, mut value: &[u8]) -> Result<()> {
                    read_signal_value(info, GhwSignalId::new(id), &mut self.vecs, enc, &mut value)
                }
                pub fn step_end(&mut self, enc: &mut Encoder) {
                    finish_time_step(&mut self.vecs, enc)
                }
            }
        }
    }
}

pub mod signal {
    mod value {
        include!(concat!(env!("WELLEN_SRC"), "/src/signal/value.rs"));
    }
    pub use self::value::{BitVecRef, States};
    pub type Time = u64;
    pub type TimeTableIdx = u32;

    #[cfg(not(append))]
    pub struct SignalSource;
    #[cfg(append)]
    pub struct SignalSource {
        pub events: Vec<u8>,
        pub values: Vec<u8>,
        pub steps: u64,
    }
}

#[derive(Debug, Clone, Copy, Eq, Hash, PartialEq, PartialOrd, Ord)]
pub struct SignalRef(NonZeroU32);

impl SignalRef {
    #[inline]
    pub fn from_index(index: usize) -> Option<Self> {
        NonZeroU32::new(index as u32 + 1).map(Self)
    }
    #[inline]
    pub fn index(&self) -> usize {
        (self.0.get() - 1) as usize
    }
}

pub type TimeTable = Vec<signal::Time>;

#[cfg(not(append))]
#[path = "record.rs"]
mod encoders;
#[cfg(append)]
#[path = "append.rs"]
mod encoders;

/// What the encoder is made from: here the place that the calls go to.
pub use encoders::Hierarchy;

pub mod wavemem {
    pub use crate::encoders::Encoder;

    /// Named by `value.rs` for text values, which signal sections don't have.
    pub fn write_n_state_from_ascii(_: crate::signal::States, _: &[u8], _: impl FnMut(u8), _: Option<u8>) {
        unimplemented!()
    }
}

#[cfg(dropin)]
#[path = "../../rust/wellen/signals.rs"]
pub mod replaced;

#[cfg(not(any(append, dropin)))]
pub mod time;

#[cfg(not(any(append, dropin)))]
#[path = "drive.rs"]
pub mod drive;

#[cfg(dropin)]
#[path = "drive_dropin.rs"]
pub mod drive;

#[cfg(append)]
#[path = "drive_append.rs"]
pub mod drive;

/// The crate's own tables from lists that checks 2 to 5 have passed.
pub fn decode_info(tables: &calls::Tables) -> ghw::common::GhwDecodeInfo {
    use ghw::common::*;
    let reference = |r: u32| SignalRef::from_index(r as usize - 1).unwrap();
    let kind = |k: u8| match k {
        0 => SignalType::NineState,
        1 => SignalType::NineStateVec,
        2 => SignalType::TwoState,
        3 => SignalType::TwoStateVec,
        4 => SignalType::U8,
        5 => SignalType::Leb128Signed,
        _ => SignalType::F64,
    };
    let signals = (0..tables.kinds.len())
        .map(|i| {
            let vector = tables.vecs[i].checked_sub(1).map(|v| v as usize);
            GhwSignalInfo::new(kind(tables.kinds[i]), reference(tables.refs[i]), vector)
        })
        .collect();
    let vectors = (0..tables.mins.len())
        .map(|v| {
            let (min, max) = (GhwSignalId::new(tables.mins[v]), GhwSignalId::new(tables.maxs[v]));
            GhwVecInfo::new(min, max, tables.states[v] == 1, reference(tables.vec_refs[v]))
        })
        .collect();
    (GhwSignals::new(signals), vectors)
}

pub fn header(big_endian: bool) -> ghw::common::HeaderData {
    ghw::common::HeaderData { version: 0, big_endian, word_len: 0, word_offset: 0 }
}
