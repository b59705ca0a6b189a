//! The proved calls over slices: the one file with `unsafe` in it.
//!
//! Each function hands slices on as pointers and lengths, and nothing else. That is sound because a call reads and
//! writes inside them only, whatever they hold (demand 1, proved), and keeps no pointer.
#![allow(unsafe_code)]
use crate::raw::{self, Answer};
use crate::{How, Tables};

/// The memory that a reading is lent.
pub(crate) struct Rooms<'a> {
    pub events: &'a mut [u8],
    pub values: &'a mut [u8],
    pub room: &'a mut [u8],
    pub list: &'a mut [u32],
}

#[rustfmt::skip]
pub(crate) fn read_sections(t: &Tables, how: How, input: &[u8], r: Rooms<'_>) -> Answer {
    unsafe {
        raw::doorquill_read_sections(
            t.kinds.as_ptr(), t.kinds.len(), t.refs.as_ptr(), t.refs.len(), t.vecs.as_ptr(), t.vecs.len(),
            t.mins.as_ptr(), t.mins.len(), t.maxs.as_ptr(), t.maxs.len(),
            t.states.as_ptr(), t.states.len(), t.vec_refs.as_ptr(), t.vec_refs.len(),
            how.big_endian, how.reals_by_flag, input.as_ptr(), input.len(),
            r.events.as_mut_ptr(), r.events.len(), r.values.as_mut_ptr(), r.values.len(),
            r.room.as_mut_ptr(), r.room.len(), r.list.as_mut_ptr(), r.list.len(),
        )
    }
}

#[rustfmt::skip]
pub(crate) fn read_changes(t: &Tables, input: &[u8], r: Rooms<'_>) -> Answer {
    unsafe {
        raw::doorquill_read_changes(
            t.kinds.as_ptr(), t.kinds.len(), t.refs.as_ptr(), t.refs.len(), t.vecs.as_ptr(), t.vecs.len(),
            t.mins.as_ptr(), t.mins.len(), t.maxs.as_ptr(), t.maxs.len(),
            t.states.as_ptr(), t.states.len(), t.vec_refs.as_ptr(), t.vec_refs.len(),
            input.as_ptr(), input.len(),
            r.events.as_mut_ptr(), r.events.len(), r.values.as_mut_ptr(), r.values.len(),
            r.room.as_mut_ptr(), r.room.len(), r.list.as_mut_ptr(), r.list.len(),
        )
    }
}

#[rustfmt::skip]
pub(crate) fn write_sections(t: &Tables, big_endian: bool, changes: &[u8], out: &mut [u8]) -> Answer {
    unsafe {
        raw::doorquill_write_sections(
            t.kinds.as_ptr(), t.kinds.len(), t.refs.as_ptr(), t.refs.len(), t.vecs.as_ptr(), t.vecs.len(),
            t.mins.as_ptr(), t.mins.len(), t.maxs.as_ptr(), t.maxs.len(),
            t.states.as_ptr(), t.states.len(), t.vec_refs.as_ptr(), t.vec_refs.len(),
            big_endian, changes.as_ptr(), changes.len(), out.as_mut_ptr(), out.len(),
        )
    }
}

#[rustfmt::skip]
pub(crate) fn read_back(t: &Tables, big_endian: bool, input: &[u8], out: &mut [u8]) -> Answer {
    unsafe {
        raw::doorquill_read_back(
            t.kinds.as_ptr(), t.kinds.len(), t.refs.as_ptr(), t.refs.len(), t.vecs.as_ptr(), t.vecs.len(),
            t.mins.as_ptr(), t.mins.len(), t.maxs.as_ptr(), t.maxs.len(),
            t.states.as_ptr(), t.states.len(), t.vec_refs.as_ptr(), t.vec_refs.len(),
            big_endian, input.as_ptr(), input.len(), out.as_mut_ptr(), out.len(),
        )
    }
}

#[rustfmt::skip]
pub(crate) fn time_rule(events: &[u8], values: &[u8], kept: &mut [u8]) -> Answer {
    unsafe {
        raw::doorquill_time_rule(
            events.as_ptr(), events.len(), values.as_ptr(), values.len(), kept.as_mut_ptr(), kept.len(),
        )
    }
}

#[rustfmt::skip]
pub(crate) fn bench(events: &[u8], values: &[u8], session: u32, strobe: u32, close: u32, out: &mut [u8]) -> Answer {
    unsafe {
        raw::doorquill_bench(
            events.as_ptr(), events.len(), values.as_ptr(), values.len(), session, strobe, close, out.as_mut_ptr(), out.len(),
        )
    }
}
