//! The proved calls as the archives have them: `libdoorquill.a`, `libdoorquill_changes.a` for
//! [`doorquill_read_changes`], `libdoorquill_back.a` for [`doorquill_read_back`] and `libbench.a` for
//! [`doorquill_bench`]; in a release all in one.
//!
//! These are the only declarations of the calls in the repository; `compare/` takes this very file, so that every
//! comparison holds them to the port. A slice is a pointer and a length; an empty one may have any pointer. No call
//! allocates, keeps state or blocks, and a call reads and writes inside the slices that it is lent and nowhere else,
//! whatever they hold.

/// What every call answers: six numbers.
#[repr(C)]
#[derive(Clone, Copy, Debug, Default, PartialEq, Eq)]
pub struct Answer {
    /// 0, or the refusal's number.
    pub number: u64,
    /// A refusal's place; 0 on acceptance. The numbers below are 0 on a refusal.
    pub place: u64,
    /// Bytes of the input that were read.
    pub read: u64,
    /// Bytes written to the call's first output.
    pub events: u64,
    /// Bytes written to `values`.
    pub values: u64,
    /// Time events made, kept or read.
    pub steps: u64,
}

/// A vector's record, as [`doorquill_read_sections_lent`] takes it: on a stride of sixteen bytes, the three after
/// `state` of any content.
#[repr(C)]
#[derive(Clone, Copy, Debug)]
pub struct Vector {
    /// The lowest id.
    pub min: u32,
    /// The highest id.
    pub max: u32,
    /// 0 nine-state, 1 two-state.
    pub state: u8,
    /// The reference of its events.
    pub reference: u32,
}

#[rustfmt::skip]
extern "C" {
    /// Section reading; reals are little-endian, or follow the flag.
    pub fn doorquill_read_sections(
        kinds: *const u8, kinds_len: usize, refs: *const u32, refs_len: usize, vecs: *const u32, vecs_len: usize,
        mins: *const u32, mins_len: usize, maxs: *const u32, maxs_len: usize,
        states: *const u8, states_len: usize, vec_refs: *const u32, vec_refs_len: usize,
        big_endian: bool, reals_by_flag: bool, input: *const u8, input_len: usize,
        events: *mut u8, events_len: usize, values: *mut u8, values_len: usize,
        room: *mut u8, room_len: usize, list: *mut u32, list_len: usize,
    ) -> Answer;

    /// Section reading over vector records; `flat` lends four numbers for each.
    pub fn doorquill_read_sections_lent(
        kinds: *const u8, kinds_len: usize, refs: *const u32, refs_len: usize, vecs: *const u32, vecs_len: usize,
        vectors: *const Vector, vectors_len: usize, flat: *mut u32, flat_len: usize,
        big_endian: bool, input: *const u8, input_len: usize,
        events: *mut u8, events_len: usize, values: *mut u8, values_len: usize,
        room: *mut u8, room_len: usize, list: *mut u32, list_len: usize,
    ) -> Answer;

    /// Change reading.
    pub fn doorquill_read_changes(
        kinds: *const u8, kinds_len: usize, refs: *const u32, refs_len: usize, vecs: *const u32, vecs_len: usize,
        mins: *const u32, mins_len: usize, maxs: *const u32, maxs_len: usize,
        states: *const u8, states_len: usize, vec_refs: *const u32, vec_refs_len: usize,
        input: *const u8, input_len: usize,
        events: *mut u8, events_len: usize, values: *mut u8, values_len: usize,
        room: *mut u8, room_len: usize, list: *mut u32, list_len: usize,
    ) -> Answer;

    /// The time rule over event records and their value bytes.
    pub fn doorquill_time_rule(
        events: *const u8, events_len: usize, values: *const u8, values_len: usize, kept: *mut u8, kept_len: usize,
    ) -> Answer;

    /// Sections written from change records.
    pub fn doorquill_write_sections(
        kinds: *const u8, kinds_len: usize, refs: *const u32, refs_len: usize, vecs: *const u32, vecs_len: usize,
        mins: *const u32, mins_len: usize, maxs: *const u32, maxs_len: usize,
        states: *const u8, states_len: usize, vec_refs: *const u32, vec_refs_len: usize,
        big_endian: bool, changes: *const u8, changes_len: usize, out: *mut u8, out_len: usize,
    ) -> Answer;

    /// Sections read back into change records.
    pub fn doorquill_read_back(
        kinds: *const u8, kinds_len: usize, refs: *const u32, refs_len: usize, vecs: *const u32, vecs_len: usize,
        mins: *const u32, mins_len: usize, maxs: *const u32, maxs_len: usize,
        states: *const u8, states_len: usize, vec_refs: *const u32, vec_refs_len: usize,
        big_endian: bool, input: *const u8, input_len: usize, out: *mut u8, out_len: usize,
    ) -> Answer;

    /// The bench for fragments, over event records and their value bytes.
    pub fn doorquill_bench(
        events: *const u8, events_len: usize, values: *const u8, values_len: usize,
        session: u32, strobe: u32, close: u32, out: *mut u8, out_len: usize,
    ) -> Answer;
}
