//! The plain reading behind the port's C functions, to try the host before there is an archive, and with a fault of
//! choice (FAKE_FAULT) to see that the host and the comparison find it.
#![allow(clippy::missing_safety_doc, clippy::too_many_arguments, dead_code)]
#[path = "plain.rs"]
mod plain;
#[path = "../../rust/doorquill/src/raw.rs"]
mod raw;
#[path = "written.rs"]
mod written;
use plain::{Outcome, Rooms};
use raw::{Answer, Vector};
use std::slice::{from_raw_parts, from_raw_parts_mut};

fn fault(name: &str) -> bool {
    std::env::var("FAKE_FAULT").map_or(false, |f| f == name)
}

/// Leaves lent memory as promised, but for the fault.
fn leave(o: Outcome, events: &mut [u8], values: &mut [u8], room: &mut [u8], list: &mut [u32]) -> Answer {
    let mut answer = o.answer;
    for (out, bytes) in [(&mut *events, &o.events), (&mut *values, &o.values)] {
        out[..bytes.len()].copy_from_slice(bytes);
        if !fault("tail") {
            out[bytes.len()..].fill(0);
        }
    }
    room.fill(0);
    list.fill(0);
    if fault("work") && !room.is_empty() {
        room[0] = 1;
    }
    if fault("guard") {
        unsafe { *events.as_mut_ptr().add(events.len()) ^= 1 };
    }
    if fault("place") && answer.number == 12 {
        answer.place += 1;
    }
    if fault("steps") && answer.steps > 2 {
        answer.steps -= 1;
    }
    if fault("value") && o.values.len() > 5 {
        values[5] ^= 1;
    }
    if fault("byte") && o.events.len() > 25 {
        events[25] ^= 1;
    }
    answer
}

#[rustfmt::skip]
unsafe fn tables(
    kinds: *const u8, kinds_len: usize, refs: *const u32, refs_len: usize, vecs: *const u32, vecs_len: usize,
    mins: *const u32, mins_len: usize, maxs: *const u32, maxs_len: usize,
    states: *const u8, states_len: usize, vec_refs: *const u32, vec_refs_len: usize,
) -> plain::Tables {
    plain::Tables {
        kinds: from_raw_parts(kinds, kinds_len).to_vec(),
        refs: from_raw_parts(refs, refs_len).to_vec(),
        vecs: from_raw_parts(vecs, vecs_len).to_vec(),
        mins: from_raw_parts(mins, mins_len).to_vec(),
        maxs: from_raw_parts(maxs, maxs_len).to_vec(),
        states: from_raw_parts(states, states_len).to_vec(),
        vec_refs: from_raw_parts(vec_refs, vec_refs_len).to_vec(),
    }
}

#[rustfmt::skip]
#[no_mangle]
pub unsafe extern "C" fn doorquill_read_sections(
    kinds: *const u8, kinds_len: usize, refs: *const u32, refs_len: usize, vecs: *const u32, vecs_len: usize,
    mins: *const u32, mins_len: usize, maxs: *const u32, maxs_len: usize,
    states: *const u8, states_len: usize, vec_refs: *const u32, vec_refs_len: usize,
    big_endian: bool, reals_by_flag: bool, input: *const u8, input_len: usize,
    events: *mut u8, events_len: usize, values: *mut u8, values_len: usize,
    room: *mut u8, room_len: usize, list: *mut u32, list_len: usize,
) -> Answer {
    let t = tables(kinds, kinds_len, refs, refs_len, vecs, vecs_len, mins, mins_len, maxs, maxs_len, states, states_len, vec_refs, vec_refs_len);
    let rooms = Rooms { events: events_len, values: values_len, room: room_len, list: list_len, flat: 0 };
    let modes = plain::Modes { reals_by_flag };
    let o = plain::read_sections_in(&t, modes, big_endian, from_raw_parts(input, input_len), &rooms);
    if fault("input") && input_len > 0 {
        *(input as *mut u8) ^= 1;
    }
    leave(o, from_raw_parts_mut(events, events_len), from_raw_parts_mut(values, values_len), from_raw_parts_mut(room, room_len), from_raw_parts_mut(list, list_len))
}

#[rustfmt::skip]
#[no_mangle]
pub unsafe extern "C" fn doorquill_read_changes(
    kinds: *const u8, kinds_len: usize, refs: *const u32, refs_len: usize, vecs: *const u32, vecs_len: usize,
    mins: *const u32, mins_len: usize, maxs: *const u32, maxs_len: usize,
    states: *const u8, states_len: usize, vec_refs: *const u32, vec_refs_len: usize,
    input: *const u8, input_len: usize,
    events: *mut u8, events_len: usize, values: *mut u8, values_len: usize,
    room: *mut u8, room_len: usize, list: *mut u32, list_len: usize,
) -> Answer {
    let t = tables(kinds, kinds_len, refs, refs_len, vecs, vecs_len, mins, mins_len, maxs, maxs_len, states, states_len, vec_refs, vec_refs_len);
    let rooms = Rooms { events: events_len, values: values_len, room: room_len, list: list_len, flat: 0 };
    let o = plain::read_changes(&t, from_raw_parts(input, input_len), &rooms);
    leave(o, from_raw_parts_mut(events, events_len), from_raw_parts_mut(values, values_len), from_raw_parts_mut(room, room_len), from_raw_parts_mut(list, list_len))
}

#[no_mangle]
pub unsafe extern "C" fn doorquill_time_rule(
    events: *const u8,
    events_len: usize,
    _values: *const u8,
    values_len: usize,
    kept: *mut u8,
    kept_len: usize,
) -> Answer {
    let o = plain::time_rule(from_raw_parts(events, events_len), values_len, kept_len);
    leave(o, from_raw_parts_mut(kept, kept_len), &mut [], &mut [], &mut [])
}

#[rustfmt::skip]
#[no_mangle]
pub unsafe extern "C" fn doorquill_read_sections_lent(
    kinds: *const u8, kinds_len: usize, refs: *const u32, refs_len: usize, vecs: *const u32, vecs_len: usize,
    vectors: *const Vector, vectors_len: usize, flat: *mut u32, flat_len: usize,
    big_endian: bool, input: *const u8, input_len: usize,
    events: *mut u8, events_len: usize, values: *mut u8, values_len: usize,
    room: *mut u8, room_len: usize, list: *mut u32, list_len: usize,
) -> Answer {
    let vectors = from_raw_parts(vectors, vectors_len);
    let t = plain::Tables {
        kinds: from_raw_parts(kinds, kinds_len).to_vec(),
        refs: from_raw_parts(refs, refs_len).to_vec(),
        vecs: from_raw_parts(vecs, vecs_len).to_vec(),
        mins: vectors.iter().map(|v| v.min).collect(),
        maxs: vectors.iter().map(|v| v.max).collect(),
        states: vectors.iter().map(|v| v.state).collect(),
        vec_refs: vectors.iter().map(|v| v.reference).collect(),
    };
    let rooms = Rooms { events: events_len, values: values_len, room: room_len, list: list_len, flat: flat_len };
    let o = plain::read_sections_lent(&t, big_endian, from_raw_parts(input, input_len), &rooms);
    from_raw_parts_mut(flat, flat_len).fill(0);
    leave(o, from_raw_parts_mut(events, events_len), from_raw_parts_mut(values, values_len), from_raw_parts_mut(room, room_len), from_raw_parts_mut(list, list_len))
}

#[rustfmt::skip]
#[no_mangle]
pub unsafe extern "C" fn doorquill_write_sections(
    kinds: *const u8, kinds_len: usize, refs: *const u32, refs_len: usize, vecs: *const u32, vecs_len: usize,
    mins: *const u32, mins_len: usize, maxs: *const u32, maxs_len: usize,
    states: *const u8, states_len: usize, vec_refs: *const u32, vec_refs_len: usize,
    big_endian: bool, changes: *const u8, changes_len: usize, out: *mut u8, out_len: usize,
) -> Answer {
    let t = tables(kinds, kinds_len, refs, refs_len, vecs, vecs_len, mins, mins_len, maxs, maxs_len, states, states_len, vec_refs, vec_refs_len);
    let o = written::write_sections(&t, big_endian, from_raw_parts(changes, changes_len), out_len);
    leave(o, from_raw_parts_mut(out, out_len), &mut [], &mut [], &mut [])
}

#[rustfmt::skip]
#[no_mangle]
pub unsafe extern "C" fn doorquill_read_back(
    kinds: *const u8, kinds_len: usize, refs: *const u32, refs_len: usize, vecs: *const u32, vecs_len: usize,
    mins: *const u32, mins_len: usize, maxs: *const u32, maxs_len: usize,
    states: *const u8, states_len: usize, vec_refs: *const u32, vec_refs_len: usize,
    big_endian: bool, input: *const u8, input_len: usize, out: *mut u8, out_len: usize,
) -> Answer {
    let t = tables(kinds, kinds_len, refs, refs_len, vecs, vecs_len, mins, mins_len, maxs, maxs_len, states, states_len, vec_refs, vec_refs_len);
    let o = written::read_back(&t, big_endian, from_raw_parts(input, input_len), out_len);
    if fault("input") && input_len > 0 {
        *(input as *mut u8) ^= 1;
    }
    leave(o, from_raw_parts_mut(out, out_len), &mut [], &mut [], &mut [])
}
