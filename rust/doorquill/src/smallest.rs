//! Every smallest input of the table of refusals, put to the proved call that it names.
use crate::call::{self, Rooms};
use crate::raw::Answer;
use crate::refusal::{Counts, Meaning, MEANINGS};
use crate::{How, Tables};

/// What a smallest input lends; whatever it does not speak of is empty, and rooms are ample.
struct Lent {
    call: String,
    tables: Tables,
    input: Vec<u8>,
    events: Vec<u8>,
    values: Vec<u8>,
    names: [u32; 3],
    out: usize,
    room: usize,
    list: usize,
}

/// `53 4e50 00*12`, spaces anywhere, `*` with a count after the byte that is repeated.
fn bytes(text: &str) -> Vec<u8> {
    let mut all = Vec::new();
    for word in text.split(' ').filter(|&word| word != "none") {
        let (hex, times) = match word.split_once('*') {
            Some((hex, times)) => (hex, times.parse().expect("a count")),
            None => (word, 1),
        };
        let digits: Vec<u8> = hex.chars().map(|c| c.to_digit(16).expect("a hex digit") as u8).collect();
        let part: Vec<u8> = digits.chunks(2).map(|pair| pair[0] << 4 | pair[1]).collect();
        (0..times).for_each(|_| all.extend_from_slice(&part));
    }
    all
}

fn numbers<T: std::str::FromStr>(text: &str) -> Vec<T>
where
    T::Err: std::fmt::Debug,
{
    text.split(' ').map(|word| word.parse().expect("a number")).collect()
}

/// 33 sessions, one fragment each: the first is the 0 that is shown before any event.
fn many_sessions() -> (Vec<u8>, Vec<u8>) {
    let time = |n: u64| [&[1][..], &n.to_be_bytes()].concat();
    let event = |reference: u32, value: u32| {
        [&[2][..], &reference.to_be_bytes(), &value.to_be_bytes(), &1u32.to_be_bytes()].concat()
    };
    let mut events = [time(0), event(2, 1)].concat();
    for session in 1..33 {
        let step = 2 * u64::from(session);
        events.extend([time(step - 1), event(2, 0), time(step), event(2, 1), event(1, session)].concat());
    }
    (events, (0..33).collect())
}

fn lent(m: &Meaning) -> Lent {
    let mut fields = m.smallest.split("; ");
    let call = fields.next().expect("a call").to_string();
    let mut lent = Lent {
        call,
        tables: Tables::new(),
        input: vec![],
        events: vec![],
        values: vec![],
        names: [1, 2, 3],
        out: 4096,
        room: 4096,
        list: 64,
    };
    for field in fields {
        let (name, of) = field.split_once(' ').expect("a name and what it is");
        let t = &mut lent.tables;
        match name {
            "kinds" => t.kinds = numbers(of),
            "refs" => t.refs = numbers(of),
            "vecs" => t.vecs = numbers(of),
            "mins" => t.mins = numbers(of),
            "maxs" => t.maxs = numbers(of),
            "states" => t.states = numbers(of),
            "vec_refs" => t.vec_refs = numbers(of),
            "input" => lent.input = bytes(of),
            "events" => lent.events = bytes(of),
            "values" => lent.values = bytes(of),
            "session" => lent.names[0] = numbers(of)[0],
            "strobe" => lent.names[1] = numbers(of)[0],
            "close" => lent.names[2] = numbers(of)[0],
            "out" => lent.out = numbers(of)[0],
            "room" => lent.room = numbers(of)[0],
            "list" => lent.list = numbers(of)[0],
            "33" => {
                let (events, values) = many_sessions();
                assert!(of.ends_with(&format!("{} event bytes, {} value bytes", events.len(), values.len())));
                (lent.events, lent.values) = (events, values);
            }
            other => panic!("{}: no field {other}", m.number),
        }
    }
    lent
}

fn put(l: &Lent) -> Answer {
    let (mut out, mut values, mut room, mut list) =
        (vec![0xa5; l.out], vec![0xa5; 64], vec![0xa5; l.room], vec![0xa5; l.list]);
    let rooms = Rooms { events: &mut out, values: &mut values, room: &mut room, list: &mut list };
    match &l.call[..] {
        "read_sections" => call::read_sections(&l.tables, How::wellen(false), &l.input, rooms),
        "read_changes" => call::read_changes(&l.tables, &l.input, rooms),
        "write_sections" => call::write_sections(&l.tables, false, &l.input, &mut out),
        "time_rule" => call::time_rule(&l.events, &l.values, &mut out),
        "bench" => call::bench(&l.events, &l.values, l.names[0], l.names[1], l.names[2], &mut out),
        other => panic!("no call {other}"),
    }
}

/// The places that document 01's table gives these inputs.
const PLACES: [(u8, u64); 24] = [
    (1, 0),
    (2, 0),
    (3, 1),
    (4, 1),
    (5, 1),
    (6, 0),
    (7, 0),
    (8, 0),
    (9, 4),
    (10, 12),
    (11, 8),
    (12, 12),
    (13, 12),
    (14, 13),
    (15, 13),
    (16, 9),
    (17, 0),
    (18, 0),
    (19, 9),
    (20, 9),
    (21, 1846),
    (22, 15),
    (23, 10),
    (34, 0),
];

#[test]
fn every_number_is_shown_by_its_smallest_input() {
    assert!(MEANINGS.iter().map(|m| m.number).eq(PLACES.iter().map(|p| p.0)), "the numbers, in order");
    for (m, (number, place)) in MEANINGS.iter().zip(PLACES) {
        let answer = put(&lent(m));
        assert_eq!(answer, Answer { number: number.into(), place, ..Answer::default() }, "{}", m.smallest);
        assert!(m.counts != Counts::Nothing || place == 0);
    }
}

/// One byte less of the input, or one more of the room, and the answer is another.
#[test]
fn smallest_inputs_are_smallest() {
    for m in MEANINGS {
        let mut less = lent(m);
        if m.number == 6 {
            less.room += 1;
        } else if m.number == 16 {
            less.out += 1;
        } else if less.input.pop().is_none() && less.events.pop().is_none() {
            continue;
        }
        assert_ne!(put(&less).number, u64::from(m.number), "{}", m.smallest);
    }
}
