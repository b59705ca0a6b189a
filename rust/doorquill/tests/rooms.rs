//! The crate makes its rooms itself: inputs at which the first rooms are too small, and inputs that fill the largest.
mod common;
use common::*;
use doorquill::*;

/// One bit of a 4096-bit nine-state bus at a time: each step takes five or six bytes and makes 2,048 value bytes.
fn bus(steps: u32) -> (Tables, Vec<u8>) {
    let mut tables = Tables::new();
    tables.vector(States::Nine, 4096, 1);
    let steps: Vec<_> = (0..steps).map(|i| vec![(i * 37 % 4096 + 1, 3)]).collect();
    let sections = [snapshot(&[2; 4096]), cycle(&steps), TAILER.to_vec()].concat();
    (tables, sections)
}

#[test]
fn a_wide_bus_needs_many_times_its_input() {
    let (tables, sections) = bus(20_000);
    let reading = read_sections(&tables, false, &sections).unwrap();
    assert_eq!(reading.steps(), 20_001);
    let (events, values) = reading.records();
    assert_eq!(values.len(), 20_001 * 2048);
    assert!(values.len() > 300 * sections.len(), "no wide bus: {} bytes", sections.len());
    assert_eq!(events.len(), 20_001 * (9 + 13));
    // Every step sets one more bit to 1 until all are: bit 0, which is the last id, lies lowest in the last byte.
    let mut bits = [0u8; 4096];
    let mut shown = reading.events().filter_map(|event| match event {
        Event::Value { reference: 1, states: States::Nine, bytes } => Some(bytes),
        _ => None,
    });
    assert_eq!(shown.next(), Some(&[0; 2048][..]));
    for (i, bytes) in (0..20_000).zip(shown) {
        bits[i * 37 % 4096] = 1;
        assert!(bytes.iter().enumerate().all(|(at, &byte)| byte == bits[2 * at] << 4 | bits[2 * at + 1]), "step {i}");
    }
}

/// The same bus by change records.
#[test]
fn a_wide_bus_by_change_records() {
    let (tables, sections) = bus(5_000);
    let changes = read_back(&tables, false, &sections).unwrap();
    let (by_sections, by_changes) = (read_sections(&tables, false, &sections), read_changes(&tables, &changes));
    assert_eq!(by_sections.unwrap().records(), by_changes.unwrap().records());
}

/// Bytes in many snapshots make 13 event bytes each, twice as many as the first room has for them.
#[test]
fn many_snapshots_take_all_thirteen_event_bytes() {
    let mut tables = Tables::new();
    for reference in 1..=1000 {
        tables.signal(Kind::U8, reference);
    }
    let sections = [snapshot(&[65; 1000]).repeat(100), TAILER.to_vec()].concat();
    let reading = read_sections(&tables, false, &sections).unwrap();
    let (events, values) = reading.records();
    assert_eq!((events.len(), values.len()), (100 * (9 + 1000 * 13), 100 * 1000));
    assert!(events.len() > sections.len() * 25 / 2);
}

/// Numbers of one byte are reported as eight.
#[test]
fn numbers_in_snapshots_take_eight_value_bytes() {
    let mut tables = Tables::new();
    for reference in 1..=60_000 {
        tables.signal(Kind::Leb128Signed, reference);
    }
    let sections = [snapshot(&[0x7f; 60_000]).repeat(3), TAILER.to_vec()].concat();
    let reading = read_sections(&tables, false, &sections).unwrap();
    assert_eq!(reading.records().1, vec![255; 3 * 60_000 * 8]);
}

/// A reading that is refused far behind the first room's end is refused as it would be with all the room in the world.
#[test]
fn a_refusal_behind_the_first_rooms() {
    let (tables, mut sections) = bus(3_000);
    let last = sections.len() - TAILER.len() - 4;
    sections[last] = b'X';
    assert_eq!(read_sections(&tables, false, &sections), Err(Refusal { number: 10, place: last as u64 }));
}

/// The bench's output at its longest: a fragment and a closing at every second step, and 32 sessions held at the end.
#[test]
fn the_bench_at_its_longest() {
    let mut tables = Tables::new();
    let session = tables.vector(States::Two, 8, 1);
    let (strobe, close) = (tables.signal(Kind::TwoState, 2), tables.signal(Kind::TwoState, 3));
    let mut changes = vec![];
    let mut at = 0;
    let mut step = |writes: &[(u32, u8)]| {
        changes.extend(time(at));
        writes.iter().for_each(|&(id, value)| changes.extend(write(id, value)));
        changes.extend(STEP_END);
        at += 1;
    };
    step(&[(strobe, 1), (close, 1)]);
    for _ in 0..500 {
        step(&[(strobe, 0)]);
        step(&[(strobe, 1)]);
    }
    step(&[(close, 0), (strobe, 0)]);
    for number in 0..32u8 {
        let bits: Vec<_> = (0..8).map(|bit| (session.min + bit, number >> (7 - bit) & 1)).collect();
        step(&[&bits[..], &[(strobe, 1)]].concat());
        step(&[(strobe, 0)]);
    }
    let reading = read_changes(&tables, &changes).unwrap().time_rule().unwrap();
    let counted = reading.fragments(1, 2, 3).unwrap();
    assert_eq!(counted.len(), 2 * 501 + 32 + 32);
    assert_eq!(
        counted[..2],
        [Counted::Fragment { time: 0, session: 0 }, Counted::Closed { time: 0, session: 0, count: 1 }]
    );
    assert_eq!(counted[counted.len() - 1], Counted::Held { session: 31, count: 1 });
}
