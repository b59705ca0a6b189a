//! The readings, on inputs whose events are known.
mod common;
use common::*;
use doorquill::*;

fn refused<T: std::fmt::Debug>(answer: Result<T, Refusal>) -> (u8, u64) {
    let refusal = answer.expect_err("a refusal");
    (refusal.number, refusal.place)
}

#[test]
fn change_records_are_read_written_and_read_back() {
    let mut tables = Tables::new();
    let byte = tables.signal(Kind::U8, 1);
    let number = tables.signal(Kind::Leb128Signed, 2);
    let real = tables.signal(Kind::F64, 3);
    let bus = tables.vector(States::Nine, 3, 4);
    let minus = -5i64 as u64;
    let changes = [
        time(7),
        write(byte, 200),
        wide(number, minus),
        wide(real, 1.5f64.to_bits()),
        write(bus.min, 3),
        write(bus.max, 2),
        STEP_END.to_vec(),
        time(7),
        STEP_END.to_vec(),
        time(1 << 62),
        write(byte, 1),
        STEP_END.to_vec(),
    ]
    .concat();
    let reading = read_changes(&tables, &changes).unwrap();
    let value = |reference, states, bytes| Event::Value { reference, states, bytes };
    let events: Vec<Event> = reading.events().collect();
    let wanted = [
        Event::Time(7),
        value(1, States::Two, &[200]),
        value(2, States::Two, &[255, 255, 255, 255, 255, 255, 255, 251]),
        Event::Real { reference: 3, value: 1.5 },
        // 1 is 3 in the file and 1 here, 0 is 2 and 0; the bit between was never written.
        value(4, States::Nine, &[1, 0]),
        Event::Time(7),
        Event::Time(1 << 62),
        value(1, States::Two, &[1]),
    ];
    assert_eq!(events, wanted);
    assert_eq!((reading.bytes_read(), reading.steps()), (changes.len() as u64, 3));
    for big_endian in [false, true] {
        let sections = write_sections(&tables, big_endian, &changes).unwrap();
        assert!(sections.starts_with(b"CYC\0") && sections.ends_with(&TAILER));
        let again = read_sections(&tables, big_endian, &sections).unwrap();
        assert_eq!(again.records(), reading.records());
        assert_eq!(read_back(&tables, big_endian, &sections).unwrap(), changes);
    }
    // The time rule drops the second 7 and nothing else, and shares the values.
    let kept = reading.time_rule().unwrap();
    assert_eq!(kept.steps(), 2);
    assert!(kept.events().eq(wanted.into_iter().enumerate().filter(|(i, _)| *i != 5).map(|(_, e)| e)));
    assert_eq!(kept.records().1, reading.records().1);
}

#[test]
fn empty_inputs() {
    let none = Tables::new();
    assert_eq!(refused(read_sections(&none, false, &[])), (7, 0));
    assert_eq!(read_changes(&none, &[]).unwrap().events().count(), 0);
    assert_eq!(write_sections(&none, false, &[]).unwrap(), TAILER);
    assert_eq!(read_back(&none, false, &TAILER).unwrap(), []);
    let reading = Reading::default();
    assert_eq!(reading.time_rule().unwrap().steps(), 0);
    assert_eq!(reading.fragments(1, 2, 3).unwrap(), []);
}

/// Written and read back, inputs that take the most room for their length.
#[test]
fn outputs_at_their_longest_fit() {
    let mut tables = Tables::new();
    for id in 1..=300 {
        tables.signal(Kind::Leb128Signed, id);
    }
    // Steps without writes at times far apart: deltas of ten bytes.
    let jump = (1u64 << 63) - 1;
    let changes: Vec<u8> = [0, jump, 2 * jump].iter().flat_map(|&t| [time(t), STEP_END.to_vec()].concat()).collect();
    let sections = write_sections(&tables, false, &changes).unwrap();
    assert_eq!(sections.len(), 12 + 3 + 2 * 10 + 1 + 4 + 12);
    assert_eq!(read_back(&tables, false, &sections).unwrap(), changes);
    // Numbers of ten bytes, each with an id of its own.
    let far = [time(0), wide(300, i64::MIN as u64), STEP_END.to_vec()].concat();
    assert_eq!(read_back(&tables, true, &write_sections(&tables, true, &far).unwrap()).unwrap(), far);
    // Snapshots of numbers of one byte: each becomes a record of thirteen.
    let many = [snapshot(&[0; 300]).repeat(50), TAILER.to_vec()].concat();
    assert_eq!(read_back(&tables, false, &many).unwrap().len(), 50 * (9 + 300 * 13 + 1));
    // .. and where no signal is a number, of six.
    let mut bytes = Tables::new();
    (1..=300).for_each(|id| drop(bytes.signal(Kind::U8, id)));
    assert_eq!(read_back(&bytes, false, &many).unwrap().len(), 50 * (9 + 300 * 6 + 1));
}

#[test]
fn tables_are_judged_by_the_calls_and_cost_no_memory() {
    let read = |t: &Tables| refused(read_sections(t, false, &TAILER));
    let mut none = Tables::new();
    none.vector(States::Two, 0, 1);
    assert_eq!(read(&none), (3, 1));
    let mut wide = Tables::new();
    wide.vector(States::Nine, u32::MAX, 1);
    wide.vector(States::Nine, u32::MAX, 1);
    assert_eq!(read(&wide), (2, 0));
    let mut stray = Tables::new();
    stray.signal(Kind::U8, 1);
    stray.signal(Kind::TwoStateVec, 1);
    assert_eq!(read(&stray), (4, 2));
    let vast =
        |n: usize| Tables::from_lists(vec![], vec![], vec![], vec![1; n], vec![u32::MAX; n], vec![0; n], vec![1; n]);
    assert_eq!(read(&vast(3)), (3, 1));
    assert_eq!(read(&vast(100_000)), (2, 0));
    assert_eq!(read(&Tables::from_lists(vec![7], vec![1], vec![0], vec![], vec![], vec![], vec![])), (4, 1));
}

#[test]
fn the_largest_tables_pass() {
    let mut tables = Tables::new();
    for number in 0..MOST_VECTORS as u32 {
        tables.vector(if number % 2 == 0 { States::Nine } else { States::Two }, 3, number + 1);
    }
    while tables.signals() < MOST_SIGNALS {
        tables.signal(Kind::NineState, 1);
    }
    let sections = [snapshot(&vec![1; MOST_SIGNALS]), TAILER.to_vec()].concat();
    let reading = read_sections(&tables, false, &sections).unwrap();
    assert_eq!(reading.events().count(), 1 + MOST_VECTORS + MOST_SIGNALS - 3 * MOST_VECTORS);
    tables.signal(Kind::NineState, 1);
    assert_eq!(refused(read_sections(&tables, false, &sections)), (2, 0));
}

#[test]
fn too_long_inputs_are_refused() {
    let long = vec![0; MOST_SECTION_BYTES + 1];
    let tables = Tables::new();
    assert_eq!(refused(read_sections(&tables, false, &long)), (1, 0));
    assert_eq!(refused(read_changes(&tables, &long)), (1, 0));
    assert_eq!(refused(write_sections(&tables, false, &long)), (1, 0));
    assert_eq!(refused(read_back(&tables, false, &long)), (1, 0));
    // One byte less is read, and refused for what it holds.
    assert_eq!(refused(read_sections(&tables, false, &long[1..])), (8, 0));
}

#[test]
fn tables_tell_what_they_hold() {
    let mut tables = Tables::new();
    tables.signal(Kind::F64, 9);
    let bus = tables.vector(States::Two, 8, 7);
    assert_eq!((tables.signals(), tables.vectors()), (9, 1));
    assert_eq!(bus, Vector { number: 1, min: 2, max: 9 });
    assert_eq!(tables.vector_at(1), Some(bus));
    assert_eq!((tables.kind(1), tables.reference(1), tables.vector_of(1)), (Some(Kind::F64), Some(9), None));
    assert_eq!((tables.kind(9), tables.reference(9), tables.vector_of(9)), (Some(Kind::TwoStateVec), Some(7), Some(1)));
    assert_eq!((tables.vector_states(1), tables.vector_reference(1)), (Some(States::Two), Some(7)));
    assert_eq!((tables.kind(0), tables.kind(10), tables.vector_at(0), tables.vector_at(2)), (None, None, None, None));
}

/// Records of a host: the iterator stops where the calls would refuse.
#[test]
fn any_records_are_iterated_without_a_panic() {
    let good = [time(1), [&[2][..], &[0, 0, 0, 1, 0, 0, 0, 0, 0, 0, 0, 2]].concat(), time(2)].concat();
    let reading = |events: &[u8]| Reading::from_records(events.to_vec(), vec![1, 2]);
    assert_eq!(reading(&good).events().count(), 3);
    assert_eq!((reading(&good).steps(), reading(&good).bytes_read()), (0, 0));
    for cut in 0..good.len() {
        let whole = [9, 22].iter().filter(|&&end| end <= cut).count();
        assert_eq!(reading(&good[..cut]).events().count(), whole);
    }
    let mut past = good.clone();
    past[21] = 3;
    assert_eq!(reading(&past).events().count(), 1);
    assert_eq!(refused(reading(&past).time_rule()), (20, 9));
    past[14..22].fill(255);
    assert_eq!(reading(&past).events().count(), 1);
    for kind in [0, 5, 255] {
        let mut other = good.clone();
        other[0] = kind;
        assert_eq!(reading(&other).events().count(), 0);
        assert_eq!(refused(reading(&other).fragments(1, 2, 3)), (17, 0));
    }
}

/// Reals are little-endian as wellen reads them, or follow the flag; where the flag is little there is no difference.
#[test]
fn reals_in_both_modes() {
    let mut tables = Tables::new();
    tables.signal(Kind::F64, 1);
    let sections =
        |bits: [u8; 8]| [&b"CYC\0\0\0\0\0\0\0\0\0\x01"[..], &bits, &[0, 0x7f], b"ECY\0", &TAILER].concat();
    let real = |how, bits: [u8; 8]| {
        let reading = read_sections_as(&tables, how, &sections(bits)).unwrap();
        let value = reading.events().find_map(|event| match event {
            Event::Real { value, .. } => Some(value.to_bits()),
            _ => None,
        });
        value.expect("a real")
    };
    let one = 1f64.to_bits();
    let (low_first, high_first) = (one.to_le_bytes(), one.to_be_bytes());
    for big_endian in [false, true] {
        assert_eq!(real(How::wellen(big_endian), low_first), one);
        assert_eq!(real(How::wellen(big_endian), high_first), one.swap_bytes());
    }
    let by_flag = |big_endian| How { big_endian, reals_by_flag: true };
    assert_eq!((real(by_flag(true), high_first), real(by_flag(true), low_first)), (one, one.swap_bytes()));
    assert_eq!((real(by_flag(false), low_first), real(by_flag(false), high_first)), (one, one.swap_bytes()));
}
