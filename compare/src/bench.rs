//! Times: section reading of the port against the same bytes through the crate's code with an encoder that appends the same
//! events to two vectors, one process, alternating rounds, the ratio of the medians; and of each other call the time for a record.
//!
//! The crate's own tables are made outside its time, its working room inside; its two vectors are emptied first and keep their room.
//! The port is lent rooms that are exactly enough and hold what the round before left: nothing is cleared for it, and
//! checks 1 to 6 and all zeroing are inside its time. Times are the thread's own processor time, so that a busy machine weighs less.
//!
//! Beside each row of section reading stand two limits: input and output copied and nothing read, and a walk that only follows the
//! deltas from value to value, which no reader of these bytes can do without.
use crate::inputs::{Input, SECTIONS};

/// `struct timespec` of 64-bit Linux.
#[repr(C)]
struct Timespec {
    seconds: i64,
    nanoseconds: i64,
}

extern "C" {
    fn clock_gettime(clock: i32, time: *mut Timespec) -> i32;
}

/// The thread's processor time in nanoseconds.
fn clock() -> i64 {
    const THREAD: i32 = 3;
    let mut t = Timespec { seconds: 0, nanoseconds: 0 };
    let answer = unsafe { clock_gettime(THREAD, &mut t) };
    assert_eq!(answer, 0);
    t.seconds * 1_000_000_000 + t.nanoseconds
}

fn median(mut times: Vec<i64>) -> f64 {
    times.sort_unstable();
    times[times.len() / 2] as f64 / 1e6
}

/// The median of as many rounds of something.
fn timed(rounds: usize, mut what: impl FnMut()) -> f64 {
    let time = |_| {
        let started = clock();
        what();
        clock() - started
    };
    median((0..rounds).map(time).collect())
}

/// The crate once: its time, and its two vectors back.
fn crate_round(input: &Input, events: Vec<u8>, values: Vec<u8>) -> (i64, wellen_append::signal::SignalSource) {
    let header = wellen_append::header(input.big);
    let info = wellen_append::decode_info(&input.tables);
    let started = clock();
    let source = wellen_append::drive::read(&header, info, &input.bytes, events, values);
    (clock() - started, source.expect("a good file"))
}

/// A LEB128 number of an accepted input, and the place after it.
fn number(s: &[u8], mut at: usize) -> (u64, usize) {
    let (mut number, mut shift) = (0, 0);
    loop {
        number |= u64::from(s[at] & 127) << shift;
        at += 1;
        if s[at - 1] < 128 {
            return (number, at);
        }
        shift += 7;
    }
}

/// From value to value of an accepted input that has no directory: how many there are.
fn walk(input: &Input) -> u64 {
    let (s, kinds) = (&input.bytes[..], &input.tables.kinds[..]);
    let past = |kind: u8, at: usize| match kind {
        0..=4 => at + 1,
        5 => number(s, at).1,
        _ => at + 8,
    };
    let (mut at, mut values) = (0, 0);
    loop {
        match &s[at..at + 3] {
            b"SNP" => {
                at = kinds.iter().fold(at + 16, |at, kind| past(*kind, at)) + 4;
                values += kinds.len() as u64;
            }
            b"CYC" => {
                at += 12;
                loop {
                    let mut id = 0;
                    loop {
                        let (delta, next) = number(s, at);
                        at = next;
                        if delta == 0 {
                            break;
                        }
                        id += delta as usize;
                        at = past(kinds[id - 1], at);
                        values += 1;
                    }
                    let from = at;
                    at = number(s, at).1;
                    if s[from..at] == [0x7f] {
                        break;
                    }
                }
                at += 4;
            }
            _ => return values,
        }
    }
}

#[cfg(port)]
mod port {
    use crate::host::{self, Out};
    use crate::inputs::{self, Input, Records, SECTIONS};
    use crate::plain::{self, Answer, Modes, Rooms, Tables, MOST_OTHER};

    fn lent(t: &Tables) -> host::Tables<'_> {
        host::Tables {
            kinds: &t.kinds,
            refs: &t.refs,
            vecs: &t.vecs,
            mins: &t.mins,
            maxs: &t.maxs,
            states: &t.states,
            vec_refs: &t.vec_refs,
        }
    }

    /// Lent memory, exactly enough, which holds what the round before left.
    pub struct Port {
        pub events: Vec<u8>,
        pub values: Vec<u8>,
        room: Vec<u8>,
        list: Vec<u32>,
    }

    impl Port {
        pub fn new(tables: &Tables, events: usize, values: usize) -> Self {
            let (room, list) = plain::needs(tables);
            Port { events: vec![0xaa; events], values: vec![0xaa; values], room: vec![0xaa; room], list: vec![7; list] }
        }

        fn out(&mut self) -> Out<'_> {
            Out { events: &mut self.events, values: &mut self.values, room: &mut self.room, list: &mut self.list }
        }

        pub fn round(&mut self, input: &Input) -> (i64, Answer) {
            let (tables, out) = (lent(&input.tables), self.out());
            let started = super::clock();
            let answer = host::read_sections(&tables, input.big, Modes::default(), &input.bytes, out);
            (super::clock() - started, answer)
        }
    }

    /// A call, how many records it takes or makes, and the answer that it must give.
    struct Call {
        name: String,
        records: u64,
        answer: Answer,
        run: Box<dyn FnMut() -> Answer>,
    }

    fn changes(r: Records, answer: Answer) -> Call {
        let mut port = Port::new(&r.tables, answer.events as usize, answer.values as usize);
        Call {
            name: format!("change reading: {}", r.name),
            records: r.count,
            answer,
            run: Box::new(move || host::read_changes(&lent(&r.tables), &r.bytes, port.out())),
        }
    }

    fn changes_of(input: Input) -> Call {
        let r = inputs::records(input);
        let (room, list) = plain::needs(&r.tables);
        let rooms = Rooms { events: MOST_OTHER, values: MOST_OTHER, room, list, flat: 0 };
        let answer = plain::read_changes(&r.tables, &r.bytes, &rooms).answer;
        changes(r, answer)
    }

    /// Each step of it makes a time and one event of the vector.
    fn changes_of_widest(r: Records) -> Call {
        let width = r.tables.kinds.len();
        let steps = r.count / (width as u64 + 2);
        let (events, values) = (steps * (9 + 13), steps * ((width as u64 + 7) / 8));
        let answer = Answer { read: r.bytes.len() as u64, events, values, steps, ..Answer::default() };
        changes(r, answer)
    }

    fn back(input: Input) -> Call {
        let made = crate::written::read_back(&input.tables, input.big, &input.bytes, MOST_OTHER);
        let mut out = vec![0xaa; made.events.len()];
        Call {
            name: format!("reading back: {}", input.name),
            records: input.writes,
            answer: made.answer,
            run: Box::new(move || host::read_back(&lent(&input.tables), input.big, &input.bytes, &mut out)),
        }
    }

    fn write(input: Input) -> Call {
        let r = inputs::records(input);
        let made = crate::written::write_sections(&r.tables, false, &r.bytes, MOST_OTHER);
        let mut out = vec![0xaa; made.events.len()];
        Call {
            name: format!("section writing: {}", r.name),
            records: r.count,
            answer: made.answer,
            run: Box::new(move || host::write_sections(&lent(&r.tables), false, &r.bytes, &mut out)),
        }
    }

    /// The event records and values of a section reading, and how many records there are.
    fn events(input: &Input) -> (Vec<u8>, Vec<u8>, u64) {
        let (room, list) = plain::needs(&input.tables);
        let rooms = Rooms { events: MOST_OTHER, values: MOST_OTHER, room, list, flat: 0 };
        let made = plain::read_sections(&input.tables, input.big, &input.bytes, &rooms);
        (made.events, made.values, made.made.count as u64)
    }

    fn time_rule(input: Input) -> Call {
        let (events, values, records) = events(&input);
        let made = plain::time_rule(&events, values.len(), MOST_OTHER);
        let mut kept = vec![0xaa; made.events.len()];
        Call {
            name: format!("time rule: {}", input.name),
            records,
            answer: made.answer,
            run: Box::new(move || host::time_rule(&events, &values, &mut kept)),
        }
    }

    /// No other side counts fragments: of its answer only that it takes the input, and that it is the same each time.
    #[cfg(dropin)]
    fn bench(input: Input) -> Call {
        let (events, values, records) = events(&input);
        let signals = input.tables.kinds.len() as u32;
        // always enough: crates/room_bounds
        let mut out = vec![0xaa; events.len() + 428];
        let mut run = move || host::bench(&events, &values, [1, signals - 1, signals], &mut out);
        let answer = run();
        assert_eq!(answer.number, 0, "the bench takes its input");
        Call { name: format!("bench: {}", input.name), records, answer, run: Box::new(run) }
    }

    type MakeCall = Box<dyn Fn() -> Call>;

    fn calls() -> Vec<MakeCall> {
        let mut all: Vec<MakeCall> = vec![];
        for make in &SECTIONS[..6] {
            all.push(Box::new(move || changes_of(make())));
        }
        all.push(Box::new(|| changes_of_widest(inputs::falling())));
        all.push(Box::new(|| changes_of_widest(inputs::falling_behind())));
        for make in [SECTIONS[1], SECTIONS[4], SECTIONS[11]] {
            all.push(Box::new(move || back(make())));
            all.push(Box::new(move || write(make())));
            all.push(Box::new(move || time_rule(make())));
        }
        #[cfg(dropin)]
        all.push(Box::new(|| bench(inputs::sessions())));
        all
    }

    /// The other calls of the port, or the one of a row.
    pub fn rows(rounds: usize, row: Option<usize>) -> bool {
        let mut good = true;
        for (i, make) in calls().iter().enumerate() {
            if row.map_or(false, |row| row != SECTIONS.len() + i + 1) {
                continue;
            }
            let mut call = make();
            let mut same = true;
            let ms = super::timed(rounds, || same &= (call.run)() == call.answer);
            println!("{}\n  {:.2} ({:.1} ns a record, {} records)", call.name, ms, ms * 1e6 / call.records as f64, call.records);
            if !same {
                println!("  the port answers otherwise: {:?}, not {:?}", (call.run)(), call.answer);
            }
            good &= same;
        }
        good
    }

    pub fn count() -> usize {
        SECTIONS.len() + calls().len()
    }
}

#[cfg(not(port))]
mod port {
    pub fn rows(_: usize, _: Option<usize>) -> bool {
        true
    }

    pub fn count() -> usize {
        super::SECTIONS.len()
    }
}

/// Section reading of an input by the crate and by the port.
fn reading(input: &Input, rounds: usize) -> bool {
    let (_, first) = crate_round(input, vec![], vec![]);
    let (want_events, want_values) = (first.events.clone(), first.values.clone());
    println!(
        "{}\n  {} signals, {} bytes, {} writes, {} steps; out {} + {} bytes",
        input.name,
        input.tables.kinds.len(),
        input.bytes.len(),
        input.writes,
        first.steps,
        want_events.len(),
        want_values.len()
    );
    let mut good = true;
    let (mut events, mut values) = (first.events, first.values);
    let mut crate_times = vec![];
    #[cfg(port)]
    let (mut port, mut port_times) = (port::Port::new(&input.tables, want_events.len(), want_values.len()), vec![]);
    for _ in 0..rounds {
        let (time, source) = crate_round(input, events, values);
        crate_times.push(time);
        events = source.events;
        values = source.values;
        #[cfg(port)]
        {
            let (time, answer) = port.round(input);
            port_times.push(time);
            if answer.number != 0 || answer.steps != source.steps || port.events != want_events || port.values != want_values {
                println!("  the port's output differs: {:?}", answer);
                good = false;
            }
        }
    }
    good &= events == want_events && values == want_values;
    let per = |ms: f64| format!("{:.2} ({:.1} ns a write)", ms, ms * 1e6 / input.writes as f64);
    let crate_ms = median(crate_times);
    println!("  crate {}", per(crate_ms));
    #[cfg(port)]
    {
        let port_ms = median(port_times);
        println!("  port  {}; the port is {:.2} times as fast", per(port_ms), crate_ms / port_ms);
    }
    let mut copies = [vec![0u8; input.bytes.len()], vec![0; want_events.len()], vec![0; want_values.len()]];
    let copied = timed(rounds, || {
        for (to, from) in copies.iter_mut().zip([&input.bytes, &want_events, &want_values]) {
            to.copy_from_slice(from);
            // Read, so that the compiler can't leave the copy out.
            good &= to.last().map_or(true, |last| Some(unsafe { &std::ptr::read_volatile(last) }) == from.last());
        }
    });
    let walked = timed(rounds, || good &= walk(input) == input.writes);
    println!("  limits: a copy {}; a walk over the deltas {}", per(copied), per(walked));
    good
}

/// All rows, or one, counted from 1.
pub fn bench(rounds: usize, row: Option<usize>) -> bool {
    let rounds = rounds.max(1);
    if row.map_or(false, |row| row == 0 || port::count() < row) {
        println!("there are rows 1 to {}", port::count());
        return false;
    }
    println!("crate and {}: {} rounds each, alternating; medians of processor time in milliseconds", crate::host::Host::NAME, rounds);
    println!("the crate's two vectors are emptied and keep their room; the port's rooms are exactly enough and aren't cleared");
    let mut good = true;
    for (i, make) in SECTIONS.iter().enumerate() {
        if row.map_or(true, |row| row == i + 1) {
            good &= reading(&make(), rounds);
        }
    }
    port::rows(rounds, row) && good
}
