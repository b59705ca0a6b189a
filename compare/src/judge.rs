//! One case put to the plain reading, to the crate's code (a release build, and one with its debug assertions and overflow
//! checks on) and, where it is linked in, to the port. Every difference that isn't one of the named ones is told.
use crate::cases::{answer_text, outcome_text, Case, Entry};
use crate::circle;
use crate::host::Host;
use crate::plain::{self, Answer, Modes, Outcome, Why};
use crate::requests;
use crate::written;
use calls::{End, Run, What};

/// The intended differences, by name: what document 01 refuses and the release build of the crate doesn't, or not so.
pub const NAMED: [(&str, &str); 10] = [
    ("value above 1, kind 2", "14; the crate reports the byte as it is"),
    ("value above 1, kind 3", "14; the crate shifts the byte into its neighbours"),
    ("nine-state byte above 8", "14; the crate panics: index out of bounds"),
    ("time wraps", "15; the crate goes on with the time modulo 2^64"),
    ("id wraps", "13; the crate goes on with the sum modulo 2^64, and then modulo 2^32"),
    ("id truncates", "13; the crate goes on with the sum modulo 2^32"),
    ("id past n", "13; the crate panics: index out of bounds"),
    ("id 0", "13; the crate panics: no such id"),
    ("value before any time", "18; the crate goes on with time index 2^32-1"),
    ("real before any time", "18; the crate panics"),
];

pub struct Verdict {
    pub number: u64,
    /// A named difference that the case shows.
    pub named: Option<&'static str>,
    pub difference: Option<String>,
}

pub fn plain_outcome(case: &Case) -> Outcome {
    match case.entry {
        Entry::Sections => plain::read_sections_in(&case.tables, case.modes, case.big, &case.input, &case.rooms),
        Entry::Lent => plain::read_sections_lent(&case.tables, case.big, &case.input, &case.rooms),
        Entry::Changes => plain::read_changes(&case.tables, &case.input, &case.rooms),
        Entry::Events => plain::time_rule(&case.input, case.values.len(), case.rooms.events),
        Entry::Written => written::write_sections(&case.tables, case.big, &case.input, case.rooms.events),
        Entry::Back => written::read_back(&case.tables, case.big, &case.input, case.rooms.events),
    }
}

pub fn crate_run(case: &Case, debug: bool) -> Run {
    match (case.entry, debug) {
        (Entry::Sections, false) | (Entry::Lent, false) => wellen_release::drive::sections(&case.tables, case.big, &case.input),
        (Entry::Sections, true) | (Entry::Lent, true) => wellen_debug::drive::sections(&case.tables, case.big, &case.input),
        (Entry::Changes, false) => wellen_release::drive::changes(&case.tables, &case.input),
        (Entry::Changes, true) => wellen_debug::drive::changes(&case.tables, &case.input),
        (Entry::Events, false) => wellen_release::drive::events(&case.input, &case.values),
        (Entry::Events, true) => wellen_debug::drive::events(&case.input, &case.values),
        (Entry::Written | Entry::Back, _) => unreachable!("the crate writes no sections"),
    }
}

/// House records of the crate's first `count` calls, as far as the rooms hold them; the place of the call that doesn't fit.
pub struct Rendered {
    pub events: Vec<u8>,
    pub values: Vec<u8>,
    pub steps: u64,
    pub full: Option<usize>,
}

pub fn render(run: &Run, count: usize, case: &Case) -> Rendered {
    let copied = case.entry == Entry::Events;
    let mut r = Rendered { events: vec![], values: vec![], steps: 0, full: None };
    for call in &run.calls[..count] {
        let mut record = [0u8; 13];
        let mut length = 13;
        let mut value: &[u8] = &[];
        match call.what {
            What::Time(time) => {
                record[0] = 1;
                record[1..9].copy_from_slice(&time.to_be_bytes());
                length = 9;
            }
            What::Value { nine, reference, start, length } => {
                record[0] = if nine { 3 } else { 2 };
                let at = if copied { start } else { r.values.len() };
                record[1..5].copy_from_slice(&reference.to_be_bytes());
                record[5..9].copy_from_slice(&(at as u32).to_be_bytes());
                record[9..].copy_from_slice(&(length as u32).to_be_bytes());
                if !copied {
                    value = &run.values[start..start + length];
                }
            }
            What::Real { reference, bits } => {
                record[0] = 4;
                record[1..5].copy_from_slice(&reference.to_be_bytes());
                record[5..].copy_from_slice(&bits.to_be_bytes());
            }
        }
        if r.events.len() + length > case.rooms.events || r.values.len() + value.len() > case.rooms.values {
            r.full = Some(call.at);
            return r;
        }
        r.events.extend_from_slice(&record[..length]);
        r.values.extend_from_slice(value);
        r.steps += u64::from(length == 9);
    }
    r
}

/// What the crate's run says of the case where it says all: its answer and its bytes.
pub fn crate_answer(run: &Run, case: &Case) -> Result<(Answer, Vec<u8>, Vec<u8>), String> {
    let r = render(run, run.calls.len(), case);
    let refused = |number, place| (Answer { number, place: place as u64, ..Answer::default() }, vec![], vec![]);
    if let Some(place) = r.full {
        return Ok(refused(16, place));
    }
    match &run.end {
        End::Done(read) => {
            let answer = Answer {
                number: 0,
                place: 0,
                read: *read as u64,
                events: r.events.len() as u64,
                values: r.values.len() as u64,
                steps: r.steps,
            };
            Ok((answer, r.events, r.values))
        }
        End::Failed { number, place } => Ok(refused(*number, *place)),
        other => Err(format!("{:?}", other)),
    }
}

/// Is `input[place..at]` one whole LEB128 number?
fn is_number(input: &[u8], place: usize, at: usize) -> bool {
    place < at && at - place <= 10 && input[place..at - 1].iter().all(|b| *b >= 128) && input[at - 1] < 128
}

/// The plain outcome beside one build of the crate: Ok with the name of an intended difference, if the case shows one.
fn beside(case: &Case, plain: &Outcome, run: &Run, debug: bool) -> Result<Option<&'static str>, String> {
    let number = plain.answer.number;
    let place = plain.answer.place as usize;
    let house = matches!(case.entry, Entry::Changes | Entry::Events);
    let whole = matches!(number, 0 | 16) || (!house && (7..=12).contains(&number));
    if whole {
        let (answer, events, values) = crate_answer(run, case)?;
        if answer != plain.answer {
            return Err(answer_text(&answer, &values));
        }
        if events != plain.events || values != plain.values {
            return Err(format!("events {} values {}", crate::cases::hex(&events), crate::cases::hex(&values)));
        }
        return Ok(None);
    }
    // Up to the refusal the crate has made the same calls; a build that goes on has made more.
    if run.calls.len() < plain.made.count {
        return Err(format!("{} calls, {} expected, then {:?}", run.calls.len(), plain.made.count, run.end));
    }
    let made = render(run, plain.made.count, case);
    if made.full.is_some() || made.events != plain.made.events || made.values != plain.made.values {
        return Err(format!("before the refusal: events {} values {}", crate::cases::hex(&made.events), crate::cases::hex(&made.values)));
    }
    let stopped = run.calls.len() == plain.made.count;
    let panics = |number: u64, there: &dyn Fn(usize) -> bool| match &run.end {
        End::Panicked { number: n, at, .. } if *n == number && there(*at) && stopped => Ok(()),
        other => Err(format!("no panic for {}: {:?}", number, other)),
    };
    let name = match (case.entry, number, plain.why) {
        (Entry::Changes, 7 | 17 | 18 | 19, _) | (Entry::Events, 7 | 17 | 20, _) => match run.end {
            End::NotAsked { at } if at == place && stopped => return Ok(None),
            _ => return Err(format!("{:?}", run.end)),
        },
        (Entry::Changes, 13, Why::Id(id)) => {
            panics(13, &|at| at == place)?;
            if id == 0 {
                "id 0"
            } else {
                "id past n"
            }
        }
        (_, 13, Why::Id(sum)) => {
            let n = case.tables.kinds.len() as u128;
            let wrapped = sum % (1 << 64);
            let id = wrapped % (1 << 32);
            if sum >= 1 << 64 && debug {
                panics(13, &|at| is_number(&case.input, place, at))?;
            } else if wrapped == 0 {
                if !matches!(run.end, End::FirstDelta { .. }) || !stopped {
                    return Err(format!("{:?}", run.end));
                }
            } else if id == 0 || id > n {
                panics(13, &|at| is_number(&case.input, place, at))?;
            }
            if sum >= 1 << 64 {
                "id wraps"
            } else if sum >= 1 << 32 {
                "id truncates"
            } else {
                "id past n"
            }
        }
        (_, 14, Why::Value(kind)) => {
            let there = |at: usize| if house { at + 5 == place } else { at == place + 1 };
            if kind <= 1 || debug {
                panics(14, &there)?;
            }
            match kind {
                2 => "value above 1, kind 2",
                3 => "value above 1, kind 3",
                _ => "nine-state byte above 8",
            }
        }
        (_, 15, _) => {
            if debug {
                panics(15, &|at| is_number(&case.input, place, at))?;
            }
            "time wraps"
        }
        (Entry::Events, 18, Why::Early { real }) => {
            if debug || real {
                panics(18, &|at| at == place)?;
            }
            if real {
                "real before any time"
            } else {
                "value before any time"
            }
        }
        _ => return Err(format!("no such refusal here: {}", outcome_text(plain))),
    };
    Ok(Some(name))
}

pub fn judge(case: &Case, host: &mut Host) -> Verdict {
    let plain = plain_outcome(case);
    let mut verdict = sides(case, &plain, host);
    if verdict.difference.is_none() {
        verdict.difference = circle::laws(case, &plain, host).and_then(|()| requests::laws(case, &plain, host)).err();
    }
    verdict
}

/// The other sides beside the plain outcome.
pub fn sides(case: &Case, plain: &Outcome, host: &mut Host) -> Verdict {
    let number = plain.answer.number;
    let mut verdict = Verdict { number, named: None, difference: None };
    let differs = |who: &str, what: String| Some(format!("plain: {}\n{}: {}", outcome_text(plain), who, what));
    // Of document 02's modes the crate knows nothing; their laws lead back to a case without them.
    if !case.entry.circle() && case.modes == Modes::default() && (number == 0 || number >= 7) {
        for (debug, who) in [(false, "the crate"), (true, "the crate, checks on")] {
            match beside(case, plain, &crate_run(case, debug), debug) {
                Ok(named) => verdict.named = named,
                Err(what) => {
                    verdict.difference = differs(who, what);
                    return verdict;
                }
            }
        }
    }
    if let Some(answered) = host.call(case) {
        verdict.difference = match answered {
            Err(what) => differs("the port", what),
            Ok(a) if a.answer != plain.answer => differs("the port", format!("{:?}", a.answer)),
            Ok(a) if a.events != plain.events || a.values != plain.values => {
                differs("the port", format!("events {} values {}", crate::cases::hex(&a.events), crate::cases::hex(&a.values)))
            }
            Ok(_) => None,
        };
    }
    verdict
}

/// The tables without one id: its vector is one narrower, or gone.
fn without_id(case: &Case, id: u32) -> Case {
    let mut c = case.clone();
    let t = &mut c.tables;
    let i = id as usize - 1;
    t.kinds.remove(i);
    t.refs.remove(i);
    t.vecs.remove(i);
    let mut v = 0;
    while v < t.mins.len() {
        if t.mins[v] == id && t.maxs[v] == id {
            t.mins.remove(v);
            t.maxs.remove(v);
            t.states.remove(v);
            t.vec_refs.remove(v);
            t.vecs.iter_mut().for_each(|n| *n -= u32::from(*n as usize > v + 1));
            continue;
        }
        t.mins[v] -= u32::from(t.mins[v] > id);
        t.maxs[v] -= u32::from(t.maxs[v] >= id);
        v += 1;
    }
    c
}

/// A smaller case that still differs, as far as dropping bytes, ids and room goes.
pub fn shrink(case: &Case, host: &mut Host) -> Case {
    let mut best = case.clone();
    let mut tries = 200_000;
    let mut better = |candidate: Case, best: &mut Case| {
        tries -= 1;
        if tries > 0 && judge(&candidate, host).difference.is_some() {
            *best = candidate;
            return true;
        }
        false
    };
    loop {
        let mut moved = false;
        let mut size = best.input.len();
        while size > 0 {
            let mut at = 0;
            // Every part of a short input, overlapping parts of a long one.
            let short = best.input.len() <= 200;
            while at + size <= best.input.len() {
                let mut c = best.clone();
                c.input.drain(at..at + size);
                if better(c, &mut best) {
                    moved = true;
                } else {
                    at += if short { 1 } else { 1.max(size / 2) };
                }
            }
            size = if short { size - 1 } else { size / 2 };
        }
        for at in 0..best.input.len() {
            if best.input[at] != 0 {
                let mut c = best.clone();
                c.input[at] = 0;
                moved |= better(c, &mut best);
            }
        }
        let even = best.tables.kinds.len() == best.tables.refs.len() && best.tables.kinds.len() == best.tables.vecs.len();
        let mut id = best.tables.kinds.len() as u32;
        while even && id > 0 {
            let c = without_id(&best, id);
            moved |= better(c, &mut best);
            id -= 1;
        }
        // A snapshot has a value for each id: drop both.
        let mut id = best.tables.kinds.len() as u32;
        while even && id > 0 && best.input.len() < 200 {
            for at in 0..best.input.len() {
                let mut c = without_id(&best, id);
                c.input.remove(at);
                if better(c, &mut best) {
                    moved = true;
                    break;
                }
            }
            id -= 1;
        }
        while !best.values.is_empty() {
            let mut c = best.clone();
            c.values.pop();
            if !better(c, &mut best) {
                break;
            }
            moved = true;
        }
        let (room, list) = if even { plain::needs(&best.tables) } else { (0, 0) };
        for rooms in [
            plain::Rooms { events: best.input.len() * 40, values: best.input.len() * 40, room, list, flat: 4 * list },
            plain::Rooms { room, list, flat: 4 * list, ..best.rooms },
        ] {
            if rooms != best.rooms {
                let mut c = best.clone();
                c.rooms = rooms;
                better(c, &mut best);
            }
        }
        if !moved {
            return best;
        }
    }
}
