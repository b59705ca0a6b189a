//! `doorquill fragments`: which session each fragment belongs to.
use crate::as_bits::{as_bits, Line};
use crate::file::{some, thousands, File};
use crate::json::Object;
use crate::names::with_events;
use crate::options::Options;
use crate::refused;
use crate::stop::Stop;
use crate::times;
use crate::values::Shown;
use crate::work::Work;
use doorquill::ghw::{Signal, Trace, Values};
use doorquill::{Counted, Event, Reading, Refusal};
use std::io::Write;

pub fn run(options: &Options, work: &mut Work, out: &mut dyn Write, err: &mut dyn Write) -> Result<(), Stop> {
    let file = File::load(&options.file)?;
    let trace = file.open(work)?;
    let lines = Lines::find(&file, &trace, options)?;
    let (reading, _) = file.read(&trace, options, work, err)?;
    let kept = work.part("time rule", &file.name, || reading.time_rule());
    let mut kept = kept.map_err(|refusal| Stop::Refused(format!("{}: the time rule: {refusal}", file.name)))?;
    drop(reading);
    if lines.nine {
        let turned = work.part("as bits", &file.name, || as_bits(&kept, &lines.all()));
        kept = turned.map_err(|why| Stop::Refused(format!("{}: {why}", file.name)))?;
    }
    let [session, strobe, close] = lines.references;
    let counted = work.part("bench", &file.name, || kept.fragments(session, strobe, close));
    let counted = counted.map_err(|refusal| Stop::Refused(benched(&file, &kept, &lines, refusal)))?;
    let balance = Balance::of(&counted);
    match (options.at, options.json) {
        (Some(at), json) => answer(&counted, at, json, &lines, out),
        (None, true) => objects(&counted, &balance, &lines, out),
        (None, false) => texts(&counted, &balance, &lines, out),
    }
}

/// The three lines that the bench goes by.
struct Lines {
    references: [u32; 3],
    shown: [Shown; 3],
    /// Whether one of them is nine-state, and `--as-bits` was said.
    nine: bool,
}

const ROLES: [&str; 3] = ["session", "strobe", "close line"];

impl Lines {
    fn find(file: &File, trace: &Trace, options: &Options) -> Result<Lines, Stop> {
        let refuse = |why: String| Stop::Refused(format!("{}: {why}", file.name));
        let mut found = vec![];
        for path in [&options.session, &options.strobe, &options.close] {
            found.push(with_events(&file.name, trace, path)?);
        }
        for (role, signal) in ROLES.iter().zip(&found) {
            suits(role, *signal, options.as_bits).map_err(refuse)?;
        }
        let reference = |place: usize| found[place].reference().unwrap_or(0);
        let references = [reference(0), reference(1), reference(2)];
        for (one, other) in [(0, 1), (0, 2), (1, 2)] {
            if references[one] == references[other] {
                let (a, b) = (ROLES[one], ROLES[other]);
                return Err(refuse(format!(
                    "the {a} and the {b} are one signal, {}: they must be three",
                    found[one].path()
                )));
            }
        }
        let nine = found.iter().any(|signal| signal.values() == Values::NineState);
        Ok(Lines { references, shown: [0, 1, 2].map(|place| Shown::new(found[place])), nine })
    }

    fn all(&self) -> Vec<Line<'_>> {
        self.references.iter().zip(&self.shown).map(|(&reference, shown)| Line { reference, shown }).collect()
    }

    fn session(&self, value: u32) -> String {
        self.shown[0].session(value)
    }
}

/// Whether a signal can be what it is asked to be; why not.
fn suits(role: &str, signal: Signal, as_bits: bool) -> Result<(), String> {
    let (path, name, width) = (signal.path(), signal.type_name(), signal.width());
    let cannot = |why: &str| Err(format!("{path} cannot be the {role}: {why}"));
    let boolean = signal.literals() == ["false", "true"];
    match signal.values() {
        Values::Integer | Values::Physical => {
            return cannot(&format!("{name} has values of 64 bits, and a session has at most 32, the others one"))
        }
        Values::Real => return cannot(&format!("{name} is no whole number")),
        Values::Enumeration if role != "session" && !boolean => {
            return cannot(&format!("{name} has other values than 0 and 1"))
        }
        Values::NineState if !as_bits => {
            return cannot(&format!("{name} has nine states and the bench takes two; --as-bits turns it into bits"))
        }
        _ => {}
    }
    if role != "session" && width != 1 {
        return cannot(&format!("it has {width} bits, and must have one"));
    }
    if width > 32 {
        return cannot(&format!("it has {width} bits, and may have 32"));
    }
    Ok(())
}

/// The bench's refusal, with the time and the session that it speaks of.
fn benched(file: &File, kept: &Reading, lines: &Lines, refusal: Refusal) -> String {
    let head = refused::head(&file.name, refusal.number);
    let (mut place, mut time, mut session) = (0, 0, String::new());
    for event in kept.events() {
        if place >= refusal.place {
            break;
        }
        match event {
            Event::Time(now) => time = now,
            Event::Value { reference, .. } if reference == lines.references[0] => session = lines.shown[0].text(&event),
            _ => {}
        }
        place += if let Event::Time(_) = event { 9 } else { 13 };
    }
    let session = if session.is_empty() { "0".into() } else { session };
    match refusal.number {
        21 => format!(
            "{head}\n  at {}: session {session} has a fragment, and 32 other sessions are not closed\n  \
             is {} the close line, and is it 1 while the session to be closed is shown?",
            times::text(time),
            lines.shown[2].path
        ),
        _ => format!("{head}\n  at {}", times::text(time)),
    }
}

/// The account of all rises.
struct Balance {
    rises: u64,
    handed_out: u64,
    held: u64,
}

impl Balance {
    fn of(counted: &[Counted]) -> Balance {
        let mut balance = Balance { rises: 0, handed_out: 0, held: 0 };
        for record in counted {
            match *record {
                Counted::Fragment { .. } => balance.rises += 1,
                Counted::Closed { count, .. } => balance.handed_out += count,
                Counted::Held { count, .. } => balance.held += count,
            }
        }
        balance
    }

    fn text(&self) -> String {
        let (rises, out, held) = (thousands(self.rises), thousands(self.handed_out), thousands(self.held));
        format!("{rises} rises = {out} handed out + {held} still held")
    }
}

const OUTSIDE: &str = "as bits: std_logic lines were turned into bits by the host; this step is outside the proof";

fn texts(counted: &[Counted], balance: &Balance, lines: &Lines, out: &mut dyn Write) -> Result<(), Stop> {
    if lines.nine {
        writeln!(out, "{OUTSIDE}")?;
    }
    for record in counted {
        match *record {
            Counted::Fragment { time, session } => {
                writeln!(out, "fragment {:>12}  session {}", times::text(time), lines.session(session))?
            }
            Counted::Closed { time, session, count } => {
                let (time, count) = (times::text(time), some(count, "fragment"));
                writeln!(out, "closed   {time:>12}  session {}  {count} handed out", lines.session(session))?
            }
            Counted::Held { session, count } => {
                let end = "at the end";
                writeln!(out, "held     {end:>12}  session {}  {}", lines.session(session), some(count, "fragment"))?
            }
        }
    }
    writeln!(out, "{}", balance.text())?;
    Ok(())
}

fn objects(counted: &[Counted], balance: &Balance, lines: &Lines, out: &mut dyn Write) -> Result<(), Stop> {
    let object = |what: &str| Object::new().text("what", what);
    if lines.nine {
        writeln!(out, "{}", object("note").text("note", OUTSIDE).line())?;
    }
    for record in counted {
        let line = match *record {
            Counted::Fragment { time, session } => object("fragment")
                .plain("time_fs", time)
                .plain("session", session)
                .text("shown", &lines.session(session)),
            Counted::Closed { time, session, count } => object("closed")
                .plain("time_fs", time)
                .plain("session", session)
                .text("shown", &lines.session(session))
                .plain("count", count),
            Counted::Held { session, count } => {
                object("held").plain("session", session).text("shown", &lines.session(session)).plain("count", count)
            }
        };
        writeln!(out, "{}", line.line())?;
    }
    let Balance { rises, handed_out, held } = *balance;
    let line = object("balance").plain("rises", rises).plain("handed_out", handed_out).plain("held", held);
    writeln!(out, "{}", line.line())?;
    Ok(())
}

/// The answer to `--at`.
fn answer(counted: &[Counted], at: u64, json: bool, lines: &Lines, out: &mut dyn Write) -> Result<(), Stop> {
    let fragments = counted.iter().filter_map(|record| match *record {
        Counted::Fragment { time, session } => Some((time, session)),
        _ => None,
    });
    // times rise: there is at most one at a time
    let (mut before, mut here, mut after) = (None, None, None);
    for (time, session) in fragments {
        match time.cmp(&at) {
            std::cmp::Ordering::Less => before = Some((time, session)),
            std::cmp::Ordering::Equal => here = Some((time, session)),
            std::cmp::Ordering::Greater => after = after.or(Some((time, session))),
        }
    }
    if json {
        let mut line = Object::new().text("what", "at").plain("time_fs", at);
        for (name, found) in [("fragment", here), ("before", before), ("after", after)] {
            let object = found.map(|(time, session)| {
                let shown = lines.session(session);
                Object::new().plain("time_fs", time).plain("session", session).text("shown", &shown).line()
            });
            line = line.maybe(name, object);
        }
        let line = line.plain("as_bits", lines.nine);
        writeln!(out, "{}", line.line())?;
        return Ok(());
    }
    if lines.nine {
        writeln!(out, "{OUTSIDE}")?;
    }
    let one = |(time, session): (u64, u32)| format!("{}, of session {}", times::text(time), lines.session(session));
    let at = times::text(at);
    match (here, before, after) {
        (Some((_, session)), ..) => {
            writeln!(out, "The fragment at {at} belongs to session {}.", lines.session(session))?
        }
        (None, Some(b), Some(a)) => writeln!(
            out,
            "There is no fragment at {at}: the last before it is at {}, the next after it at {}.",
            one(b),
            one(a)
        )?,
        (None, Some(b), None) => writeln!(
            out,
            "There is no fragment at {at}: the last before it is at {}, and none comes after it.",
            one(b)
        )?,
        (None, None, Some(a)) => {
            writeln!(out, "There is no fragment at {at}: none came before it, and the next after it is at {}.", one(a))?
        }
        (None, None, None) => {
            writeln!(out, "There is no fragment at {at}, nor at any other time: the strobe never rises.")?
        }
    }
    Ok(())
}
