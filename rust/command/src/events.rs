//! `doorquill events`: every value that the signals take.
use crate::file::File;
use crate::json::Object;
use crate::names::with_events;
use crate::options::Options;
use crate::stop::Stop;
use crate::times;
use crate::values::{hex, Shown};
use crate::work::Work;
use doorquill::ghw::{Relation, Trace};
use doorquill::{Event, Reading, States};
use std::io::Write;

pub fn run(options: &Options, work: &mut Work, out: &mut dyn Write, err: &mut dyn Write) -> Result<(), Stop> {
    let file = File::load(&options.file)?;
    let trace = file.open(work)?;
    let shown = shown(&file, &trace, options)?;
    let (reading, _) = file.read(&trace, options, work, err)?;
    if options.raw {
        return raw(&reading, &shown, options, out);
    }
    let kept = work.part("time rule", &file.name, || reading.time_rule());
    let kept = kept.map_err(|refusal| Stop::Refused(format!("{}: the time rule: {refusal}", file.name)))?;
    let mut count = 0;
    let mut time = 0;
    for event in kept.events() {
        if let Event::Time(now) = event {
            time = now;
            continue;
        }
        let reference = reference(&event);
        let signals = if within(time, options) { shown.get(reference) } else { &[] };
        for signal in signals {
            count += 1;
            let value = signal.text(&event);
            if options.json {
                let object = Object::new().plain("time_fs", time).text("signal", &signal.path);
                writeln!(out, "{}", object.plain("reference", reference).text("value", &value).line())?;
            } else {
                writeln!(out, "{:>12}  {}  {value}", times::text(time), signal.path)?;
            }
        }
    }
    if count == 0 {
        let _ = writeln!(err, "{}: no event of what was asked for{}", file.name, window(options));
    }
    Ok(())
}

/// What is to be shown, by reference: a signal may have been asked for under several names.
struct ByReference(Vec<Vec<Shown>>);

impl ByReference {
    fn get(&self, reference: u32) -> &[Shown] {
        self.0.get(reference as usize).map_or(&[], |signals| signals.as_slice())
    }
}

/// The signals that were asked for; without any, all that have events of their own.
fn shown(file: &File, trace: &Trace, options: &Options) -> Result<ByReference, Stop> {
    let mut signals = vec![];
    if options.signals.is_empty() {
        signals.extend(trace.signals().filter(|signal| signal.relation() == Relation::Own));
    }
    for path in &options.signals {
        signals.push(with_events(&file.name, trace, path)?);
    }
    let most = signals.iter().filter_map(|signal| signal.reference()).max().unwrap_or(0);
    let mut by_reference: Vec<Vec<Shown>> = (0..=most).map(|_| vec![]).collect();
    for signal in signals {
        if let Some(reference) = signal.reference() {
            by_reference[reference as usize].push(Shown::new(signal));
        }
    }
    Ok(ByReference(by_reference))
}

fn reference(event: &Event) -> u32 {
    match *event {
        Event::Time(_) => 0,
        Event::Value { reference, .. } | Event::Real { reference, .. } => reference,
    }
}

fn within(time: u64, options: &Options) -> bool {
    options.from.map_or(true, |from| time >= from) && options.to.map_or(true, |to| time <= to)
}

fn window(options: &Options) -> String {
    let from = options.from.map_or(String::new(), |from| format!(" from {}", times::text(from)));
    let to = options.to.map_or(String::new(), |to| format!(" up to {}", times::text(to)));
    from + &to
}

/// The events as the proved reading gives them, in the listing program's form.
fn raw(reading: &Reading, shown: &ByReference, options: &Options, out: &mut dyn Write) -> Result<(), Stop> {
    let mut time = 0;
    for event in reading.events() {
        if let Event::Time(now) = event {
            time = now;
        } else if shown.get(reference(&event)).is_empty() {
            continue;
        }
        if !within(time, options) {
            continue;
        }
        match event {
            Event::Time(now) => writeln!(out, "time {now}")?,
            Event::Value { reference, states: States::Two, bytes } => writeln!(out, "two {reference} {}", hex(bytes))?,
            Event::Value { reference, states: States::Nine, bytes } => {
                writeln!(out, "nine {reference} {}", hex(bytes))?
            }
            Event::Real { reference, value } => writeln!(out, "real {reference} {:016x}", value.to_bits())?,
        }
    }
    writeln!(out, "done {} {}", reading.bytes_read(), reading.steps())?;
    Ok(())
}
