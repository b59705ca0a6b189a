//! `doorquill signals`: what the file has, by name.
use crate::file::{some, File};
use crate::json::Object;
use crate::names::{self, fits};
use crate::options::Options;
use crate::stop::Stop;
use crate::work::Work;
use doorquill::ghw::{Relation, Signal};
use std::io::Write;

/// The widest that a column is made for names that are shorter than others.
const WIDEST: usize = 48;

pub fn run(options: &Options, work: &mut Work, out: &mut dyn Write, err: &mut dyn Write) -> Result<(), Stop> {
    let file = File::load(&options.file)?;
    let trace = file.open(work)?;
    let wanted = |path: &str| options.pattern.as_ref().map_or(true, |pattern| fits(pattern, path));
    let mut columns = (0, 0);
    let mut found = 0;
    for signal in trace.signals() {
        let path = signal.path();
        if wanted(&path) {
            found += 1;
            let width = |text: &str, so_far: usize| so_far.max(text.chars().count().min(WIDEST));
            columns = (width(&path, columns.0), width(&signal.type_name(), columns.1));
        }
    }
    if let (0, Some(pattern)) = (found, &options.pattern) {
        let near = names::nearest(&trace, pattern)
            .map_or("the file has none at all".into(), |near| format!("the nearest is {near}"));
        return Err(Stop::Refused(format!("{}: no signal fits '{pattern}'; {near}", file.name)));
    }
    for signal in trace.signals() {
        let path = signal.path();
        if wanted(&path) {
            let line = if options.json { object(signal, &path) } else { line(signal, &path, columns) };
            writeln!(out, "{line}")?;
        }
    }
    if !options.json {
        let _ = writeln!(err, "{}: {}", file.name, some(found, "signal"));
    }
    Ok(())
}

fn line(signal: Signal, path: &str, (paths, types): (usize, usize)) -> String {
    let width = if signal.has_bits() { some(u64::from(signal.width()), "bit") } else { String::new() };
    let reference = signal.reference().map_or("no reference".into(), |reference| format!("reference {reference}"));
    let start = format!(
        "{path:paths$}  {:7}  {:types$}  {width:>8}  {reference:14}{}",
        signal.direction().word(),
        signal.type_name(),
        note(signal)
    );
    start.trim_end().to_string()
}

fn note(signal: Signal) -> String {
    let bits = match signal.bits() {
        Some((high, low)) if high == low => format!("bit {high}"),
        Some((high, low)) => format!("bits {high} to {low}"),
        None => String::new(),
    };
    match signal.relation() {
        Relation::Own => String::new(),
        Relation::Alias(of) => format!("  alias of {}", of.path()),
        Relation::Slice(of) | Relation::Bit(of) => format!("  {bits} of {}", of.path()),
        Relation::Scattered => "  scattered: its elements follow".into(),
        Relation::Empty => "  empty".into(),
    }
}

fn object(signal: Signal, path: &str) -> String {
    let (relation, of) = match signal.relation() {
        Relation::Own => ("own", None),
        Relation::Alias(of) => ("alias", Some(of)),
        Relation::Slice(of) => ("slice", Some(of)),
        Relation::Bit(of) => ("bit", Some(of)),
        Relation::Scattered => ("scattered", None),
        Relation::Empty => ("empty", None),
    };
    let ids: Vec<String> = signal.ids().iter().map(u32::to_string).collect();
    Object::new()
        .text("path", path)
        .text("direction", signal.direction().word())
        .text("type", &signal.type_name())
        .plain("width", signal.width())
        .maybe("reference", signal.reference())
        .maybe("kind", signal.kind().map(|kind| kind as u8))
        .plain("ids", format!("[{}]", ids.join(",")))
        .text("relation", relation)
        .maybe_text("of", of.map(|of| of.path()).as_deref())
        .maybe("high_bit", signal.bits().map(|(high, _)| high))
        .maybe("low_bit", signal.bits().map(|(_, low)| low))
        .line()
}
