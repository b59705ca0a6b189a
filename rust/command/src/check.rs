//! `doorquill check`: everything is read; what is wrong, or the figures of the file.
use crate::file::{some, thousands, File};
use crate::json::Object;
use crate::options::Options;
use crate::stop::Stop;
use crate::times;
use crate::work::Work;
use doorquill::ghw::{Relation, Trace};
use doorquill::{Event, Reading, States};
use std::io::Write;

pub fn run(options: &Options, work: &mut Work, out: &mut dyn Write, err: &mut dyn Write) -> Result<(), Stop> {
    let file = File::load(&options.file)?;
    let trace = file.open(work)?;
    let (reading, salvaged) = file.read(&trace, options, work, err)?;
    let kept = work.part("time rule", &file.name, || reading.time_rule());
    let kept = kept.map_err(|refusal| Stop::Refused(format!("{}: the time rule: {refusal}", file.name)))?;
    let figures = Figures {
        file: &file,
        trace: &trace,
        salvaged,
        bytes_read: reading.bytes_read(),
        names: Names::of(&trace),
        counts: Counts::of(&reading),
        kept: Counts::of(&kept),
    };
    let text = if options.json { figures.object() } else { figures.text() };
    writeln!(out, "{text}")?;
    Ok(())
}

/// All that is said of a file that is good.
struct Figures<'a> {
    file: &'a File,
    trace: &'a Trace<'a>,
    salvaged: bool,
    bytes_read: u64,
    names: Names,
    counts: Counts,
    kept: Counts,
}

impl Figures<'_> {
    fn text(&self) -> String {
        let Figures { file, trace, names, counts, kept, .. } = self;
        let sections = trace.sections().len() as u64;
        let good = if self.salvaged { "cut; what was salvaged is good" } else { "good" };
        let order = if trace.big_endian() { "big-endian" } else { "little-endian" };
        let before = thousands(trace.sections_at() as u64);
        let mut bytes = format!(
            "{}: {before} before the sections, {} of sections, {order}",
            thousands(file.length),
            thousands(sections)
        );
        if self.bytes_read < sections && !self.salvaged {
            bytes += &format!("; {} behind the tailer, not read", thousands(sections - self.bytes_read));
        }
        let related = [
            format!("{} with events of their own", thousands(names.own)),
            some(names.aliases, "alias"),
            some(names.slices, "slice"),
            some(names.bits, "bit"),
            format!("{} scattered", thousands(names.scattered)),
            format!("{} empty", thousands(names.empty)),
        ];
        let scopes = some(trace.scopes().count() as u64, "scope");
        let events = [
            format!("{} two-state", thousands(counts.two)),
            format!("{} nine-state", thousands(counts.nine)),
            format!("{} real", thousands(counts.reals)),
        ];
        let lines = [
            format!("{}: {good}", file.name),
            format!("  bytes      {bytes}"),
            format!("  names      {} in {scopes}: {}", some(names.all, "signal"), related.join(", ")),
            format!(
                "  tables     {}, {}",
                some(trace.ids() as u64, "id"),
                some(trace.tables().vectors() as u64, "vector")
            ),
            format!("  steps      {}{}", thousands(counts.times), counts.span()),
            format!("  events     {}: {}", thousands(counts.values()), events.join(", ")),
            format!("  time rule  {} and {} kept", some(kept.times, "step"), some(kept.values(), "event")),
        ];
        lines.join("\n")
    }

    fn object(&self) -> String {
        let Figures { file, trace, names, counts, kept, .. } = self;
        Object::new()
            .text("file", &file.name)
            .plain("salvaged", self.salvaged)
            .plain("bytes", file.length)
            .plain("sections_at", trace.sections_at())
            .plain("section_bytes", trace.sections().len())
            .plain("section_bytes_read", self.bytes_read)
            .plain("big_endian", trace.big_endian())
            .plain("scopes", trace.scopes().count())
            .plain("signals", names.all)
            .plain("own", names.own)
            .plain("aliases", names.aliases)
            .plain("slices", names.slices)
            .plain("bits", names.bits)
            .plain("scattered", names.scattered)
            .plain("empty", names.empty)
            .plain("ids", trace.ids())
            .plain("vectors", trace.tables().vectors())
            .plain("steps", counts.times)
            .maybe("first_time_fs", counts.first)
            .maybe("highest_time_fs", counts.highest)
            .plain("two_state_events", counts.two)
            .plain("nine_state_events", counts.nine)
            .plain("real_events", counts.reals)
            .plain("kept_steps", kept.times)
            .plain("kept_events", kept.values())
            .line()
    }
}

/// How the names stand to each other.
#[derive(Default)]
struct Names {
    all: u64,
    own: u64,
    aliases: u64,
    slices: u64,
    bits: u64,
    scattered: u64,
    empty: u64,
}

impl Names {
    fn of(trace: &Trace) -> Names {
        let mut names = Names::default();
        for signal in trace.signals() {
            names.all += 1;
            *match signal.relation() {
                Relation::Own => &mut names.own,
                Relation::Alias(_) => &mut names.aliases,
                Relation::Slice(_) => &mut names.slices,
                Relation::Bit(_) => &mut names.bits,
                Relation::Scattered => &mut names.scattered,
                Relation::Empty => &mut names.empty,
            } += 1;
        }
        names
    }
}

/// Events by their sort, and the first and the highest time.
#[derive(Default)]
struct Counts {
    times: u64,
    two: u64,
    nine: u64,
    reals: u64,
    first: Option<u64>,
    highest: Option<u64>,
}

impl Counts {
    fn of(reading: &Reading) -> Counts {
        let mut counts = Counts::default();
        for event in reading.events() {
            match event {
                Event::Time(time) => {
                    counts.times += 1;
                    counts.first = counts.first.or(Some(time));
                    counts.highest = counts.highest.max(Some(time));
                }
                Event::Value { states: States::Two, .. } => counts.two += 1,
                Event::Value { states: States::Nine, .. } => counts.nine += 1,
                Event::Real { .. } => counts.reals += 1,
            }
        }
        counts
    }

    fn values(&self) -> u64 {
        self.two + self.nine + self.reals
    }

    fn span(&self) -> String {
        match (self.first, self.highest) {
            (Some(first), Some(highest)) => format!(", from {} to {}", times::text(first), times::text(highest)),
            _ => String::new(),
        }
    }
}
