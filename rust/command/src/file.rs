//! The file, from its name to a reading.
use crate::options::Options;
use crate::refused;
use crate::stop::Stop;
use crate::times;
use crate::walk::{closed, walk, Walk, Whole};
use crate::work::Work;
use doorquill::ghw::{self, HeaderFault, Trace};
use doorquill::{read_sections_as, How, Reading, MOST_SECTION_BYTES, MOST_SIGNALS, MOST_VECTORS};
use std::ffi::OsStr;
use std::io::{Read, Write};

/// As much of a file as is held: more than the largest that can be read has, header included.
const MOST_HELD: u64 = 64 << 20;

/// A file's bytes, or the first of a long one.
pub struct File {
    /// As it was given.
    pub name: String,
    pub bytes: Vec<u8>,
    /// The length of all of it.
    pub length: u64,
}

impl File {
    /// Reads it.
    pub fn load(name: &OsStr) -> Result<File, Stop> {
        let shown = name.to_string_lossy().into_owned();
        let unreadable = |error: std::io::Error| Stop::Unreadable(format!("{shown} cannot be read: {error}"));
        let file = std::fs::File::open(name).map_err(unreadable)?;
        let length = file.metadata().map_err(unreadable)?.len();
        let mut bytes = vec![];
        file.take(MOST_HELD).read_to_end(&mut bytes).map_err(unreadable)?;
        // a pipe has no length of its own
        let length = if length > MOST_HELD { length } else { bytes.len() as u64 };
        Ok(File { name: shown, bytes, length })
    }

    /// Reads all that stands before the sections.
    pub fn open(&self, work: &mut Work) -> Result<Trace<'_>, Stop> {
        work.part("header", &self.name, || ghw::open(&self.bytes)).map_err(|error| {
            if error.fault == HeaderFault::Ended && self.length > self.bytes.len() as u64 {
                let name = &self.name;
                let held = thousands(MOST_HELD);
                return Stop::Refused(format!(
                    "{name}: refused: its sections do not begin within {held} bytes: far more signals than can be read"
                ));
            }
            Stop::Refused(refused::header(self, &error))
        })
    }

    /// Reads the sections by the proved call; where the options say so, those of a cut file up to its last whole step.
    /// Whether that was done comes with it.
    pub fn read(
        &self,
        trace: &Trace,
        options: &Options,
        work: &mut Work,
        err: &mut dyn Write,
    ) -> Result<(Reading, bool), Stop> {
        self.limits(trace)?;
        let how = How { big_endian: trace.big_endian(), reals_by_flag: !options.wellen_reals };
        if how.big_endian && trace.tables().has_reals() {
            let order =
                if how.reals_by_flag { "big-endian, as its header says" } else { "little-endian, as wellen does" };
            let _ = writeln!(err, "{}: reals are read {order}", self.name);
        }
        let mut read =
            |sections: &[u8]| work.part("reading", &self.name, || read_sections_as(trace.tables(), how, sections));
        let refusal = match read(trace.sections()) {
            Ok(reading) => {
                if options.salvage {
                    let _ = writeln!(err, "{}: the file is whole: there is nothing to salvage", self.name);
                }
                return Ok((reading, false));
            }
            Err(refusal) => refusal,
        };
        if refusal.number != 7 || !options.salvage {
            let mut text = refused::sections(self, trace, refusal);
            if options.salvage {
                text +=
                    "\n  --salvage does not help: it is for files that end too early, and this one is damaged before";
            }
            return Err(Stop::Refused(text));
        }
        let met = walk(trace.tables(), trace.big_endian(), trace.sections(), usize::MAX);
        let whole = match met.whole {
            Some(whole) => whole,
            None => {
                let text = refused::head(&self.name, refusal.number);
                let cut = refused::cut(&met);
                return Err(Stop::Refused(format!("{text}\n  {cut}: no whole step is there, and nothing to salvage")));
            }
        };
        let _ = writeln!(err, "{}", self.salvaged(trace, &met, whole));
        let reading = read(&closed(trace.sections(), whole)).map_err(|refusal| {
            let text = refused::head(&self.name, refusal.number);
            Stop::Refused(format!("{text}\n  at {} of what was salvaged", refusal.place))
        })?;
        Ok((reading, true))
    }

    fn salvaged(&self, trace: &Trace, met: &Walk, whole: Whole) -> String {
        format!(
            "{}: {}\n  salvaged: steps 1 to {}, up to {}; left out: the last {} of the file",
            self.name,
            refused::cut(met),
            thousands(whole.step),
            times::text(whole.time),
            some((trace.sections().len() - whole.end) as u64, "byte"),
        )
    }

    /// Refuses a file that is over a limit, with its own figures.
    fn limits(&self, trace: &Trace) -> Result<(), Stop> {
        let sections = self.length - trace.sections_at() as u64;
        let figures = [
            (1, sections, "section bytes", MOST_SECTION_BYTES),
            (2, trace.ids() as u64, "signals, each bit of a vector counted", MOST_SIGNALS),
            (2, trace.tables().vectors() as u64, "vectors", MOST_VECTORS),
        ];
        let over: Vec<_> = figures.iter().filter(|(_, has, _, most)| *has > *most as u64).collect();
        let number = match over.first() {
            Some((number, ..)) => *number,
            None => return Ok(()),
        };
        let mut text = refused::head(&self.name, number);
        for (_, has, what, most) in over {
            text += &format!("\n  it has {} {what}; {} can be read", thousands(*has), thousands(*most as u64));
        }
        text += &crowded(trace);
        text += "\n  a wave option file makes it smaller (run the simulation with --write-wave-opt=FILE, take out signals, \
                 then --read-wave-opt=FILE), and so does a shorter run (--stop-time=T)";
        Err(Stop::Refused(text))
    }
}

/// The scopes that have the most signals.
fn crowded(trace: &Trace) -> String {
    let mut scopes: Vec<_> = trace.scopes().filter(|scope| scope.ids() > 0).collect();
    scopes.sort_by_key(|scope| std::cmp::Reverse(scope.ids()));
    let most: Vec<String> =
        scopes.iter().take(5).map(|scope| format!("{} ({})", scope.path(), thousands(scope.ids()))).collect();
    match most.is_empty() {
        true => String::new(),
        false => format!("\n  most signals: {}", most.join(", ")),
    }
}

/// So many of something: `1 slice`, `2 aliases`.
pub fn some(count: u64, what: &str) -> String {
    let more = match (count, what.ends_with('s')) {
        (1, _) => "",
        (_, true) => "es",
        (_, false) => "s",
    };
    format!("{} {what}{more}", thousands(count))
}

/// A number with commas.
pub fn thousands(number: u64) -> String {
    let digits = number.to_string();
    let mut out = String::new();
    for (place, digit) in digits.chars().enumerate() {
        if place > 0 && (digits.len() - place) % 3 == 0 {
            out.push(',');
        }
        out.push(digit);
    }
    out
}

#[cfg(test)]
mod tests {
    #[test]
    fn numbers_with_commas() {
        let shown = [(0, "0"), (999, "999"), (1_000, "1,000"), (16_777_215, "16,777,215")];
        for (number, wanted) in shown {
            assert_eq!(super::thousands(number), wanted);
        }
    }
}
