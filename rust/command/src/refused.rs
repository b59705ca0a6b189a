//! Refusals as a person reads them: the number and its sentence, the byte, eight bytes around it, and the signal.
use crate::file::{thousands, File};
use crate::times;
use crate::walk::{walk, Walk};
use doorquill::ghw::{HeaderError, Trace, Values};
use doorquill::{refusal, Refusal};

/// The first line: `rbc.ghw: refused (14): a value out of its kind's range`.
pub fn head(name: &str, number: u8) -> String {
    let sentence = refusal::meaning(number).map_or("a number that no call gives", |m| m.sentence);
    format!("{name}: refused ({number}): {sentence}")
}

/// Eight bytes around a place of the file, that byte in brackets.
pub fn around(bytes: &[u8], place: usize) -> String {
    let from = place.saturating_sub(4);
    let mut line = format!("  {from:08x} ");
    for at in from..from + 8 {
        match bytes.get(at) {
            Some(byte) if at == place => line += &format!(" [{byte:02x}]"),
            Some(byte) => line += &format!(" {byte:02x}"),
            None if at == place => line += " [end]",
            None => {}
        }
    }
    line
}

/// A file that is not opened.
pub fn header(file: &File, error: &HeaderError) -> String {
    let place = error.place;
    let found = match file.bytes.get(place) {
        Some(byte) => format!("{byte:02x}"),
        None => "the end".into(),
    };
    format!(
        "{}: refused: {}\n  byte {place} of the file: {found}\n{}",
        file.name,
        error.sentence,
        around(&file.bytes, place)
    )
}

/// A refusal of section reading, of the file as it is.
pub fn sections(file: &File, trace: &Trace, refusal: Refusal) -> String {
    let sections = trace.sections();
    let place = match usize::try_from(refusal.place) {
        Ok(place) if place <= sections.len() && (7..=15).contains(&refusal.number) => place,
        _ => return format!("{}\n  at {}", head(&file.name, refusal.number), refusal.place),
    };
    let at = trace.sections_at() + place;
    let found = match file.bytes.get(at) {
        Some(byte) => format!("{byte:02x}"),
        None => "the end".into(),
    };
    let met = walk(trace.tables(), trace.big_endian(), sections, place);
    let mut text = format!(
        "{}\n  byte {at} of the file, {place} of the sections: {found}{}\n{}",
        head(&file.name, refusal.number),
        signal(trace, refusal.number, &met),
        around(&file.bytes, at)
    );
    if refusal.number == 7 {
        text += &format!("\n  {}", cut(&met));
        text += "\n  a simulation that was killed leaves such a file: --salvage reads it up to its last whole step";
    } else if let Some((step, time)) = met.step {
        text += &format!("\n  in step {}, at {}", thousands(step), times::text(time));
    }
    text
}

/// The signal that a place belongs to, where the tables tell.
fn signal(trace: &Trace, number: u8, met: &Walk) -> String {
    if number == 13 {
        return format!(", a step from id {} to one past the last, {}", met.last_id, trace.ids());
    }
    let id = match met.value_of {
        Some(id) => id,
        None => return format!(", {}", met.part),
    };
    let signal = match trace.signal_of(id) {
        Some(signal) => signal,
        None => return String::new(),
    };
    let bits = signal.width() > 1;
    let name = match bits {
        true => format!("bit {} of {}", signal.ids().last().map_or(0, |last| last - id), signal.path()),
        false => signal.path(),
    };
    let takes = match signal.values() {
        Values::NineState => "0 to 8",
        Values::TwoState => "0 and 1",
        _ => return format!(", for {name}"),
    };
    match (number, bits) {
        (14, false) => format!(", for {name} ({} takes {takes})", signal.type_name()),
        (14, true) => format!(", for {name} (each bit takes {takes})"),
        _ => format!(", for {name}"),
    }
}

/// Where a file ends that ends too early.
pub fn cut(met: &Walk) -> String {
    let part = met.part;
    match (met.step, met.whole) {
        (Some((step, time)), _) => format!("the file ends inside step {}, at {}", thousands(step), times::text(time)),
        (None, Some(whole)) => format!(
            "the file ends inside {part}, behind step {}, at {}",
            thousands(whole.step),
            times::text(whole.time)
        ),
        (None, None) => format!("the file ends inside {part}, before its first step"),
    }
}
