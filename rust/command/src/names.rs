//! Names that people type: found, or refused with what is there instead.
use crate::stop::Stop;
use doorquill::ghw::{Relation, Signal, Trace};

/// The signal of a path. Letters' case is passed over where only one signal answers then: VHDL does so too.
pub fn find<'t>(file: &str, trace: &'t Trace, path: &str) -> Result<Signal<'t>, Stop> {
    if let Some(signal) = trace.find(path) {
        return Ok(signal);
    }
    let mut same = trace.signals().filter(|signal| signal.path().eq_ignore_ascii_case(path));
    if let (Some(signal), None) = (same.next(), same.next()) {
        return Ok(signal);
    }
    Err(Stop::Refused(format!("{file}: {}", missing(trace, path))))
}

/// The signal of a path, which must have events of its own.
pub fn with_events<'t>(file: &str, trace: &'t Trace, path: &str) -> Result<Signal<'t>, Stop> {
    let signal = find(file, trace, path)?;
    let shown = signal.path();
    let bits = |of: Signal| match signal.bits() {
        Some((high, low)) if high == low => format!("is bit {high} of {}", of.path()),
        Some((high, low)) => format!("is bits {high} to {low} of {}", of.path()),
        None => format!("is a part of {}", of.path()),
    };
    let why = match signal.relation() {
        Relation::Own | Relation::Alias(_) => return Ok(signal),
        Relation::Bit(of) | Relation::Slice(of) => {
            format!("{} and has no events of its own: ask for {}", bits(of), of.path())
        }
        Relation::Scattered => {
            let next = trace.signals().nth(signal.number() + 1);
            let first =
                next.map_or(String::new(), |element| format!(": ask for its elements, {} and so on", element.path()));
            format!("is scattered over signals that are not neighbours, and has no events of its own{first}")
        }
        Relation::Empty => "has no bits, and so no events".into(),
    };
    Err(Stop::Refused(format!("{file}: {shown} {why}")))
}

/// Why a path is none, and what is there instead.
fn missing(trace: &Trace, path: &str) -> String {
    if let Some(scope) = trace.find_scope(path) {
        let inside = scope.path() + ".";
        let first = trace.signals().map(|signal| signal.path()).find(|path| path.starts_with(&inside));
        return match first {
            Some(first) => format!("{path} is a scope and no signal; a signal in it is {first}"),
            None => format!("{path} is a scope and no signal, and has none"),
        };
    }
    let elements = trace.elements(path);
    if let Some(first) = elements.first() {
        let count = elements.len();
        return format!("{path} is made of {count} signals, each by itself; the first is {}", first.path());
    }
    if let Some(vector) = path.rfind('(').and_then(|at| trace.find(&path[..at])).filter(|signal| signal.width() > 1) {
        let vector = vector.path();
        return format!("{vector} is one vector, whose bits have no events of their own: ask for {vector}");
    }
    match nearest(trace, path) {
        Some(near) => format!("there is no signal {path}; the nearest is {near}"),
        None => format!("there is no signal {path}; the file has no signals at all"),
    }
}

/// The path that takes the fewest edits to come to; one that ends with what was typed comes first.
pub fn nearest(trace: &Trace, path: &str) -> Option<String> {
    let typed: Vec<char> = path.to_ascii_lowercase().chars().collect();
    let ending = format!(".{path}").to_ascii_lowercase();
    let mut best: Option<(usize, String)> = None;
    for signal in trace.signals() {
        let found = signal.path();
        let lower = found.to_ascii_lowercase();
        if lower.ends_with(&ending) {
            return Some(found);
        }
        let most = best.as_ref().map_or(usize::MAX, |(edits, _)| *edits);
        let edits = distance(&typed, &lower, most);
        if edits < most {
            best = Some((edits, found));
        }
    }
    best.map(|(_, found)| found)
}

/// The longest names that are compared letter by letter: time goes by the product of two lengths.
const LONGEST: usize = 512;

/// Edits from one text to the other; where `most` or longer names are met, some number that is no smaller.
fn distance(one: &[char], other: &str, most: usize) -> usize {
    let other: Vec<char> = other.chars().take(LONGEST + 1).collect();
    let (shorter, longer) = (one.len().min(other.len()), one.len().max(other.len()));
    if longer - shorter >= most || longer > LONGEST {
        return longer;
    }
    let mut row: Vec<usize> = (0..=other.len()).collect();
    for (i, a) in one.iter().enumerate() {
        let mut diagonal = row[0];
        row[0] = i + 1;
        for (j, b) in other.iter().enumerate() {
            let edits = (diagonal + usize::from(a != b)).min(row[j] + 1).min(row[j + 1] + 1);
            diagonal = std::mem::replace(&mut row[j + 1], edits);
        }
    }
    row[other.len()]
}

/// Whether a pattern fits a path: as a part of it, or, with `*` and `?`, as all of it. Letters' case is passed over.
pub fn fits(pattern: &str, path: &str) -> bool {
    let (pattern, path) = (pattern.to_ascii_lowercase(), path.to_ascii_lowercase());
    if !pattern.contains(|c| c == '*' || c == '?') {
        return path.contains(&pattern);
    }
    let (pattern, path): (Vec<char>, Vec<char>) = (pattern.chars().collect(), path.chars().collect());
    let (mut p, mut at) = (0, 0);
    // the last star, and how far the text had come there: the star takes one letter more after each failure
    let mut star: Option<(usize, usize)> = None;
    while at < path.len() {
        match pattern.get(p) {
            Some('*') => {
                star = Some((p, at));
                p += 1;
            }
            Some(c) if *c == '?' || *c == path[at] => {
                p += 1;
                at += 1;
            }
            _ => match star {
                Some((s, from)) => {
                    star = Some((s, from + 1));
                    p = s + 1;
                    at = from + 1;
                }
                None => return false,
            },
        }
    }
    pattern[p..].iter().all(|c| *c == '*')
}

#[cfg(test)]
mod tests {
    use super::*;

    #[test]
    fn patterns() {
        for (pattern, path, wanted) in [
            ("frag", "rbc.lane(3).s_frag", true),
            ("FRAG", "rbc.lane(3).s_frag", true),
            ("frags", "rbc.lane(3).s_frag", false),
            ("*.s_frag", "rbc.lane(3).s_frag", true),
            ("rbc.*", "rbc.lane(3).s_frag", true),
            ("lane*", "rbc.lane(3).s_frag", false),
            ("rbc.lane(?).s_*g", "rbc.lane(3).s_frag", true),
            ("*a*a*", "banana", true),
            ("*a*a*a*a*", "banana", false),
            ("*", "", true),
            ("?", "", false),
        ] {
            assert_eq!(fits(pattern, path), wanted, "{pattern} {path}");
        }
    }

    #[test]
    fn distances() {
        let edits = |one: &str, other| distance(&one.chars().collect::<Vec<_>>(), other, usize::MAX);
        assert_eq!(edits("kitten", "sitting"), 3);
        assert_eq!(edits("", "abc"), 3);
        assert_eq!(edits("abc", "abc"), 0);
    }
}
