//! One call of an entry with everything that it is lent, and its form as text: lines of a word and what follows it.
//! Numbers stand in lists, `v*k` repeats; bytes stand in hex, `hh*k` repeats a byte.
use crate::plain::{Answer, Modes, Outcome, Rooms, Tables};
use std::fmt::Write;

#[derive(Clone, Copy, Debug, PartialEq, Eq, Hash, PartialOrd, Ord)]
pub enum Entry {
    Sections,
    Changes,
    Events,
    Lent,
    Written,
    Back,
}

impl Entry {
    pub const ALL: [Entry; 6] = [Entry::Sections, Entry::Changes, Entry::Events, Entry::Lent, Entry::Written, Entry::Back];
    pub fn name(self) -> &'static str {
        match self {
            Entry::Sections => "sections",
            Entry::Changes => "changes",
            Entry::Events => "events",
            Entry::Lent => "lent",
            Entry::Written => "written",
            Entry::Back => "back",
        }
    }

    /// Sections written and read back have one output, the room for events, and the crate has no counterpart of them.
    pub fn circle(self) -> bool {
        matches!(self, Entry::Written | Entry::Back)
    }
}

pub const AMPLE: Rooms = Rooms { events: 1 << 24, values: 1 << 24, room: 1 << 20, list: 1 << 15, flat: 1 << 17 };

#[derive(Clone, Debug)]
pub struct Case {
    pub entry: Entry,
    pub tables: Tables,
    pub big: bool,
    pub input: Vec<u8>,
    /// The time rule's value buffer; empty for the other entries.
    pub values: Vec<u8>,
    pub rooms: Rooms,
    /// Document 02's manners of reading.
    pub modes: Modes,
}

impl Case {
    pub fn new(entry: Entry, tables: &Tables, input: Vec<u8>) -> Case {
        Case { entry, tables: tables.clone(), big: false, input, values: vec![], rooms: AMPLE, modes: Modes::default() }
    }

    pub fn text(&self) -> String {
        let mut out = format!("entry {}\nflag {}\n", self.entry.name(), u8::from(self.big));
        let t = &self.tables;
        let small = |l: &[u8]| l.iter().map(|x| u64::from(*x)).collect::<Vec<_>>();
        let wide = |l: &[u32]| l.iter().map(|x| u64::from(*x)).collect::<Vec<_>>();
        let lists = [
            ("kinds", small(&t.kinds)),
            ("refs", wide(&t.refs)),
            ("vecs", wide(&t.vecs)),
            ("mins", wide(&t.mins)),
            ("maxs", wide(&t.maxs)),
            ("states", small(&t.states)),
            ("vecrefs", wide(&t.vec_refs)),
        ];
        for (name, list) in lists {
            if !list.is_empty() {
                writeln!(out, "{}{}", name, runs(&list, |x| x.to_string())).unwrap();
            }
        }
        for (name, bytes) in [("input", &self.input), ("values", &self.values)] {
            if !bytes.is_empty() {
                writeln!(out, "{} {}", name, hex(bytes)).unwrap();
            }
        }
        let mut modes = self.modes;
        let on: String = by_name(&mut modes).iter().filter(|(_, on)| **on).map(|(name, _)| format!(" {}", name)).collect();
        if !on.is_empty() {
            writeln!(out, "modes{}", on).unwrap();
        }
        let r = &self.rooms;
        writeln!(out, "rooms {} {} {} {} {}", r.events, r.values, r.room, r.list, r.flat).unwrap();
        out
    }
}

/// Document 02's modes by their names.
fn by_name(modes: &mut Modes) -> [(&'static str, &mut bool); 1] {
    [("reals_by_flag", &mut modes.reals_by_flag)]
}

/// Long runs of one number as `v*k`.
fn runs(list: &[u64], show: impl Fn(u64) -> String) -> String {
    let mut out = String::new();
    let mut i = 0;
    while i < list.len() {
        let same = list[i..].iter().take_while(|x| **x == list[i]).count();
        if same > 3 {
            write!(out, " {}*{}", show(list[i]), same).unwrap();
            i += same;
        } else {
            write!(out, " {}", show(list[i])).unwrap();
            i += 1;
        }
    }
    out
}

pub fn hex(bytes: &[u8]) -> String {
    bytes.iter().map(|b| format!("{:02x}", b)).collect()
}

fn bytes_of(words: &[&str]) -> Result<Vec<u8>, String> {
    let mut out = vec![];
    for word in words {
        let (digits, times) = times_of(word)?;
        if digits.len() % 2 != 0 {
            return Err(format!("odd hex: {}", word));
        }
        let mut bytes = vec![];
        for i in (0..digits.len()).step_by(2) {
            bytes.push(u8::from_str_radix(&digits[i..i + 2], 16).map_err(|e| e.to_string())?);
        }
        for _ in 0..times {
            out.extend_from_slice(&bytes);
        }
    }
    Ok(out)
}

fn times_of(word: &str) -> Result<(&str, usize), String> {
    match word.split_once('*') {
        Some((what, times)) => Ok((what, times.parse().map_err(|_| format!("bad count: {}", word))?)),
        None => Ok((word, 1)),
    }
}

fn list_of<T: std::str::FromStr + Clone>(words: &[&str]) -> Result<Vec<T>, String> {
    let mut out = vec![];
    for word in words {
        let (what, times) = times_of(word)?;
        let x: T = what.parse().map_err(|_| format!("bad number: {}", word))?;
        out.extend(std::iter::repeat(x).take(times));
    }
    Ok(out)
}

/// A case of a text file: what it is called, and the answer it must have, if it says.
pub struct Named {
    pub name: String,
    pub case: Case,
    /// The listing program's input, in place of an entry's case.
    pub listing: bool,
    pub want: Option<String>,
}

/// Cases separated by empty lines; `#` begins the name of the next one.
pub fn parse(text: &str) -> Result<Vec<Named>, String> {
    let mut out: Vec<Named> = vec![];
    let mut name = String::new();
    let mut fresh = true;
    for line in text.lines() {
        let words: Vec<&str> = line.split_whitespace().collect();
        let (word, rest) = match words.split_first() {
            None => {
                fresh = true;
                continue;
            }
            Some((word, rest)) => (*word, rest),
        };
        if word == "#" {
            name = rest.join(" ");
            continue;
        }
        if fresh {
            let case = Case::new(Entry::Sections, &Tables::default(), vec![]);
            out.push(Named { name: std::mem::take(&mut name), case, listing: false, want: None });
            fresh = false;
        }
        let named = out.last_mut().unwrap();
        let case = &mut named.case;
        match word {
            "entry" if rest == ["listing"] => named.listing = true,
            "entry" => {
                let found = Entry::ALL.iter().find(|e| rest == [e.name()]);
                case.entry = *found.ok_or(format!("no such entry: {}", line))?;
            }
            "flag" => case.big = rest == ["1"],
            "kinds" => case.tables.kinds = list_of(rest)?,
            "refs" => case.tables.refs = list_of(rest)?,
            "vecs" => case.tables.vecs = list_of(rest)?,
            "mins" => case.tables.mins = list_of(rest)?,
            "maxs" => case.tables.maxs = list_of(rest)?,
            "states" => case.tables.states = list_of(rest)?,
            "vecrefs" => case.tables.vec_refs = list_of(rest)?,
            "input" => case.input = bytes_of(rest)?,
            "values" => case.values = bytes_of(rest)?,
            "rooms" => {
                let r: Vec<usize> = list_of(rest)?;
                let r: [usize; 5] = r.try_into().map_err(|_| format!("five rooms: {}", line))?;
                case.rooms = Rooms { events: r[0], values: r[1], room: r[2], list: r[3], flat: r[4] };
            }
            "modes" => {
                for word in rest {
                    let mut modes = by_name(&mut case.modes);
                    let found = modes.iter_mut().find(|(name, _)| name == word);
                    *found.ok_or(format!("no such mode: {}", line))?.1 = true;
                }
            }
            "want" => named.want = Some(rest.join(" ")),
            _ => return Err(format!("unknown line: {}", line)),
        }
    }
    Ok(out)
}

/// An answer in one line: `N@P`, or what was accepted, with the value bytes in brackets.
pub fn answer_text(answer: &Answer, values: &[u8]) -> String {
    if answer.number != 0 {
        return format!("{}@{}", answer.number, answer.place);
    }
    let brackets = if values.is_empty() { String::new() } else { format!(" ({})", hex(values)) };
    let a = answer;
    format!("0@{} read {} events {} values {} steps {}{}", a.place, a.read, a.events, a.values, a.steps, brackets)
}

pub fn outcome_text(o: &Outcome) -> String {
    answer_text(&o.answer, &o.values)
}
