//! A walk through section bytes up to a place: in which step and whose value it is, and where the last whole step
//! ended. It judges nothing and reads no value: the proved call has done that, and refused.
use doorquill::{Kind, Tables};

/// How the section that a step ended in must be closed.
#[derive(Clone, Copy, Debug, PartialEq, Eq)]
pub enum Open {
    Snapshot,
    Cycle,
}

/// The last step that is there as a whole.
#[derive(Clone, Copy, Debug, PartialEq, Eq)]
pub struct Whole {
    /// Its number, from 1.
    pub step: u64,
    pub time: u64,
    /// The byte behind it.
    pub end: usize,
    pub open: Open,
}

/// What was met on the way.
#[derive(Clone, Debug, PartialEq, Eq)]
pub struct Walk {
    /// The step that the place is in, by its number from 1, and its time; none where it is between steps.
    pub step: Option<(u64, u64)>,
    /// The id whose value is at the place.
    pub value_of: Option<u32>,
    /// The id that a delta at the place is added to.
    pub last_id: u64,
    /// What is at the place.
    pub part: &'static str,
    pub whole: Option<Whole>,
    /// Whether the walk came to the tailer's end.
    pub ended: bool,
}

/// Walks to a place, or as far as the bytes can be followed.
pub fn walk(tables: &Tables, big_endian: bool, sections: &[u8], place: usize) -> Walk {
    let mut walker = Walker {
        tables,
        big_endian,
        bytes: sections,
        at: 0,
        place,
        found: Walk { step: None, value_of: None, last_id: 0, part: "a section's mark", whole: None, ended: false },
        steps: 0,
    };
    while walker.section().is_some() {}
    walker.found
}

struct Walker<'a> {
    tables: &'a Tables,
    big_endian: bool,
    bytes: &'a [u8],
    at: usize,
    place: usize,
    found: Walk,
    steps: u64,
}

/// Each step of the way gives nothing where the walk ends: at the place, or where bytes cannot be followed.
impl Walker<'_> {
    fn take(&mut self, count: usize, part: &'static str) -> Option<&[u8]> {
        self.found.part = part;
        let end = self.at.checked_add(count).filter(|&end| end <= self.bytes.len() && end <= self.place)?;
        let from = std::mem::replace(&mut self.at, end);
        Some(&self.bytes[from..end])
    }

    /// A number's low 64 bits, how many there are, and its last byte.
    fn leb128(&mut self, part: &'static str) -> Option<(u64, u32, u8)> {
        let length = self.bytes[self.at..].iter().take(10).position(|byte| byte & 0x80 == 0);
        // a number that does not end is followed to no end
        let bytes = self.take(length.map_or(usize::MAX, |last| last + 1), part)?;
        let number = (0..).zip(bytes).fold(0, |number, (i, &byte)| number | u64::from(byte & 0x7f) << (7 * i));
        Some((number, 7 * bytes.len() as u32, *bytes.last()?))
    }

    fn fixed(&mut self, count: usize, part: &'static str) -> Option<u64> {
        let big_endian = self.big_endian;
        let add = |number: u64, byte: &u8| number << 8 | u64::from(*byte);
        let bytes = self.take(count, part)?;
        Some(if big_endian { bytes.iter().fold(0, add) } else { bytes.iter().rev().fold(0, add) })
    }

    fn section(&mut self) -> Option<()> {
        self.found.step = None;
        let mark = self.take(4, "a section's mark")?.to_vec();
        match &mark[..] {
            b"SNP\0" => self.snapshot(),
            b"CYC\0" => self.cycle(),
            b"DIR\0" => self.directory(),
            b"TAI\0" => {
                self.take(8, "the tailer")?;
                self.found.ended = true;
                None
            }
            _ => None,
        }
    }

    fn begin(&mut self, time: u64) {
        self.steps += 1;
        self.found.step = Some((self.steps, time));
    }

    fn end(&mut self, open: Open) {
        if let Some((step, time)) = self.found.step {
            self.found.whole = Some(Whole { step, time, end: self.at, open });
        }
    }

    fn snapshot(&mut self) -> Option<()> {
        self.take(4, "a snapshot's head")?;
        let time = self.fixed(8, "a snapshot's head")?;
        self.begin(time);
        for id in 1..=self.tables.signals() as u32 {
            self.value(id)?;
        }
        self.end(Open::Snapshot);
        self.take(4, "a snapshot's end mark")?;
        Some(())
    }

    fn cycle(&mut self) -> Option<()> {
        let mut time = self.fixed(8, "a cycle's head")?;
        loop {
            self.begin(time);
            self.found.last_id = 0;
            loop {
                let delta = self.leb128("a change's id")?.0;
                if delta == 0 {
                    break;
                }
                let id = self.found.last_id.checked_add(delta)?;
                let known = u32::try_from(id).ok().filter(|&id| id as usize <= self.tables.signals())?;
                self.value(known)?;
                self.found.last_id = id;
            }
            self.end(Open::Cycle);
            self.found.step = None;
            let (number, bits, last) = self.leb128("a time's delta")?;
            let negative = last & 0x40 != 0 && (bits < 70 || last == 0x7f);
            if negative {
                self.take(4, "a cycle's end mark")?;
                return Some(());
            }
            time = time.checked_add(number)?;
        }
    }

    fn value(&mut self, id: u32) -> Option<()> {
        self.found.value_of = Some(id);
        match self.tables.kind(id)? {
            Kind::Leb128Signed => drop(self.leb128("a value")?),
            Kind::F64 => drop(self.take(8, "a value")?),
            _ => drop(self.take(1, "a value")?),
        }
        self.found.value_of = None;
        Some(())
    }

    fn directory(&mut self) -> Option<()> {
        self.take(4, "the directory's head")?;
        let count = self.fixed(4, "the directory's head")?;
        for _ in 0..count {
            self.take(4, "the directory")?;
            self.take(4, "the directory")?;
        }
        self.take(4, "the directory's end mark")?;
        Some(())
    }
}

/// The bytes of a cut file up to its last whole step, closed: closing delta, end mark and tailer.
pub fn closed(sections: &[u8], whole: Whole) -> Vec<u8> {
    let end: &[u8] = match whole.open {
        Open::Snapshot => b"ESN\0",
        Open::Cycle => b"\x7fECY\0",
    };
    [&sections[..whole.end], end, b"TAI\0\0\0\0\0\0\0\0\0"].concat()
}

#[cfg(test)]
mod tests {
    use super::*;
    use doorquill::States;

    /// Document 01's worked example.
    fn worked() -> (Tables, Vec<u8>) {
        let mut tables = Tables::new();
        tables.signal(Kind::NineState, 1);
        tables.vector(States::Two, 2, 2);
        tables.signal(Kind::U8, 3);
        let parts: [&[u8]; 6] = [
            b"SNP\0\0\0\0\0\0\0\0\0\0\0\0\0",
            &[3, 1, 0, 0x2a],
            b"ESN\0CYC\0\x0a\0\0\0\0\0\0\0",
            &[3, 1, 0, 5, 1, 4, 0, 0x7f],
            b"ECY\0",
            b"TAI\0\0\0\0\0\0\0\0\0",
        ];
        (tables, parts.concat())
    }

    #[test]
    fn places_of_the_worked_example() {
        let (tables, bytes) = worked();
        let at = |place| {
            let w = walk(&tables, false, &bytes, place);
            (w.step, w.value_of, w.part, w.whole.map(|w| w.end))
        };
        assert_eq!(at(0), (None, None, "a section's mark", None));
        assert_eq!(at(9), (None, None, "a snapshot's head", None));
        assert_eq!(at(16), (Some((1, 0)), Some(1), "a value", None));
        assert_eq!(at(19), (Some((1, 0)), Some(4), "a value", None));
        assert_eq!(at(20), (Some((1, 0)), None, "a snapshot's end mark", Some(20)));
        assert_eq!(at(26), (None, None, "a section's mark", Some(20)));
        assert_eq!(at(36), (Some((2, 10)), None, "a change's id", Some(20)));
        assert_eq!(at(37), (Some((2, 10)), Some(3), "a value", Some(20)));
        assert_eq!(at(39), (None, None, "a time's delta", Some(39)));
        assert_eq!(at(41), (Some((3, 15)), Some(1), "a value", Some(39)));
        assert_eq!(at(44), (None, None, "a cycle's end mark", Some(43)));
        assert_eq!(at(55), (None, None, "the tailer", Some(43)));
        assert!(walk(&tables, false, &bytes, 60).ended);
    }

    #[test]
    fn a_cut_file_closed_after_its_last_whole_step() {
        let (tables, bytes) = worked();
        let whole = walk(&tables, false, &bytes[..41], usize::MAX).whole.unwrap();
        assert_eq!(whole, Whole { step: 2, time: 10, end: 39, open: Open::Cycle });
        let salvaged = closed(&bytes[..41], whole);
        assert_eq!(salvaged, [&bytes[..39], b"\x7fECY\0TAI\0\0\0\0\0\0\0\0\0"].concat());
        let whole = walk(&tables, false, &bytes[..38], usize::MAX).whole.unwrap();
        assert_eq!(closed(&bytes[..38], whole), [&bytes[..24], b"TAI\0\0\0\0\0\0\0\0\0"].concat());
        assert_eq!(walk(&tables, false, &bytes[..19], usize::MAX).whole, None);
    }
}
