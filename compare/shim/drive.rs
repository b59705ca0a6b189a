//! Asks this build of the crate's code: section reading, change records through its gatherer, the time rule.
use crate::ghw::common::GhwParseError;
use crate::ghw::signals::{inside::Gatherer, read_signals};
use crate::wavemem::Encoder;
use crate::{decode_info, header, time, Hierarchy};
use calls::{ask, End, Panic, Run, Tables};
use std::cell::Cell;
use std::io::{self, BufRead, Read};
use std::rc::Rc;

const SIGNALS: &str = include_str!(concat!(env!("WELLEN_SRC"), "/src/ghw/signals.rs"));
const COMMON: &str = include_str!(concat!(env!("WELLEN_SRC"), "/src/ghw/common.rs"));

/// A slice with a cursor that others can see; a read that is too long takes nothing.
struct Input<'a> {
    bytes: &'a [u8],
    at: Rc<Cell<usize>>,
}

impl Read for Input<'_> {
    fn read(&mut self, out: &mut [u8]) -> io::Result<usize> {
        let at = self.at.get();
        let count = out.len().min(self.bytes.len() - at);
        out[..count].copy_from_slice(&self.bytes[at..at + count]);
        self.at.set(at + count);
        Ok(count)
    }
    fn read_exact(&mut self, out: &mut [u8]) -> io::Result<()> {
        if out.len() > self.bytes.len() - self.at.get() {
            return Err(io::ErrorKind::UnexpectedEof.into());
        }
        self.read(out).map(|_| ())
    }
}

impl BufRead for Input<'_> {
    fn fill_buf(&mut self) -> io::Result<&[u8]> {
        Ok(&self.bytes[self.at.get()..])
    }
    fn consume(&mut self, count: usize) {
        self.at.set(self.at.get() + count);
    }
}

/// The refusal that the line of a panic stands for.
fn number_of(panic: &Panic) -> u64 {
    let line = |text: &'static str| text.lines().nth((panic.line as usize).wrapping_sub(1)).unwrap_or("");
    let has = |text: &str, words: &[&str]| words.iter().any(|w| text.contains(w));
    if panic.message.contains("We need a call to time_change first!") {
        18
    } else if panic.file.ends_with("signals.rs") {
        let text = line(SIGNALS);
        if has(text, &["STD_LOGIC_LUT[", "debug_assert!(value[0] <= 1)", "debug_assert!(ghdl_value <= 1)"]) {
            14
        } else if has(text, &["pos_signal_index += delta"]) {
            13
        } else if has(text, &["start_time += time_delta"]) {
            15
        } else {
            0
        }
    } else if panic.file.ends_with("common.rs")
        && has(line(COMMON), &["&self.signals[signal_id.index()]", "NonZeroU32::new(pos_id).unwrap()"])
    {
        13
    } else {
        0
    }
}

fn panicked(panic: Panic, at: usize) -> End {
    let number = number_of(&panic);
    let file = panic.file.rsplit('/').next().unwrap_or("");
    End::Panicked { number, at, text: format!("{}:{}: {}", file, panic.line, panic.message) }
}

/// The refusal and the place that an error of section reading stands for, where the next unread byte is known.
fn failed(error: GhwParseError, at: usize) -> End {
    use leb128::read::{Error as Leb, TAKEN};
    let taken = TAKEN.with(|t| t.get()) as usize;
    let (number, place) = match error {
        GhwParseError::Io(_) => (7, at),
        GhwParseError::FailedToParsLeb128(Leb::IoError(_)) => (7, at - taken),
        GhwParseError::FailedToParsLeb128(Leb::Overflow) => (12, at - taken),
        GhwParseError::UnexpectedSection(text) if text.starts_with("expected ") => (10, at - 4),
        GhwParseError::UnexpectedSection(_) => (8, at - 4),
        GhwParseError::FailedToParseSection("snapshot", _) => (9, at - 12),
        GhwParseError::ExpectedPositiveInteger(_) => (11, at - 4),
        GhwParseError::FailedToParseSection(..) => return End::FirstDelta { at },
        other => panic!("no section gives {:?}", other),
    };
    End::Failed { number, place }
}

fn run(to: &Hierarchy, end: End) -> Run {
    let log = to.log.take();
    Run { calls: log.calls, values: log.values, end }
}

pub fn sections(tables: &Tables, big_endian: bool, bytes: &[u8]) -> Run {
    let to = Hierarchy::default();
    let answer = ask(|| {
        let mut input = Input { bytes, at: to.at.clone() };
        read_signals(&header(big_endian), decode_info(tables), &to, &mut input)
    });
    let at = to.at.get();
    let end = match answer {
        Ok(Ok(_)) => End::Done(at),
        Ok(Err(error)) => failed(error, at),
        Err(panic) => panicked(panic, at),
    };
    run(&to, end)
}

fn number(bytes: &[u8]) -> u64 {
    bytes.iter().fold(0, |n, b| n << 8 | u64::from(*b))
}

/// The body of a house record, where its kind is known and the record is whole.
fn body(bytes: &[u8], at: usize, lengths: [usize; 4]) -> Option<(u8, &[u8])> {
    let kind = bytes[at];
    let length = *lengths.get(usize::from(kind).wrapping_sub(1))?;
    Some((kind, bytes.get(at + 1..at + 1 + length)?))
}

/// Change records, each handed to the crate's own gatherer. During a call the next unread byte is the record's end;
/// a panic is told with the record's first byte.
pub fn changes(tables: &Tables, bytes: &[u8]) -> Run {
    let to = Hierarchy::default();
    let begun = Cell::new(0);
    let answer = ask(|| {
        let (info, vectors) = decode_info(tables);
        let mut gatherer = Gatherer::new(vectors);
        let mut encoder = Encoder::new(&to);
        let mut open = false;
        let mut at = 0;
        while at < bytes.len() {
            begun.set(at);
            let (kind, body) = match body(bytes, at, [8, 5, 12, 0]) {
                Some(found) => found,
                None => return End::NotAsked { at },
            };
            if open != (kind != 1) {
                return End::NotAsked { at };
            }
            let next = at + 1 + body.len();
            to.at.set(next);
            match kind {
                1 => {
                    open = true;
                    encoder.time_change(number(body));
                }
                4 => {
                    open = false;
                    gatherer.step_end(&mut encoder);
                }
                _ => {
                    let id = number(&body[..4]) as u32;
                    let signal = tables.kinds.get((id as usize).wrapping_sub(1));
                    let mut value = body[4..].to_vec();
                    match (kind, signal) {
                        (2, Some(5)) | (2, Some(6)) | (3, Some(0..=4)) => return End::NotAsked { at },
                        (3, Some(5)) => {
                            value.clear();
                            leb128::write::signed(&mut value, number(&body[4..]) as i64).unwrap();
                        }
                        (3, Some(6)) => value.reverse(),
                        _ => {}
                    }
                    gatherer.write(&info, id, &mut encoder, &value).expect("the value is whole");
                }
            }
            at = next;
        }
        if open {
            End::NotAsked { at }
        } else {
            End::Done(at)
        }
    });
    let end = answer.unwrap_or_else(|panic| panicked(panic, begun.get()));
    run(&to, end)
}

/// Event records through the crate's own encoder; what it keeps comes back as calls.
pub fn events(bytes: &[u8], values: &[u8]) -> Run {
    let begun = Cell::new(0);
    let rule = std::cell::RefCell::new(time::inside::TimeRule::new());
    let answer = ask(|| {
        let mut rule = rule.borrow_mut();
        let mut timed = false;
        let mut at = 0;
        while at < bytes.len() {
            begun.set(at);
            let (kind, body) = match body(bytes, at, [8, 12, 12, 12]) {
                Some(found) => found,
                None => return End::NotAsked { at },
            };
            let next = at + 1 + body.len();
            match kind {
                1 => rule.time(next, number(body)),
                4 => rule.real(next, number(&body[..4]) as u32, number(&body[4..])),
                _ => {
                    let (start, length) = (number(&body[4..8]) as usize, number(&body[8..]) as usize);
                    // Before any time the crate is asked whatever the value: there its own test comes first.
                    let value = match values.get(start..start + length) {
                        Some(value) => value,
                        None if !timed => &[],
                        None => return End::NotAsked { at },
                    };
                    rule.value(next, kind == 3, number(&body[..4]) as u32, start, value);
                }
            }
            timed = true;
            at = next;
        }
        End::Done(at)
    });
    let end = answer.unwrap_or_else(|panic| panicked(panic, begun.get()));
    let calls = rule.borrow_mut().take();
    Run { calls, values: values.to_vec(), end }
}
