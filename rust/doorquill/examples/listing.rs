//! Section bytes and their tables to events, a line for each: what `./run-listing` prints, by the safe crate.
//!
//!     cargo run --example listing < crates/reassembly_fragments/stdin
//!
//! The input is the listing's (document 01): records 1 for signals and 2 for vectors, then 3, the byte order, and
//! section bytes. Signal tables come from anywhere; `ghw::open` makes them from a `.ghw` file.
use doorquill::{read_sections, Event, Reading, Refusal, States, Tables};
use std::io::{self, Read, Write};

fn number(bytes: &[u8]) -> u32 {
    bytes.iter().fold(0, |n, &byte| n << 8 | u32::from(byte))
}

/// The tables, the byte order and the section bytes; `None` where the preamble is not whole.
pub fn preamble(mut input: &[u8]) -> Option<(Tables, bool, &[u8])> {
    let (mut kinds, mut refs, mut vecs) = (vec![], vec![], vec![]);
    let (mut mins, mut maxs, mut states, mut vec_refs) = (vec![], vec![], vec![], vec![]);
    loop {
        let kind = *input.first()?;
        let length = match kind {
            1 => 10,
            2 => 14,
            3 => 2,
            _ => return None,
        };
        let (record, rest) = (input.get(..length)?, &input[length..]);
        match kind {
            1 => {
                kinds.push(record[1]);
                refs.push(number(&record[2..6]));
                vecs.push(number(&record[6..10]));
            }
            2 => {
                mins.push(number(&record[1..5]));
                maxs.push(number(&record[5..9]));
                states.push(record[9]);
                vec_refs.push(number(&record[10..14]));
            }
            _ => {
                return Some((
                    Tables::from_lists(kinds, refs, vecs, mins, maxs, states, vec_refs),
                    record[1] == 1,
                    rest,
                ))
            }
        }
        input = rest;
    }
}

fn hex(bytes: &[u8]) -> String {
    bytes.iter().map(|byte| format!("{byte:02x}")).collect()
}

pub fn lines(reading: &Reading) -> String {
    let mut text = String::new();
    for event in reading.events() {
        text += &match event {
            Event::Time(time) => format!("time {time}\n"),
            Event::Value { reference, states: States::Two, bytes } => format!("two {reference} {}\n", hex(bytes)),
            Event::Value { reference, states: States::Nine, bytes } => format!("nine {reference} {}\n", hex(bytes)),
            Event::Real { reference, value } => format!("real {reference} {:016x}\n", value.to_bits()),
        };
    }
    text + &format!("done {} {}\n", reading.bytes_read(), reading.steps())
}

pub fn listing(input: &[u8]) -> Result<Option<String>, Refusal> {
    match preamble(input) {
        Some((tables, big_endian, sections)) => Ok(Some(lines(&read_sections(&tables, big_endian, sections)?))),
        None => Ok(None),
    }
}

#[allow(dead_code)]
fn main() -> Result<(), Box<dyn std::error::Error>> {
    let mut input = Vec::new();
    io::stdin().read_to_end(&mut input)?;
    let text = listing(&input)?.ok_or("no listing: the tables before the sections are not whole")?;
    io::stdout().write_all(text.as_bytes())?;
    Ok(())
}
