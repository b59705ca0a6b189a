//! In place of `src/ghw/signals.rs` of wellen 0.25.7: the sections are read by Doorquill's proved library. `README.md`
//! beside this file says how it is taken in.
use crate::ghw::common::*;
use crate::signal::{SignalSource, States};
use crate::wavemem::Encoder;
use crate::{Hierarchy, SignalRef, TimeTable};
use doorquill::{read_sections, Event, Tables, MOST_SECTION_BYTES};
use std::io::{BufRead, Read};

/// Reads the signal sections; `input` stands right behind the mark that ends the hierarchy.
pub fn read_signals(
    header: &HeaderData,
    decode_info: GhwDecodeInfo,
    hierarchy: &Hierarchy,
    input: &mut impl BufRead,
) -> Result<(SignalSource, TimeTable)> {
    // One byte past the limit is enough to be refused.
    let mut sections = Vec::new();
    input.by_ref().take(MOST_SECTION_BYTES as u64 + 1).read_to_end(&mut sections)?;
    let reading = read_sections(&tables(decode_info), header.big_endian, &sections)
        .map_err(|refusal| GhwParseError::FailedToParseSection("signal", refusal.to_string()))?;

    let mut encoder = Encoder::new(hierarchy);
    for event in reading.events() {
        match event {
            Event::Time(time) => encoder.time_change(time),
            Event::Value { reference, states, bytes } => {
                encoder.raw_value_change(signal(reference), bytes, states_of(states))
            }
            Event::Real { reference, value } => encoder.real_change(signal(reference), value),
        }
    }
    Ok(encoder.finish())
}

/// The crate counts ids, vectors and references from 0, the tables from 1.
fn tables((info, vectors): GhwDecodeInfo) -> Tables {
    let number = |index: usize| index as u32 + 1;
    let signals: Vec<GhwSignalInfo> =
        (1..=info.signal_len()).map(|id| *info.get_info(GhwSignalId::new(id as u32))).collect();
    Tables::from_lists(
        signals.iter().map(|s| s.tpe() as u8).collect(),
        signals.iter().map(|s| number(s.signal_ref().index())).collect(),
        signals.iter().map(|s| s.vec_id().map_or(0, |v| number(v.index()))).collect(),
        vectors.iter().map(|v| number(v.min().index())).collect(),
        vectors.iter().map(|v| number(v.max().index())).collect(),
        vectors.iter().map(|v| u8::from(v.is_two_state())).collect(),
        vectors.iter().map(|v| number(v.signal_ref().index())).collect(),
    )
}

fn signal(reference: u32) -> SignalRef {
    SignalRef::from_index(reference as usize - 1).expect("a reference comes from the tables, where none is 0")
}

fn states_of(states: doorquill::States) -> States {
    match states {
        doorquill::States::Two => States::Two,
        doorquill::States::Nine => States::Nine,
    }
}
