//! `--as-bits`: nine-state events of chosen lines as two-state ones. This step is the host's own: it stands outside the
//! proof, and the output says so.
use crate::times;
use crate::values::{letters, Shown};
use doorquill::{Event, Reading, States};

/// A line that is to be turned: its reference, and how it is shown.
pub struct Line<'a> {
    pub reference: u32,
    pub shown: &'a Shown,
}

/// The reading with the lines' nine-state events as two-state ones: `1` and `H` as 1, `0` and `L` as 0; any other
/// letter is refused with signal, letter and time.
pub fn as_bits(reading: &Reading, lines: &[Line]) -> Result<Reading, String> {
    let (mut events, mut values) = (vec![], vec![]);
    let mut time = 0;
    for event in reading.events() {
        let (kind, reference, bytes) = match event {
            Event::Time(now) => {
                time = now;
                events.push(1);
                events.extend(now.to_be_bytes());
                continue;
            }
            Event::Real { reference, value } => {
                events.push(4);
                events.extend(reference.to_be_bytes());
                events.extend(value.to_bits().to_be_bytes());
                continue;
            }
            Event::Value { reference, states: States::Two, bytes } => (2, reference, bytes.to_vec()),
            Event::Value { reference, states: States::Nine, bytes } => {
                match lines.iter().find(|line| line.reference == reference) {
                    Some(line) => (2, reference, two_state(bytes, line.shown, time)?),
                    None => (3, reference, bytes.to_vec()),
                }
            }
        };
        let start =
            u32::try_from(values.len()).map_err(|_| "more value bytes than an event can point to".to_string())?;
        events.push(kind);
        events.extend(reference.to_be_bytes());
        events.extend(start.to_be_bytes());
        events.extend((bytes.len() as u32).to_be_bytes());
        values.extend(bytes);
    }
    Ok(Reading::from_records(events, values))
}

/// A nine-state value packed as a two-state one.
fn two_state(bytes: &[u8], shown: &Shown, time: u64) -> Result<Vec<u8>, String> {
    let mut packed = vec![0; States::Two.bytes(shown.width)];
    let last = packed.len() - 1;
    for (place, letter) in letters(bytes, shown.width).enumerate() {
        let bit = shown.width as usize - 1 - place;
        match letter {
            '1' | 'H' => packed[last - bit / 8] |= 1 << (bit % 8),
            '0' | 'L' => {}
            other => {
                let whose = match shown.width {
                    1 => shown.path.clone(),
                    _ => format!("bit {bit} of {}", shown.path),
                };
                return Err(format!(
                    "{whose} is {other} at {}: --as-bits takes 0, L, 1 and H alone",
                    times::text(time)
                ));
            }
        }
    }
    Ok(packed)
}
