//! Values as VHDL writes them.
use doorquill::ghw::{Signal, Values};
use doorquill::{Event, States};

/// The crate's nine states by their numbers, as letters of VHDL.
const LETTERS: [char; 16] = ['0', '1', 'X', 'Z', 'H', 'U', 'W', 'L', '-', '?', '?', '?', '?', '?', '?', '?'];

/// What is needed to show a signal's values.
pub struct Shown {
    pub path: String,
    pub width: u32,
    /// Whether it is a vector of bits, of one bit too.
    vector: bool,
    values: Values,
    literals: Vec<String>,
    units: Vec<(String, i64)>,
}

impl Shown {
    pub fn new(signal: Signal) -> Shown {
        let values = signal.values();
        let literals = if values == Values::Enumeration { signal.literals() } else { vec![] };
        let vector = signal.is_vector();
        Shown { path: signal.path(), width: signal.width(), vector, values, literals, units: signal.units() }
    }

    /// An event's value.
    pub fn text(&self, event: &Event) -> String {
        match *event {
            Event::Time(time) => crate::times::text(time),
            Event::Real { value, .. } => format!("{value:?}"),
            Event::Value { states: States::Nine, bytes, .. } => {
                let letters: String = letters(bytes, self.width).collect();
                if self.vector {
                    format!("\"{letters}\"")
                } else {
                    letters
                }
            }
            Event::Value { bytes, .. } => match self.values {
                Values::Enumeration => {
                    let number = bytes.first().copied().unwrap_or(0);
                    self.literals.get(usize::from(number)).cloned().unwrap_or_else(|| format!("{number} (no literal)"))
                }
                Values::Integer => number(bytes).to_string(),
                Values::Physical => physical(number(bytes), &self.units),
                _ if self.vector => format!("x\"{}\"", hex_digits(bytes, self.width)),
                _ => hex_digits(bytes, self.width),
            },
        }
    }

    /// A session, as the bench gives it: the value as a number.
    pub fn session(&self, value: u32) -> String {
        match self.values {
            Values::Enumeration => {
                let literal = self.literals.get(value as usize).cloned();
                literal.unwrap_or_else(|| format!("{value} (no literal)"))
            }
            _ => hex_digits(&value.to_be_bytes(), self.width),
        }
    }
}

/// The letters of a nine-state value, the highest bit first.
pub fn letters(bytes: &[u8], width: u32) -> impl Iterator<Item = char> + '_ {
    let bits = (0..width as usize).rev();
    bits.map(move |bit| {
        let byte = bytes.len().checked_sub(1 + bit / 2).map_or(0, |place| bytes[place]);
        LETTERS[usize::from(byte >> (4 * (bit % 2)) & 15)]
    })
}

/// As many hex digits as a width needs, from the last bytes.
fn hex_digits(bytes: &[u8], width: u32) -> String {
    let all = hex(bytes);
    let digits = (width as usize + 3) / 4;
    let from = all.len().saturating_sub(digits.max(1));
    all[from..].to_string()
}

/// Bytes in hex.
pub fn hex(bytes: &[u8]) -> String {
    bytes.iter().map(|byte| format!("{byte:02x}")).collect()
}

/// A signed number of up to eight bytes, big-endian.
fn number(bytes: &[u8]) -> i64 {
    bytes.iter().fold(0, |number, &byte| number << 8 | i64::from(byte))
}

/// A number of the smallest units in the largest unit that shows it exactly.
fn physical(value: i64, units: &[(String, i64)]) -> String {
    let whole = units.iter().filter(|(_, unit)| *unit > 0 && value % unit == 0);
    let largest = match value {
        0 => whole.min_by_key(|(_, unit)| *unit),
        _ => whole.max_by_key(|(_, unit)| *unit),
    };
    match largest {
        Some((name, unit)) => format!("{} {name}", value / unit),
        None => value.to_string(),
    }
}

#[cfg(test)]
mod tests {
    use super::*;

    #[test]
    fn packed_values() {
        assert_eq!(letters(&[0x05, 0x18], 3).collect::<String>(), "U1-");
        assert_eq!(letters(&[0x12, 0x34, 0x67], 6).collect::<String>(), "1XZHWL");
        assert_eq!(hex_digits(&[0x00, 0x5f], 12), "05f");
        assert_eq!(hex_digits(&[0x01], 1), "1");
        assert_eq!(hex_digits(&[0, 0, 0, 0x7f], 7), "7f");
        assert_eq!(number(&(-5i64).to_be_bytes()), -5);
    }

    #[test]
    fn units() {
        let units = vec![("fs".to_string(), 1), ("ps".to_string(), 1000), ("ns".to_string(), 1_000_000)];
        assert_eq!(physical(2_000_000, &units), "2 ns");
        assert_eq!(physical(-1500, &units), "-1500 fs");
        assert_eq!(physical(0, &units), "0 fs");
        assert_eq!(physical(7, &[]), "7");
        assert_eq!(physical(i64::MIN, &units), "-9223372036854775808 fs");
    }
}
