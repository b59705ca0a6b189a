//! Event records, one by one.
use crate::States;

/// One event of a reading.
#[derive(Clone, Copy, Debug, PartialEq)]
pub enum Event<'a> {
    /// A step begins, at this time in femtoseconds.
    Time(u64),
    /// A value of bits: bit 0, which has the highest id, lies lowest in the last byte.
    Value {
        /// The reference that the tables gave the signal or the vector.
        reference: u32,
        /// What a bit is.
        states: States,
        /// The value, packed: eight two-state or two nine-state bits to the byte, unused high places zero.
        bytes: &'a [u8],
    },
    /// A real.
    Real {
        /// The reference that the tables gave the signal.
        reference: u32,
        /// The real.
        value: f64,
    },
}

/// The events of a reading, in order.
///
/// Of a host's own records ([`Reading::from_records`](crate::Reading::from_records)) the iterator ends before the first
/// that is no event; the calls say what is wrong with it.
#[derive(Clone, Debug)]
pub struct Events<'a> {
    rest: &'a [u8],
    values: &'a [u8],
}

impl<'a> Events<'a> {
    pub(crate) fn of(events: &'a [u8], values: &'a [u8]) -> Events<'a> {
        Events { rest: events, values }
    }
}

/// The next so many bytes as a big-endian number, taken off the front.
pub(crate) fn number(rest: &mut &[u8], bytes: usize) -> Option<u64> {
    if rest.len() < bytes {
        return None;
    }
    let (head, tail) = rest.split_at(bytes);
    *rest = tail;
    Some(head.iter().fold(0, |n, &byte| n << 8 | u64::from(byte)))
}

impl<'a> Iterator for Events<'a> {
    type Item = Event<'a>;

    fn next(&mut self) -> Option<Event<'a>> {
        let rest = &mut self.rest;
        let kind = number(rest, 1)?;
        if kind == 1 {
            return number(rest, 8).map(Event::Time);
        }
        let reference = number(rest, 4)? as u32;
        match kind {
            2 | 3 => {
                let (start, length) = (number(rest, 4)? as usize, number(rest, 4)? as usize);
                let bytes = self.values.get(start..start.checked_add(length)?)?;
                let states = if kind == 2 { States::Two } else { States::Nine };
                Some(Event::Value { reference, states, bytes })
            }
            4 => number(rest, 8).map(|bits| Event::Real { reference, value: f64::from_bits(bits) }),
            _ => None,
        }
    }
}
