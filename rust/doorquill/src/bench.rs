//! What the bench counts.
use crate::event::number;

/// One line of the bench's account. Fragments and closings stand in order of time, what is still held at the end.
#[derive(Clone, Copy, Debug, PartialEq, Eq)]
pub enum Counted {
    /// The strobe rose: one fragment, of the session then shown.
    Fragment {
        /// When, in femtoseconds.
        time: u64,
        /// The session.
        session: u32,
    },
    /// The close line stood at 1: the session's count is handed out.
    Closed {
        /// When, in femtoseconds.
        time: u64,
        /// The session.
        session: u32,
        /// Its fragments since it was last closed.
        count: u64,
    },
    /// A session that is not closed at the end.
    Held {
        /// The session.
        session: u32,
        /// Its fragments since it was last closed.
        count: u64,
    },
}

/// The bench's output, record by record.
pub(crate) fn account(mut out: &[u8]) -> Vec<Counted> {
    let mut all = Vec::new();
    while let Some(counted) = next(&mut out) {
        all.push(counted);
    }
    all
}

fn next(out: &mut &[u8]) -> Option<Counted> {
    Some(match number(out, 1)? {
        1 => Counted::Fragment { time: number(out, 8)?, session: number(out, 4)? as u32 },
        2 => Counted::Closed { time: number(out, 8)?, session: number(out, 4)? as u32, count: number(out, 8)? },
        _ => Counted::Held { session: number(out, 4)? as u32, count: number(out, 8)? },
    })
}
