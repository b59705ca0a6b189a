//! The signal and vector tables that every reading goes by.
use crate::MOST_SIGNALS;

/// What a signal holds, and so how its values are written; in the order of document 01's kinds 0 to 6.
#[derive(Clone, Copy, Debug, PartialEq, Eq, Hash)]
#[repr(u8)]
pub enum Kind {
    /// One nine-state value (std_ulogic).
    NineState,
    /// A bit of a nine-state vector.
    NineStateVec,
    /// One two-state value (bit).
    TwoState,
    /// A bit of a two-state vector.
    TwoStateVec,
    /// A byte of any value (an enumeration).
    U8,
    /// A signed number of up to 64 bits.
    Leb128Signed,
    /// A real.
    F64,
}

impl Kind {
    /// The kind of document 01's number, where there is one.
    pub fn from_number(number: u8) -> Option<Kind> {
        use Kind::*;
        [NineState, NineStateVec, TwoState, TwoStateVec, U8, Leb128Signed, F64].get(usize::from(number)).copied()
    }
}

/// The states that a bit can have.
#[derive(Clone, Copy, Debug, PartialEq, Eq, Hash)]
pub enum States {
    /// `0 1 x z h u w l -`, by these places a number from 0 to 8; four bits each in packed bytes.
    Nine,
    /// 0 and 1; one bit each in packed bytes.
    Two,
}

impl States {
    /// The bytes that a value of so many bits takes.
    pub fn bytes(self, width: u32) -> usize {
        let width = width as usize;
        match self {
            States::Nine => width / 2 + width % 2,
            States::Two => width / 8 + usize::from(width % 8 != 0),
        }
    }
}

/// A vector: its number from 1, and the ids that it gathers. The lowest id is its highest bit.
#[derive(Clone, Copy, Debug, PartialEq, Eq, Hash)]
pub struct Vector {
    /// Its number, from 1.
    pub number: u32,
    /// The lowest id.
    pub min: u32,
    /// The highest id.
    pub max: u32,
}

/// The signal and vector tables.
///
/// Ids and vector numbers are given out from 1, in the order in which signals and vectors are added. Nothing is judged
/// here: the proved calls make document 01's checks 1 to 5 of whatever tables they are lent, and refuse.
#[derive(Clone, Default, Debug, PartialEq, Eq)]
pub struct Tables {
    pub(crate) kinds: Vec<u8>,
    pub(crate) refs: Vec<u32>,
    pub(crate) vecs: Vec<u32>,
    pub(crate) mins: Vec<u32>,
    pub(crate) maxs: Vec<u32>,
    pub(crate) states: Vec<u8>,
    pub(crate) vec_refs: Vec<u32>,
}

fn at<T: Copy>(list: &[T], number: u32) -> Option<T> {
    list.get((number as usize).checked_sub(1)?).copied()
}

fn count<T>(list: &[T]) -> u32 {
    u32::try_from(list.len()).unwrap_or(u32::MAX)
}

impl Tables {
    /// Is a signal a real? Then the manner in which sections are read can matter ([`How`](crate::How)).
    pub fn has_reals(&self) -> bool {
        self.kinds.contains(&(Kind::F64 as u8))
    }

    /// Tables without a signal.
    pub fn new() -> Tables {
        Tables::default()
    }

    /// Adds a signal outside vectors and gives its id. A kind that belongs to vectors is refused by the call that is
    /// lent the tables (4, at the id).
    pub fn signal(&mut self, kind: Kind, reference: u32) -> u32 {
        self.push(kind, reference, 0);
        count(&self.kinds)
    }

    /// Adds a vector and the `width` signals that it gathers.
    ///
    /// A width of 0 is refused by the call (3, at the vector's number), and so is one of more than 65,535 (2): of such
    /// a vector no more than 65,536 signals are stored.
    pub fn vector(&mut self, states: States, width: u32, reference: u32) -> Vector {
        let (kind, state) = match states {
            States::Nine => (Kind::NineStateVec, 0),
            States::Two => (Kind::TwoStateVec, 1),
        };
        let before = count(&self.kinds);
        let number = count(&self.mins).saturating_add(1);
        let (min, max) = (before.saturating_add(1), before.saturating_add(width));
        self.mins.push(min);
        self.maxs.push(max);
        self.states.push(state);
        self.vec_refs.push(reference);
        for _ in 0..width.min(MOST_SIGNALS as u32 + 1) {
            self.push(kind, reference, number);
        }
        Vector { number, min, max }
    }

    /// Tables of any lists, good or bad: kind, reference and vector number (0 for none) of each id; least id, greatest
    /// id, state (0 nine, 1 two) and reference of each vector.
    pub fn from_lists(
        kinds: Vec<u8>,
        refs: Vec<u32>,
        vecs: Vec<u32>,
        mins: Vec<u32>,
        maxs: Vec<u32>,
        states: Vec<u8>,
        vec_refs: Vec<u32>,
    ) -> Tables {
        Tables { kinds, refs, vecs, mins, maxs, states, vec_refs }
    }

    fn push(&mut self, kind: Kind, reference: u32, vector: u32) {
        self.kinds.push(kind as u8);
        self.refs.push(reference);
        self.vecs.push(vector);
    }

    /// How many signals there are: the highest id.
    pub fn signals(&self) -> usize {
        self.kinds.len()
    }

    /// How many vectors there are: the highest vector number.
    pub fn vectors(&self) -> usize {
        self.mins.len()
    }

    /// The kind of a signal.
    pub fn kind(&self, id: u32) -> Option<Kind> {
        Kind::from_number(at(&self.kinds, id)?)
    }

    /// The reference of a signal's events.
    pub fn reference(&self, id: u32) -> Option<u32> {
        at(&self.refs, id)
    }

    /// The number of the vector that gathers a signal.
    pub fn vector_of(&self, id: u32) -> Option<u32> {
        at(&self.vecs, id).filter(|&number| number != 0)
    }

    /// A vector by its number.
    pub fn vector_at(&self, number: u32) -> Option<Vector> {
        Some(Vector { number, min: at(&self.mins, number)?, max: at(&self.maxs, number)? })
    }

    /// The states of a vector's bits.
    pub fn vector_states(&self, number: u32) -> Option<States> {
        match at(&self.states, number)? {
            0 => Some(States::Nine),
            1 => Some(States::Two),
            _ => None,
        }
    }

    /// The reference of a vector's events.
    pub fn vector_reference(&self, number: u32) -> Option<u32> {
        at(&self.vec_refs, number)
    }
}
