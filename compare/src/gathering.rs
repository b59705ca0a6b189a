//! Short write sequences for the gatherer: on two vectors of each width and state, among plain signals, as change records.
use crate::cases::{Case, Entry, AMPLE};
use crate::gen::Rng;
use crate::judge::plain_outcome;
use crate::plain::{needs, Rooms, Tables};

const WIDTHS: [usize; 17] = [1, 2, 3, 4, 5, 6, 7, 8, 9, 10, 12, 16, 17, 63, 64, 65, 66];

/// Signals of kinds 0, vector A, 2, 4, vector B, 5, 6. At odd widths B is vector 1; at multiples of 4 both have one reference.
fn tables(width: usize, state: u8) -> Tables {
    let mut t = Tables::default();
    let shared = width % 4 == 0;
    let plain = |t: &mut Tables, kind: u8, reference: u32| {
        t.kinds.push(kind);
        t.refs.push(reference);
        t.vecs.push(0);
    };
    let bits = |t: &mut Tables, number: usize, reference: u32| {
        let min = t.kinds.len() as u32 + 1;
        for _ in 0..width {
            t.kinds.push(if state == 0 { 1 } else { 3 });
            t.refs.push(reference);
            t.vecs.push(number as u32);
        }
        (min, min + width as u32 - 1, reference)
    };
    let (a, b) = if width % 2 == 1 { (2, 1) } else { (1, 2) };
    plain(&mut t, 0, 1);
    let first = bits(&mut t, a, 2);
    plain(&mut t, 2, 3);
    plain(&mut t, 4, 4);
    let second = bits(&mut t, b, if shared { 2 } else { 5 });
    plain(&mut t, 5, 6);
    plain(&mut t, 6, 7);
    for (min, max, reference) in if a == 1 { [first, second] } else { [second, first] } {
        t.mins.push(min);
        t.maxs.push(max);
        t.states.push(state);
        t.vec_refs.push(reference);
    }
    t
}

struct Stream<'a> {
    t: &'a Tables,
    out: Vec<u8>,
    time: u64,
}

impl<'a> Stream<'a> {
    fn new(t: &'a Tables) -> Self {
        Stream { t, out: vec![], time: 0 }
    }

    fn step(&mut self, writes: &[(usize, u64)]) {
        self.time += 1;
        self.out.push(1);
        self.out.extend(self.time.to_be_bytes());
        for (id, value) in writes {
            let kind = self.t.kinds[id - 1];
            self.out.push(if kind < 5 { 2 } else { 3 });
            self.out.extend((*id as u32).to_be_bytes());
            match kind {
                0 | 1 => self.out.push((value % 9) as u8),
                2 | 3 => self.out.push((value % 2) as u8),
                4 => self.out.push(*value as u8),
                _ => self.out.extend(value.to_be_bytes()),
            }
        }
        self.out.push(4);
    }
}

/// Every id once by rising id, once by falling id, and again with a bit more after the last of each vector.
fn once(t: &Tables, width: usize) -> Vec<u8> {
    let n = t.kinds.len();
    let mut s = Stream::new(t);
    let all: Vec<(usize, u64)> = (1..=n).map(|id| (id, 1 + id as u64 % 7)).collect();
    s.step(&all);
    let falling: Vec<(usize, u64)> = (1..=n).rev().map(|id| (id, id as u64 / 2)).collect();
    s.step(&falling);
    let mut again: Vec<(usize, u64)> = (2..=width + 1).map(|id| (id, 1)).collect();
    again.push((2, 1));
    again.push((width + 1, 1));
    s.step(&again);
    s.out
}

/// Rule (a): each bit of A twice with one value and then with another, so too the ends of B, and an equal one after an event.
fn twice(t: &Tables, width: usize) -> Vec<u8> {
    let mut s = Stream::new(t);
    let writes = |id: usize| [(id, 1 + 2 * (id as u64 % 4)), (id, 1 + 2 * (id as u64 % 4)), (id, 2 * (id as u64 % 4))];
    let a: Vec<(usize, u64)> = (2..=width + 1).flat_map(writes).collect();
    s.step(&a);
    let (low, high) = (width + 4, 2 * width + 3);
    s.step(&[(low, 1), (low, 1), (high, 0), (high, 1), (low, 1), (low, 0), (low, 0), (high, 0)]);
    s.out
}

/// Step-end events in the order of first writes: B before A, A before B, early events notwithstanding, and one vector alone.
fn order(t: &Tables, width: usize) -> Vec<u8> {
    let (a, b) = (width + 1, 2 * width + 3);
    let mut s = Stream::new(t);
    s.step(&[(b, 1), (a, 1)]);
    s.step(&[(a, 0), (b, 0), (a, 1)]);
    s.step(&[(b, 1)]);
    s.step(&[]);
    s.step(&[(b, 0), (1, 3), (a, 0), (b, 1), (width + 2, 1), (b, 0)]);
    s.out
}

fn random(rng: &mut Rng, t: &Tables, width: usize) -> Vec<u8> {
    let n = t.kinds.len();
    let mut s = Stream::new(t);
    for _ in 0..3 {
        let mut id = 2;
        let writes: Vec<(usize, u64)> = (0..8 + rng.below(24))
            .map(|_| {
                id = match rng.below(8) {
                    0 => 1 + rng.below(n),
                    1 | 2 => id,
                    3 => 2 + rng.below(width),
                    4 => width + 4 + rng.below(width),
                    _ => id % n + 1,
                };
                (id, rng.number())
            })
            .collect();
        s.step(&writes);
    }
    s.out
}

/// With rooms that are just enough.
fn exact(t: &Tables, input: Vec<u8>) -> Case {
    let mut case = Case::new(Entry::Changes, t, input);
    case.rooms = AMPLE;
    let o = plain_outcome(&case);
    let (room, list) = needs(t);
    case.rooms = Rooms { events: o.events.len(), values: o.values.len(), room, list, flat: 0 };
    case
}

pub fn list() -> Vec<Case> {
    let mut rng = Rng::new(30_000);
    let mut out = vec![];
    for width in WIDTHS {
        for state in [0, 1] {
            let t = tables(width, state);
            let orders = exact(&t, order(&t, width));
            for input in [once(&t, width), twice(&t, width), random(&mut rng, &t, width)] {
                out.push(exact(&t, input));
            }
            // One byte less in either output is refused at its last event.
            for (events, values) in [(0, 0), (1, 0), (0, 1)] {
                let mut case = orders.clone();
                case.rooms.events -= events;
                case.rooms.values -= values;
                out.push(case);
            }
        }
    }
    out
}
