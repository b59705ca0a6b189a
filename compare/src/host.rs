//! The port's entries across the C boundary. Each call lends copies between guards, outputs and working buffers full of
//! garbage, and is checked for what the promise says of lent memory: inputs and guards untouched, outputs zero past
//! the reported bytes (all of them on a refusal), working buffers zero.
use crate::raw::Answer;

pub struct Answered {
    pub answer: Answer,
    pub events: Vec<u8>,
    pub values: Vec<u8>,
}

#[derive(Default)]
pub struct Host {
    /// Calls made.
    pub calls: u64,
}

#[cfg(not(port))]
impl Host {
    pub const LINKED: bool = false;
    pub const NAME: &'static str = "no port";

    /// None: the port isn't linked in.
    pub fn call(&mut self, _: &crate::cases::Case) -> Option<Result<Answered, String>> {
        None
    }
}

#[cfg(port)]
mod linked {
    use super::{Answered, Host};
    use crate::cases::{Case, Entry};
    use crate::plain::Modes;
    use crate::raw::{self, Answer, Vector};

    #[cfg(fake)]
    extern crate fake;

    /// The tables as the table entries take them.
    pub struct Tables<'a> {
        pub kinds: &'a [u8],
        pub refs: &'a [u32],
        pub vecs: &'a [u32],
        pub mins: &'a [u32],
        pub maxs: &'a [u32],
        pub states: &'a [u8],
        pub vec_refs: &'a [u32],
    }

    pub struct Out<'a> {
        pub events: &'a mut [u8],
        pub values: &'a mut [u8],
        pub room: &'a mut [u8],
        pub list: &'a mut [u32],
    }

    // The functions below hand on slices as pointers and lengths and nothing else: the port reads and writes within them only.
    #[rustfmt::skip]
    pub fn read_sections(t: &Tables, big_endian: bool, modes: Modes, input: &[u8], o: Out) -> Answer {
        unsafe {
            raw::doorquill_read_sections(
                t.kinds.as_ptr(), t.kinds.len(), t.refs.as_ptr(), t.refs.len(), t.vecs.as_ptr(), t.vecs.len(),
                t.mins.as_ptr(), t.mins.len(), t.maxs.as_ptr(), t.maxs.len(),
                t.states.as_ptr(), t.states.len(), t.vec_refs.as_ptr(), t.vec_refs.len(),
                big_endian, modes.reals_by_flag, input.as_ptr(), input.len(),
                o.events.as_mut_ptr(), o.events.len(), o.values.as_mut_ptr(), o.values.len(),
                o.room.as_mut_ptr(), o.room.len(), o.list.as_mut_ptr(), o.list.len(),
            )
        }
    }

    #[rustfmt::skip]
    pub fn read_changes(t: &Tables, input: &[u8], o: Out) -> Answer {
        unsafe {
            raw::doorquill_read_changes(
                t.kinds.as_ptr(), t.kinds.len(), t.refs.as_ptr(), t.refs.len(), t.vecs.as_ptr(), t.vecs.len(),
                t.mins.as_ptr(), t.mins.len(), t.maxs.as_ptr(), t.maxs.len(),
                t.states.as_ptr(), t.states.len(), t.vec_refs.as_ptr(), t.vec_refs.len(),
                input.as_ptr(), input.len(),
                o.events.as_mut_ptr(), o.events.len(), o.values.as_mut_ptr(), o.values.len(),
                o.room.as_mut_ptr(), o.room.len(), o.list.as_mut_ptr(), o.list.len(),
            )
        }
    }

    #[rustfmt::skip]
    pub fn read_sections_lent(t: &Tables, vectors: &[Vector], flat: &mut [u32], big_endian: bool, input: &[u8], o: Out) -> Answer {
        unsafe {
            raw::doorquill_read_sections_lent(
                t.kinds.as_ptr(), t.kinds.len(), t.refs.as_ptr(), t.refs.len(), t.vecs.as_ptr(), t.vecs.len(),
                vectors.as_ptr(), vectors.len(), flat.as_mut_ptr(), flat.len(),
                big_endian, input.as_ptr(), input.len(),
                o.events.as_mut_ptr(), o.events.len(), o.values.as_mut_ptr(), o.values.len(),
                o.room.as_mut_ptr(), o.room.len(), o.list.as_mut_ptr(), o.list.len(),
            )
        }
    }

    #[rustfmt::skip]
    pub fn write_sections(t: &Tables, big_endian: bool, changes: &[u8], out: &mut [u8]) -> Answer {
        unsafe {
            raw::doorquill_write_sections(
                t.kinds.as_ptr(), t.kinds.len(), t.refs.as_ptr(), t.refs.len(), t.vecs.as_ptr(), t.vecs.len(),
                t.mins.as_ptr(), t.mins.len(), t.maxs.as_ptr(), t.maxs.len(),
                t.states.as_ptr(), t.states.len(), t.vec_refs.as_ptr(), t.vec_refs.len(),
                big_endian, changes.as_ptr(), changes.len(), out.as_mut_ptr(), out.len(),
            )
        }
    }

    #[rustfmt::skip]
    pub fn read_back(t: &Tables, big_endian: bool, input: &[u8], out: &mut [u8]) -> Answer {
        unsafe {
            raw::doorquill_read_back(
                t.kinds.as_ptr(), t.kinds.len(), t.refs.as_ptr(), t.refs.len(), t.vecs.as_ptr(), t.vecs.len(),
                t.mins.as_ptr(), t.mins.len(), t.maxs.as_ptr(), t.maxs.len(),
                t.states.as_ptr(), t.states.len(), t.vec_refs.as_ptr(), t.vec_refs.len(),
                big_endian, input.as_ptr(), input.len(), out.as_mut_ptr(), out.len(),
            )
        }
    }

    pub fn time_rule(events: &[u8], values: &[u8], kept: &mut [u8]) -> Answer {
        unsafe { raw::doorquill_time_rule(events.as_ptr(), events.len(), values.as_ptr(), values.len(), kept.as_mut_ptr(), kept.len()) }
    }

    /// The references of a session vector, a strobe and a close line.
    #[cfg(dropin)]
    #[rustfmt::skip]
    pub fn bench(events: &[u8], values: &[u8], [session, strobe, close]: [u32; 3], out: &mut [u8]) -> Answer {
        unsafe {
            raw::doorquill_bench(
                events.as_ptr(), events.len(), values.as_ptr(), values.len(), session, strobe, close, out.as_mut_ptr(), out.len(),
            )
        }
    }

    pub trait Word: Copy + Default + PartialEq {
        fn of(x: u64) -> Self;
    }
    impl Word for u8 {
        fn of(x: u64) -> u8 {
            (x >> 32) as u8
        }
    }
    impl Word for u32 {
        fn of(x: u64) -> u32 {
            (x >> 32) as u32
        }
    }

    const GUARD: usize = 64;
    /// Longer buffers are lent zeroed but for their ends.
    const LONG: usize = 1 << 22;

    /// A buffer between two guards. Byte buffers begin at any alignment.
    pub struct Lent<T> {
        all: Vec<T>,
        from: usize,
        len: usize,
    }

    fn guard<T: Word>(i: usize) -> T {
        T::of((i as u64 + 1).wrapping_mul(0x9e37_79b9_7f4a_7c15))
    }

    impl<T: Word> Lent<T> {
        pub fn garbage(len: usize) -> Self {
            let from = GUARD + len % 8;
            let mut all = vec![T::default(); from + len + GUARD];
            let end = all.len();
            if len <= LONG {
                all.iter_mut().enumerate().for_each(|(i, x)| *x = guard(i));
            } else {
                for i in (0..2 * GUARD).chain(end - 2 * GUARD..end) {
                    all[i] = guard(i);
                }
            }
            Lent { all, from, len }
        }
        pub fn copy(from: &[T]) -> Self {
            let mut lent = Self::garbage(from.len());
            lent.inside().copy_from_slice(from);
            lent
        }
        pub fn inside(&mut self) -> &mut [T] {
            &mut self.all[self.from..self.from + self.len]
        }
        pub fn see(&self) -> &[T] {
            &self.all[self.from..self.from + self.len]
        }
        /// What memory holds now, whatever the compiler takes a callee to leave alone.
        fn now(&self, i: usize) -> T {
            unsafe { std::ptr::read_volatile(&self.all[i]) }
        }
        fn guarded(&self) -> bool {
            (0..self.from).chain(self.from + self.len..self.all.len()).all(|i| self.now(i) == guard(i))
        }
        fn check_input(&self, name: &str, was: &[T]) -> Result<(), String> {
            let same =
                if was.len() <= LONG { was.iter().enumerate().all(|(i, x)| self.now(self.from + i) == *x) } else { self.see() == was };
            if !self.guarded() || !same {
                return Err(format!("{}: an input was written", name));
            }
            Ok(())
        }
        /// The reported part, where all else is as promised.
        fn check_output(&self, name: &str, reported: u64) -> Result<Vec<T>, String> {
            if !self.guarded() {
                return Err(format!("{}: written outside", name));
            }
            let reported = reported as usize;
            if reported > self.see().len() {
                return Err(format!("{}: {} reported, {} lent", name, reported, self.see().len()));
            }
            let (head, tail) = self.see().split_at(reported);
            let zeros = [T::default(); 4096];
            for (i, part) in tail.chunks(zeros.len()).enumerate() {
                if part != &zeros[..part.len()] {
                    let at = part.iter().position(|x| *x != T::default()).unwrap_or(0);
                    return Err(format!("{}: not zero at {}", name, reported + i * zeros.len() + at));
                }
            }
            Ok(head.to_vec())
        }
    }

    impl Host {
        pub const LINKED: bool = true;
        pub const NAME: &'static str = if cfg!(fake) { "FAKE port (the plain reading again)" } else { "port" };

        /// The port's answer to a case, or what it did to lent memory that it must not.
        pub fn call(&mut self, case: &Case) -> Option<Result<Answered, String>> {
            if !port_has(case) {
                return None;
            }
            self.calls += 1;
            Some(match case.entry {
                Entry::Events => time_rule_checked(case),
                Entry::Written | Entry::Back => filled_checked(case),
                _ => reading_checked(case),
            })
        }
    }

    /// Has the port what the case asks of document 02's requests? A request's landing takes its line away here, and hands on what the
    /// call is then lent.
    fn port_has(_case: &Case) -> bool {
        let not_there_yet: [bool; 0] = [];
        !not_there_yet.contains(&true)
    }

    /// The seven lists, each between guards.
    struct LentTables {
        kinds: Lent<u8>,
        refs: Lent<u32>,
        vecs: Lent<u32>,
        mins: Lent<u32>,
        maxs: Lent<u32>,
        states: Lent<u8>,
        vec_refs: Lent<u32>,
    }

    impl LentTables {
        fn copy(t: &crate::plain::Tables) -> Self {
            LentTables {
                kinds: Lent::copy(&t.kinds),
                refs: Lent::copy(&t.refs),
                vecs: Lent::copy(&t.vecs),
                mins: Lent::copy(&t.mins),
                maxs: Lent::copy(&t.maxs),
                states: Lent::copy(&t.states),
                vec_refs: Lent::copy(&t.vec_refs),
            }
        }

        fn see(&self) -> Tables<'_> {
            Tables {
                kinds: self.kinds.see(),
                refs: self.refs.see(),
                vecs: self.vecs.see(),
                mins: self.mins.see(),
                maxs: self.maxs.see(),
                states: self.states.see(),
                vec_refs: self.vec_refs.see(),
            }
        }

        fn check(&self, t: &crate::plain::Tables) -> Result<(), String> {
            self.kinds.check_input("kinds", &t.kinds)?;
            self.refs.check_input("refs", &t.refs)?;
            self.vecs.check_input("vecs", &t.vecs)?;
            self.mins.check_input("mins", &t.mins)?;
            self.maxs.check_input("maxs", &t.maxs)?;
            self.states.check_input("states", &t.states)?;
            self.vec_refs.check_input("vec_refs", &t.vec_refs)
        }
    }

    /// The entries with tables, an input and one output.
    fn filled_checked(case: &Case) -> Result<Answered, String> {
        let (tables, input) = (LentTables::copy(&case.tables), Lent::copy(&case.input));
        let mut out = Lent::<u8>::garbage(case.rooms.events);
        let call = if case.entry == Entry::Written { write_sections } else { read_back };
        let answer = call(&tables.see(), case.big, input.see(), out.inside());
        let checked = || {
            tables.check(&case.tables)?;
            input.check_input("input", &case.input)?;
            out.check_output("out", answer.events)
        };
        let events = checked().map_err(|e| format!("{}; {:?}", e, answer))?;
        Ok(Answered { answer, events, values: vec![] })
    }

    fn time_rule_checked(case: &Case) -> Result<Answered, String> {
        let mut input = Lent::copy(&case.input);
        let mut values = Lent::copy(&case.values);
        let mut kept = Lent::<u8>::garbage(case.rooms.events);
        let answer = time_rule(input.inside(), values.inside(), kept.inside());
        let checked = || {
            input.check_input("events", &case.input)?;
            values.check_input("values", &case.values)?;
            kept.check_output("kept", answer.events)
        };
        let events = checked().map_err(|e| format!("{}; {:?}", e, answer))?;
        Ok(Answered { answer, events, values: vec![] })
    }

    fn reading_checked(case: &Case) -> Result<Answered, String> {
        let t = &case.tables;
        let r = &case.rooms;
        let (lists, input) = (LentTables::copy(t), Lent::copy(&case.input));
        let (mut events, mut values, mut room) =
            (Lent::<u8>::garbage(r.events), Lent::<u8>::garbage(r.values), Lent::<u8>::garbage(r.room));
        let (mut list, mut flat) = (Lent::<u32>::garbage(r.list), Lent::<u32>::garbage(r.flat));
        let tables = lists.see();
        // The three bytes after a state belong to no field: garbage.
        let lends = case.entry == Entry::Lent;
        let state = |v: usize| u32::from_le_bytes([t.states[v], 0xa5, 0x5a, v as u8]);
        let count = if lends { t.mins.len() } else { 0 };
        let numbers: Vec<u32> = (0..count).flat_map(|v| [t.mins[v], t.maxs[v], state(v), t.vec_refs[v]]).collect();
        let records = Lent::copy(&numbers);
        let vectors = unsafe { std::slice::from_raw_parts(records.see().as_ptr() as *const Vector, count) };
        let out = Out { events: events.inside(), values: values.inside(), room: room.inside(), list: list.inside() };
        let answer = match case.entry {
            Entry::Sections => read_sections(&tables, case.big, case.modes, input.see(), out),
            Entry::Changes => read_changes(&tables, input.see(), out),
            _ => read_sections_lent(&tables, vectors, flat.inside(), case.big, input.see(), out),
        };
        let checked = || {
            lists.check(t)?;
            input.check_input("input", &case.input)?;
            records.check_input("vectors", &numbers)?;
            room.check_output("room", 0)?;
            list.check_output("list", 0)?;
            if lends {
                flat.check_output("flat", 0)?;
            }
            Ok((events.check_output("events", answer.events)?, values.check_output("values", answer.values)?))
        };
        let (events, values) = checked().map_err(|e: String| format!("{}; {:?}", e, answer))?;
        Ok(Answered { answer, events, values })
    }
}

#[cfg(dropin)]
pub use linked::bench;
#[cfg(port)]
pub use linked::{read_back, read_changes, read_sections, time_rule, write_sections, Out, Tables};
