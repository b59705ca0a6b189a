//! What the builds of the crate's code are asked, and what they answer: plain data, shared by all builds.
use std::cell::RefCell;

/// The signal table (id 1 first) and the vector table (number 1 first), as lists of numbers.
#[derive(Clone, Debug, Default, PartialEq, Eq)]
pub struct Tables {
    pub kinds: Vec<u8>,
    pub refs: Vec<u32>,
    pub vecs: Vec<u32>,
    pub mins: Vec<u32>,
    pub maxs: Vec<u32>,
    pub states: Vec<u8>,
    pub vec_refs: Vec<u32>,
}

#[derive(Clone, Copy, Debug, PartialEq, Eq)]
pub enum What {
    Time(u64),
    /// The value's bytes are `start..start + length` of the run's values.
    Value {
        nine: bool,
        reference: u32,
        start: usize,
        length: usize,
    },
    Real {
        reference: u32,
        bits: u64,
    },
}

/// A call that reached the encoder, and the next unread byte of the input at that moment.
#[derive(Clone, Copy, Debug)]
pub struct Call {
    pub at: usize,
    pub what: What,
}

#[derive(Clone, Debug)]
pub enum End {
    /// The reading ended well, with so many bytes read.
    Done(usize),
    /// The crate gave an error that is this refusal at this place.
    Failed { number: u64, place: usize },
    /// The crate gave an error that stands for no place: its id sum came to 0 modulo 2^64.
    FirstDelta { at: usize },
    /// The crate panicked; the refusal that its line stands for (0: none), and the next unread byte.
    Panicked { number: u64, at: usize, text: String },
    /// A house record that the crate has no counterpart for stands here.
    NotAsked { at: usize },
}

#[derive(Clone, Debug)]
pub struct Run {
    pub calls: Vec<Call>,
    pub values: Vec<u8>,
    pub end: End,
}

#[derive(Clone, Debug, Default)]
pub struct Panic {
    pub file: String,
    pub line: u32,
    pub message: String,
}

thread_local! {
    /// Some while a build of the crate is being asked: its panics are kept and not printed.
    pub static PANIC: RefCell<Option<Panic>> = RefCell::new(None);
}

/// Panics of the crate are answers here; every other one is printed as usual.
pub fn catch_panics() {
    let usual = std::panic::take_hook();
    std::panic::set_hook(Box::new(move |info| {
        let asked = PANIC.with(|kept| match kept.try_borrow_mut() {
            Ok(mut kept) if kept.is_some() => {
                let message = match (info.payload().downcast_ref::<&str>(), info.payload().downcast_ref::<String>()) {
                    (Some(text), _) => text.to_string(),
                    (_, Some(text)) => text.clone(),
                    _ => String::new(),
                };
                let (file, line) = info.location().map_or((String::new(), 0), |l| (l.file().to_string(), l.line()));
                *kept = Some(Panic { file, line, message });
                true
            }
            _ => false,
        });
        if !asked {
            usual(info);
        }
    }));
}

/// Asks the crate; a panic comes back as what the hook kept of it.
pub fn ask<T>(question: impl FnOnce() -> T) -> Result<T, Panic> {
    PANIC.with(|kept| *kept.borrow_mut() = Some(Panic::default()));
    let answer = std::panic::catch_unwind(std::panic::AssertUnwindSafe(question));
    let kept = PANIC.with(|kept| kept.borrow_mut().take()).unwrap_or_default();
    answer.map_err(|_| kept)
}
