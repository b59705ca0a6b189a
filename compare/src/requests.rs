//! Document 02's requests, each in a file of its own: inputs with chosen answers (`compare/requests`), and laws that the plain
//! reading's answers are held to on random inputs and on real files. A law leads back to cases that all sides are put to.
use crate::cases::{self, answer_text, hex, Case, Entry};
use crate::gen::{self, Rng};
use crate::host::Host;
use crate::judge::{judge, plain_outcome, sides};
use crate::plain::{self, Outcome, Tables};
use crate::readings::real_files;
use crate::runs::{Go, Session};

pub mod w03;

pub struct Request {
    pub name: &'static str,
    /// Inputs with chosen answers.
    pub stored: &'static str,
    /// Some cases over random tables.
    pub random: fn(&mut Session, &mut Rng, &Tables) -> Go,
    /// What a reading of a real file is asked.
    pub real: fn(&Case) -> Vec<Case>,
    /// What must hold of the outcome of a case that is this request's; nothing is said of others.
    pub laws: fn(&Case, &Outcome, &mut Host) -> Result<(), String>,
}

const ALL: &[Request] = &[w03::REQUEST];

pub fn laws(case: &Case, outcome: &Outcome, host: &mut Host) -> Result<(), String> {
    ALL.iter().try_for_each(|request| (request.laws)(case, outcome, host))
}

/// A case's outcome, where all sides have it.
fn put(case: &Case, host: &mut Host) -> Result<Outcome, String> {
    let plain = plain_outcome(case);
    match sides(case, &plain, host).difference {
        Some(text) => Err(format!("then\n{}{}", case.text(), text)),
        None => Ok(plain),
    }
}

fn must(good: bool, what: &str, of: &Outcome) -> Result<(), String> {
    if good {
        return Ok(());
    }
    Err(format!("{}: {:?}, bytes {}, values {}", what, of.answer, hex(&of.events), hex(&of.values)))
}

/// The records of an event stream.
fn records(events: &[u8]) -> Vec<&[u8]> {
    let mut out = vec![];
    let mut rest = events;
    while !rest.is_empty() {
        let (record, after) = rest.split_at(plain::event_length(rest[0]).expect("a made stream has known kinds"));
        out.push(record);
        rest = after;
    }
    out
}

/// An outcome as the stored inputs have it: the answer and, in brackets, what was made.
fn shown(case: &Case, outcome: &Outcome) -> String {
    let answer = answer_text(&outcome.answer, &[]);
    let made = match case.entry {
        Entry::Sections | Entry::Changes => plain::lines(&outcome.events, &outcome.values).trim_end().replace('\n', "|"),
        _ => hex(&outcome.events),
    };
    if made.is_empty() {
        answer
    } else {
        format!("{} ({})", answer, made)
    }
}

/// Chosen answers leave out what is in brackets where it isn't the point.
fn chosen(got: &str, want: &str) -> bool {
    got == want || !want.contains('(') && got.split(" (").next() == Some(want)
}

/// How many inputs are stored, and how many of them are answered otherwise.
fn stored(request: &Request, host: &mut Host) -> (usize, usize) {
    let all = cases::parse(request.stored).expect("the stored inputs are well formed");
    let mut bad = 0;
    for named in &all {
        let want = named.want.clone().expect("a stored input has its answer");
        let got = shown(&named.case, &plain_outcome(&named.case));
        let difference = judge(&named.case, host).difference;
        if !chosen(&got, &want) || difference.is_some() {
            bad += 1;
            println!("{}\n  chosen {}\n  got    {}\n{}", named.name, want, got, difference.unwrap_or_default());
        }
    }
    (all.len(), bad)
}

fn random(request: &Request, s: &mut Session, seed: u64, inputs: u64) -> Go {
    let mut rng = Rng::new(seed ^ 0x3032 << 40);
    while s.summary().0 < inputs {
        let blocks = rng.pick(&[1, 2, 3, 4, 6, 9]);
        let t = gen::tables(&mut rng, blocks);
        (request.random)(s, &mut rng, &t)?;
    }
    Ok(())
}

pub fn requests(seed: u64, inputs: u64, samples: Option<&str>) -> bool {
    let mut good = true;
    let files = samples.map_or(Ok(vec![]), real_files).unwrap_or_else(|text| {
        println!("{}", text);
        good = false;
        vec![]
    });
    for request in ALL {
        let (all, bad) = stored(request, &mut Host::default());
        let mut s = Session::default();
        let ended = random(request, &mut s, seed, inputs);
        let (count, answers) = s.summary();
        println!("{}: {} inputs with chosen answers, {} otherwise; {} random ones: {}", request.name, all, bad, count, answers);
        let mut s = Session::default();
        let real = files.iter().flat_map(|file| (request.real)(file)).try_for_each(|case| s.put(&case));
        if !files.is_empty() {
            println!("  of {} real files: {}", files.len(), s.summary().1);
        }
        good &= bad == 0 && ended.is_ok() && real.is_ok();
    }
    println!("{}", if good { "no difference" } else { "DIFFERENCE" });
    good
}
