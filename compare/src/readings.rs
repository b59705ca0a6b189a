//! Inputs with chosen answers, real files, and single cases shown at length.
use crate::cases::{self, answer_text, outcome_text, Case, Entry, Named};
use crate::circle;
use crate::host::Host;
use crate::judge::{crate_answer, crate_run, judge, plain_outcome, render};
use crate::plain::{self, Tables};

fn checked(named: &Named, host: &mut Host) -> Result<(), String> {
    let want = named.want.clone().unwrap_or_default();
    if named.listing {
        let got = plain::listing(&named.case.input).trim_end().replace('\n', "|");
        return if got == want { Ok(()) } else { Err(got) };
    }
    let outcome = plain_outcome(&named.case);
    // Of the entries with one output its bytes are shown.
    let got = if named.case.entry.circle() { answer_text(&outcome.answer, &outcome.events) } else { outcome_text(&outcome) };
    if got != want {
        return Err(got);
    }
    match judge(&named.case, host).difference {
        Some(text) => Err(text),
        None => Ok(()),
    }
}

pub fn readings() -> bool {
    let all = cases::parse(include_str!("../readings.txt")).expect("readings.txt is well formed");
    let mut host = Host::default();
    let mut bad = 0;
    for named in &all {
        if let Err(got) = checked(named, &mut host) {
            bad += 1;
            println!("{}\n  chosen {}\n  got    {}", named.name, named.want.clone().unwrap_or_default(), got);
        }
    }
    println!("{} inputs with chosen answers, {} otherwise", all.len(), bad);
    bad == 0
}

/// The lines that the crate's calls make, as the listing prints them.
fn crate_lines(t: &Tables, big: bool, sections: &[u8]) -> Result<String, String> {
    let case = Case { big, rooms: plain::LISTING_ROOMS, ..Case::new(Entry::Sections, t, sections.to_vec()) };
    let run = wellen_release::drive::sections(t, big, sections);
    let (answer, events, values) = crate_answer(&run, &case)?;
    Ok(plain::lines(&events, &values) + &plain::verdict(&answer))
}

fn sample(dir: &str, name: &str) -> Result<String, String> {
    let read = |what: &str| std::fs::read(format!("{}/{}.{}", dir, name, what)).map_err(|e| format!("{}.{}: {}", name, what, e));
    let (input, output, file) = (read("listing-in")?, read("listing-out")?, read("ghw")?);
    let (t, big, from) = plain::preamble(&input).map_err(|r| format!("preamble: {:?}", r))?;
    let sections = &input[from..];
    // The section bytes are the file's own, from the end of its header on.
    if !file.ends_with(&[b"EOH\0", sections].concat()) {
        return Err("the section bytes aren't those after the file's EOH mark".to_string());
    }
    let output = String::from_utf8_lossy(&output).to_string();
    for (who, lines) in [("plain", plain::listing(&input)), ("the crate", crate_lines(&t, big, sections)?)] {
        if lines != output {
            let at = lines.lines().zip(output.lines()).position(|(a, b)| a != b);
            return Err(format!("{}: other lines, first at {:?}", who, at));
        }
    }
    let case = Case { big, rooms: plain::LISTING_ROOMS, ..Case::new(Entry::Sections, &t, sections.to_vec()) };
    let mut host = Host::default();
    if let Some(text) = judge(&case, &mut host).difference {
        return Err(text);
    }
    let cut = plain::cut(&t, big, sections).map_err(|r| format!("sections: {:?}", r))?;
    let cycle_bytes = circle::cycles(&t, big, &cut, &mut host)?;
    Ok(format!(
        "{} signals, {} vectors, {} section bytes, {} lines, {} bytes of cycle sections read back and written as they are",
        t.kinds.len(),
        t.mins.len(),
        sections.len(),
        output.lines().count(),
        cycle_bytes
    ))
}

/// The names of the real files of a folder.
fn names(dir: &str) -> Result<Vec<String>, String> {
    let entries = std::fs::read_dir(dir).map_err(|e| format!("{}: {}", dir, e))?;
    let name = |e: std::fs::DirEntry| e.file_name().to_str().and_then(|n| n.strip_suffix(".listing-in")).map(String::from);
    let mut names: Vec<String> = entries.flatten().filter_map(name).collect();
    names.sort();
    Ok(names)
}

/// Each real file of a folder as a case of section reading, rooms ample.
pub fn real_files(dir: &str) -> Result<Vec<Case>, String> {
    let file = |name: &String| {
        let input = std::fs::read(format!("{}/{}.listing-in", dir, name)).map_err(|e| format!("{}: {}", name, e))?;
        let (t, big, from) = plain::preamble(&input).map_err(|r| format!("{}: preamble: {:?}", name, r))?;
        Ok(Case { big, ..Case::new(Entry::Sections, &t, input[from..].to_vec()) })
    };
    names(dir)?.iter().map(file).collect()
}

pub fn samples(dir: &str) -> bool {
    let names = match names(dir) {
        Ok(names) => names,
        Err(text) => {
            println!("{}", text);
            return false;
        }
    };
    let mut good = !names.is_empty();
    for name in names {
        match sample(dir, &name) {
            Ok(text) => println!("{}: {}, the same from plain and from the crate", name, text),
            Err(text) => {
                good = false;
                println!("{}: {}", name, text);
            }
        }
    }
    good
}

/// What each side says of each case of a file.
pub fn cases(file: &str) -> bool {
    let text = match std::fs::read_to_string(file) {
        Ok(text) => text,
        Err(e) => {
            println!("{}: {}", file, e);
            return false;
        }
    };
    let all = match cases::parse(&text) {
        Ok(all) => all,
        Err(e) => {
            println!("{}", e);
            return false;
        }
    };
    let mut good = true;
    for named in all {
        if named.listing {
            println!("{}\n{}", named.name, plain::listing(&named.case.input));
            continue;
        }
        let case = &named.case;
        let plain = plain_outcome(case);
        println!("{}\n  plain                 {}", named.name, outcome_text(&plain));
        if !case.entry.circle() && (plain.answer.number == 0 || plain.answer.number >= 7) {
            for (who, run) in [("the crate           ", crate_run(case, false)), ("the crate, checks on", crate_run(case, true))] {
                let said = crate_answer(&run, case).map_or_else(|e| e, |(a, _, v)| answer_text(&a, &v));
                let made = render(&run, run.calls.len(), case);
                let values = if case.entry == Entry::Events { &case.values } else { &made.values };
                let lines = plain::lines(&made.events, values).trim_end().replace('\n', "|");
                println!("  {}  {}; {}", who, said, lines);
            }
        }
        let mut host = Host::default();
        if let Some(answered) = host.call(case) {
            println!("  the port              {}", answered.map_or_else(|e| e, |a| answer_text(&a.answer, &a.values)));
        }
        match judge(case, &mut host) {
            v if v.difference.is_some() => {
                good = false;
                println!("  DIFFERENCE");
            }
            v => println!("  {}", v.named.unwrap_or("no difference")),
        }
    }
    good
}
