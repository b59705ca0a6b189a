//! Names and values held to GHDL's own VCD of the same run: the stored recording of `samples/names.vhd`, and, where
//! `ghdl` is at hand, a new one.
use doorquill::ghw::{open, Relation, Signal, Trace, Values};
use doorquill::{read_sections, Event, States};
use std::collections::BTreeMap;
use std::fs;
use std::path::{Path, PathBuf};
use std::process::Command;

/// A variable's values over time, as text; a time's last value alone, and no value that is the one before.
type History = Vec<(u64, String)>;

fn settled(changes: impl IntoIterator<Item = (u64, String)>) -> History {
    let mut history: History = vec![];
    for (time, value) in changes {
        match history.last_mut() {
            Some((last, shown)) if *last == time => *shown = value,
            _ => history.push((time, value)),
        }
    }
    history.dedup_by(|next, before| next.1 == before.1);
    history
}

/// What a VCD file declares: a path, with the code and the width of a variable, or none where GHDL leaves the signal
/// out.
struct Declared {
    path: String,
    variable: Option<(String, usize)>,
}

fn parse_vcd(text: &str) -> (Vec<Declared>, BTreeMap<String, History>) {
    let (mut scopes, mut declared, mut changes) = (vec![], vec![], BTreeMap::<String, Vec<(u64, String)>>::new());
    let mut time = 0;
    for line in text.lines() {
        let words: Vec<&str> = line.split_whitespace().collect();
        let path = |scopes: &Vec<&str>, name: &str| [&scopes[..], &[name]].concat().join(".");
        match words[..] {
            ["$scope", _, name, "$end"] => scopes.push(name),
            ["$upscope", "$end"] => drop(scopes.pop()),
            ["$var", _, width, code, name, "$end"] => {
                let name = name.split('[').next().unwrap();
                let variable = Some((code.to_string(), width.parse().unwrap()));
                declared.push(Declared { path: path(&scopes, name), variable });
            }
            ["$comment", name, "is", "not", "handled", "$end"] => {
                declared.push(Declared { path: path(&scopes, name), variable: None });
            }
            [word] if word.starts_with('#') => time = word[1..].parse().unwrap(),
            [value, code] if value.starts_with(|c| c == 'b' || c == 'r') => {
                changes.entry(code.to_string()).or_default().push((time, value[1..].to_string()));
            }
            // a line of two letters is a value
            [word] if word.len() == 2 => {
                changes.entry(word[1..].to_string()).or_default().push((time, word[..1].to_string()));
            }
            _ => {}
        }
    }
    (declared, changes.into_iter().map(|(code, changes)| (code, settled(changes))).collect())
}

/// The histories of all references, each value as the bits that VCD writes.
fn histories(trace: &Trace) -> BTreeMap<u32, Vec<(u64, String)>> {
    let reading = read_sections(trace.tables(), trace.big_endian(), trace.sections()).unwrap().time_rule().unwrap();
    let mut widths = BTreeMap::new();
    for signal in trace.signals().filter(|signal| signal.relation() == Relation::Own) {
        widths.insert(signal.reference().unwrap(), (signal.width() as usize, signal.values()));
    }
    let mut out = BTreeMap::<u32, Vec<(u64, String)>>::new();
    let mut time = 0;
    for event in reading.events() {
        let (reference, text) = match event {
            Event::Time(now) => {
                time = now;
                continue;
            }
            Event::Real { reference, value } => (reference, value.to_string()),
            Event::Value { reference, states, bytes } => {
                let (width, values) = &widths[&reference];
                let (bits, letters, width) = match (states, values) {
                    (States::Nine, _) => (4, "01XZHUWL-", *width),
                    (States::Two, Values::TwoState) => (1, "01", *width),
                    (States::Two, Values::Enumeration) => (1, "01", 8),
                    (States::Two, _) => (1, "01", 64),
                };
                let letter = |bit: usize| {
                    let byte = bytes[bytes.len() - 1 - bit * bits / 8];
                    let state = byte >> (bit * bits % 8) & ((1 << bits) - 1);
                    letters.as_bytes()[usize::from(state)] as char
                };
                (reference, (0..width).rev().map(letter).collect())
            }
        };
        out.entry(reference).or_default().push((time, text));
    }
    out
}

/// A signal's history: its own, or what it shows of a vector's.
fn history(signal: Signal, all: &BTreeMap<u32, Vec<(u64, String)>>) -> History {
    let of = match signal.relation() {
        Relation::Slice(of) | Relation::Bit(of) => of,
        _ => signal,
    };
    let whole = &all[&of.reference().unwrap()];
    let part = |text: &String| match signal.bits() {
        Some((high, low)) => {
            let end = text.len() - low as usize;
            text[end - 1 - (high - low) as usize..end].to_string()
        }
        None => text.clone(),
    };
    settled(whole.iter().map(|(time, text)| (*time, part(text))))
}

/// VCD's text of a value and ours, in one form.
fn same_form(values: &Values, text: &str) -> String {
    match values {
        Values::Real => text.parse::<f64>().unwrap().to_string(),
        // 32 bits in VCD, without leading zeros; 64 here
        Values::Integer => {
            let bits = u64::from_str_radix(text, 2).unwrap();
            (bits as u32 as i32).to_string()
        }
        Values::Enumeration => text.trim_start_matches('0').to_string(),
        _ => text.to_string(),
    }
}

/// Holds a recording to the VCD of the same run; how many variables were compared.
fn compare(ghw: &[u8], vcd: &str) -> usize {
    let trace = open(ghw).unwrap();
    let (declared, vcd) = parse_vcd(vcd);
    let ours = histories(&trace);
    let mut compared = 0;
    let mut unnamed = BTreeMap::<String, usize>::new();
    let mut covered = vec![false; trace.signals().count()];
    for Declared { path, variable } in declared {
        // GHDL's VCD does not name the index of a generate over an enumeration: the turns come in order
        let candidates: Vec<Signal> = match path.split_once("(?)") {
            None => trace.find(&path).into_iter().collect(),
            Some((start, end)) => {
                let fits = |path: String| path.starts_with(&format!("{start}(")) && path.ends_with(&format!("){end}"));
                trace.signals().filter(|signal| fits(signal.path())).collect()
            }
        };
        let turn = unnamed.entry(path.clone()).or_default();
        let signal = candidates.get(*turn).copied();
        *turn += 1;
        let (code, width) = match variable {
            Some(variable) => variable,
            None => {
                let parts: Vec<Signal> = signal.into_iter().chain(trace.elements(&path)).collect();
                assert!(!parts.is_empty(), "{path} is in the VCD alone");
                parts.iter().for_each(|part| covered[part.number()] = true);
                continue;
            }
        };
        let signal = signal.unwrap_or_else(|| panic!("{path} is in the VCD alone"));
        covered[signal.number()] = true;
        let values = signal.values();
        let wanted = match values {
            Values::Integer => 32,
            Values::Real => 64,
            _ => signal.width() as usize,
        };
        assert_eq!(width, wanted, "{path}");
        let form =
            |history: History| settled(history.into_iter().map(|(time, text)| (time, same_form(&values, &text))));
        assert_eq!(form(history(signal, &ours)), form(vcd[&code].clone()), "{path}");
        compared += 1;
    }
    let left: Vec<String> =
        trace.signals().filter(|signal| !covered[signal.number()]).map(|signal| signal.path()).collect();
    assert!(left.is_empty(), "not in the VCD: {left:?}");
    compared
}

fn samples() -> PathBuf {
    Path::new(env!("CARGO_MANIFEST_DIR")).join("../samples")
}

#[test]
fn the_stored_recording() {
    let ghw = fs::read(samples().join("names.ghw")).unwrap();
    let vcd = fs::read_to_string(samples().join("names.vcd")).unwrap();
    assert_eq!(compare(&ghw, &vcd), 32);
}

#[test]
fn a_new_recording() {
    let folder = std::env::temp_dir().join(format!("doorquill-names-{}", std::process::id()));
    fs::create_dir_all(&folder).unwrap();
    let ghdl = |args: &[&str]| Command::new("ghdl").args(args).current_dir(&folder).output();
    if !ghdl(&["--version"]).map_or(false, |output| output.status.success()) {
        println!("no ghdl here: the stored recording alone was compared");
        fs::remove_dir_all(&folder).unwrap();
        return;
    }
    let source = samples().join("names.vhd").canonicalize().unwrap();
    for args in [
        &["-a", "--std=08", source.to_str().unwrap()][..],
        &["-e", "--std=08", "names"],
        &["-r", "--std=08", "names", "--wave=names.ghw", "--vcd=names.vcd", "--stop-time=80ns"],
    ] {
        let output = ghdl(args).unwrap();
        assert!(output.status.success(), "ghdl {args:?}: {}", String::from_utf8_lossy(&output.stderr));
    }
    let ghw = fs::read(folder.join("names.ghw")).unwrap();
    let vcd = fs::read_to_string(folder.join("names.vcd")).unwrap();
    fs::remove_dir_all(&folder).unwrap();
    assert_eq!(compare(&ghw, &vcd), 32);
}
