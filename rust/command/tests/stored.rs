//! The samples through every subcommand, and words for every refusal: what was written is held to what is stored.
//! `DOORQUILL_STORE=1` stores anew; the difference is then to be read.
mod common;
#[path = "../../doorquill/tests/listings/mod.rs"]
mod listings;

use common::run;
use std::fs;

/// Runs, a line of arguments each, held to one stored file: results as they are, standard error behind `!`, the status
/// behind `=`.
fn held(name: &str, lines: &[&str]) {
    let mut text = String::new();
    for line in lines {
        let line =
            line.replace("KINDS", "../samples/kinds_small.ghw").replace("REASSEMBLY", "../samples/reassembly_l12.ghw");
        let line = line.replace("NAMES", "../samples/names.ghw").replace("FILTERED", "../samples/names_filtered.ghw");
        let ran = run(&line.split_whitespace().collect::<Vec<_>>());
        text += &format!("$ doorquill {line}\n{}", ran.out);
        text += &ran.err.lines().map(|line| format!("! {line}\n")).collect::<String>();
        text += &format!("= {}\n", ran.status);
    }
    let file = format!("tests/stored/{name}.txt");
    if std::env::var_os("DOORQUILL_STORE").is_some() {
        fs::write(&file, &text).unwrap();
    }
    let stored = fs::read_to_string(&file).unwrap_or_default();
    let difference = text.lines().zip(stored.lines()).find(|(now, then)| now != then);
    assert_eq!(difference, None, "{file}: a line now, and as it is stored");
    assert_eq!(text.lines().count(), stored.lines().count(), "{file}");
}

#[test]
fn signals() {
    held(
        "signals",
        &[
            "signals KINDS",
            "signals REASSEMBLY",
            "signals NAMES",
            "signals FILTERED",
            "signals KINDS lv",
            "signals NAMES *.u.?lk",
            "signals NAMES HUES(red)",
            "signals REASSEMBLY --json",
            "signals FILTERED --json",
            "signals KINDS strobe",
        ],
    );
}

#[test]
fn events() {
    held(
        "events",
        &[
            "events KINDS",
            "events NAMES",
            "events FILTERED",
            "events REASSEMBLY --from 1190ns",
            "events REASSEMBLY --signal reassembly.l12.s_frag --from 20ns --to 50ns",
            "events REASSEMBLY --signal reassembly.l12.state --signal reassembly.l12.s_bv --to 30000ps",
            "events NAMES --signal names.lanes(1).whole.u.data --json",
            "events NAMES --signal names.yes --signal names.one --signal names.lanes(0).part.u.bit0",
            "events REASSEMBLY --signal reassembly.l12.s_frag --from 1ms",
            "events REASSEMBLY --raw --signal reassembly.l12.s_slv --from 1200ns",
        ],
    );
}

#[test]
fn fragments() {
    let three = "--session reassembly.l12.s_bv --strobe reassembly.l12.s_frag --close reassembly.l12.s_close";
    let lines = [
        format!("fragments REASSEMBLY {three}"),
        format!("fragments REASSEMBLY {three} --json"),
        format!("fragments REASSEMBLY {three} --at 12ns"),
        format!("fragments REASSEMBLY {three} --at 25ns"),
        format!("fragments REASSEMBLY {three} --at 0"),
        format!("fragments REASSEMBLY {three} --at 2ms"),
        format!("fragments REASSEMBLY {three} --at 12ns --json"),
        format!("fragments REASSEMBLY {three} --at 25ns --json"),
        "fragments REASSEMBLY --session reassembly.l12.state --strobe reassembly.clk --close reassembly.l12.s_close"
            .into(),
        "fragments KINDS --session kinds.bv8 --strobe kinds.b --close kinds.bool".into(),
        "fragments KINDS --session kinds.lv8 --strobe kinds.b --close kinds.bool --as-bits".into(),
        "fragments NAMES --session names.word --strobe names.clk --close names.yes --as-bits".into(),
        "fragments NAMES --session names.word --strobe names.clk --close names.yes --as-bits --at 15ns".into(),
        "fragments NAMES --session names.word --strobe names.clk --close names.yes --as-bits --json".into(),
    ];
    held("fragments", &lines.iter().map(String::as_str).collect::<Vec<_>>());
}

#[test]
fn check() {
    held(
        "check",
        &[
            "check KINDS",
            "check REASSEMBLY",
            "check NAMES",
            "check FILTERED",
            "check NAMES --json",
            "check NAMES --salvage",
        ],
    );
}

#[test]
fn explain() {
    let numbers: Vec<String> = (1..=23).chain([34]).map(|number| format!("explain {number}")).collect();
    let mut lines = vec!["explain", "explain 14 --json", "explain 0", "explain 24", "explain 256", "explain value"];
    lines.extend(numbers.iter().map(String::as_str));
    held("explain", &lines);
}

/// No quiet zero: a name that cannot give an answer is refused in words.
#[test]
fn names() {
    let with = |session: &str, strobe: &str, close: &str| {
        format!("fragments NAMES --session {session} --strobe {strobe} --close {close}")
    };
    let lines = [
        "events REASSEMBLY --signal reassembly.l12.s_frog".into(),
        "events REASSEMBLY --signal s_frag".into(),
        "events REASSEMBLY --signal Reassembly.L12.S_Frag --to 12ns".into(),
        "events REASSEMBLY --signal reassembly.l12".into(),
        "events NAMES --signal names.r".into(),
        "events NAMES --signal names.mem".into(),
        "events NAMES --signal names.bus8(3)".into(),
        "events NAMES --signal names.none".into(),
        "events NAMES --signal names.lanes(0).part.u.data".into(),
        "events NAMES --signal names.lanes(1).whole.u.bit0".into(),
        "events FILTERED --signal names.lanes(1).whole.u.data".into(),
        "events NAMES --signal names.lanes(0).part.u.bit0".into(),
        with("names.wrod", "kit.heartbeat", "names.yes"),
        with("names.word", "kit.heartbeat", "names.levels"),
        with("names.word", "names.hue", "names.yes"),
        with("names.word", "names.clk", "names.yes"),
        with("names.bus8", "kit.heartbeat", "names.yes"),
        with("names.count", "kit.heartbeat", "names.yes"),
        with("names.level", "kit.heartbeat", "names.yes"),
        with("names.late", "kit.heartbeat", "names.yes"),
        with("names.word", "kit.heartbeat", "kit.heartbeat"),
        with("names.lanes(1).whole.u.level", "kit.heartbeat", "names.yes"),
        with("names.hue", "kit.heartbeat", "names.yes"),
    ];
    held("names", &lines.iter().map(String::as_str).collect::<Vec<_>>());
}

#[test]
fn usage() {
    held(
        "usage",
        &[
            "",
            "--version",
            "--help",
            "look KINDS",
            "signals",
            "signals ../samples/none.ghw",
            "signals ../samples",
            "signals KINDS a b",
            "signals KINDS --at 3ns",
            "signals KINDS --wide",
            "signals KINDS -x",
            "events KINDS --from",
            "events KINDS --from soon",
            "events KINDS --from 2ns --to 1ns",
            "events KINDS --from 2ns --from 1ns",
            "events KINDS --raw --json",
            "events KINDS --to 25 ns",
            "fragments KINDS --session a --strobe b",
        ],
    );
}

/// The listing program's text, line for line.
#[test]
fn raw_events_are_the_listing() {
    for (sample, _, stored) in listings::listings() {
        let ran = run(&["events", "--raw", &format!("../samples/{sample}")]);
        assert!(ran.out == stored && ran.err.is_empty() && ran.status == 0, "{sample}");
    }
}

/// The fragments program's lines, which a proved program prints of the same file.
#[test]
fn fragments_as_the_program_prints_them() {
    let three =
        ["--session", "reassembly.l12.s_bv", "--strobe", "reassembly.l12.s_frag", "--close", "reassembly.l12.s_close"];
    let ran = run(&[&["fragments", "../samples/reassembly_l12.ghw", "--json"], &three[..]].concat());
    let number = |line: &str, name: &str| -> u64 {
        let from = line.find(&format!("\"{name}\":")).unwrap() + name.len() + 3;
        line[from..].split(|c| c == ',' || c == '}').next().unwrap().parse().unwrap()
    };
    let ours: Vec<String> = ran
        .out
        .lines()
        .filter(|line| line.contains("\"fragment\""))
        .map(|line| format!("fragment {} {:08x}", number(line, "time_fs"), number(line, "session")))
        .collect();
    let stored = fs::read_to_string("../../crates/reassembly_fragments/stdout").unwrap();
    let theirs: Vec<&str> = stored.lines().filter(|line| line.starts_with("fragment")).collect();
    assert!(!ours.is_empty());
    assert_eq!(ours, theirs);
}
