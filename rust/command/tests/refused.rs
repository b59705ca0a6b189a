//! Files that are refused: in which words, and what is done about them.
mod common;
#[path = "../../doorquill/tests/ghw_builder/mod.rs"]
mod ghw_builder;

use common::{sample, Temporary};
use doorquill::ghw;
use ghw_builder::{signed, unsigned, File};

/// `rbc`, with a clock and a session of two bits; and document 01's worked example as its sections.
fn small() -> File {
    let mut file = File::new();
    let array = file.array("bit_vector", 1);
    let two = file.bound("", array, 1, &[]);
    let state = file.enumeration("state", &["idle"]);
    file.instance("rbc");
    file.fresh("clk", 2, 1);
    file.fresh("session", two, 2);
    file.fresh("state", state, 1);
    file.end();
    let parts: [&[u8]; 6] = [
        b"SNP\0\0\0\0\0\0\0\0\0\0\0\0\0",
        &[3, 1, 0, 0],
        b"ESN\0CYC\0\x0a\0\0\0\0\0\0\0",
        &[3, 1, 0, 5, 1, 4, 0, 0x7f],
        b"ECY\0",
        b"TAI\0\0\0\0\0\0\0\0\0",
    ];
    file.sections = parts.concat();
    file
}

/// The refusal of the example with some bytes at a place of its sections replaced.
fn refused(place: usize, bytes: &[u8]) -> String {
    let mut file = small();
    file.sections.splice(place.., bytes.iter().copied());
    let ran = Temporary::new(&format!("refused-{place}-{}", bytes.len()), &file.bytes()).run("check", &[]);
    assert_eq!((ran.out.as_str(), ran.status), ("", 1));
    ran.err
}

fn lines(text: &str) -> Vec<&str> {
    text.lines().collect()
}

#[test]
fn the_form_of_a_refusal() {
    let start = small().bytes().len() - small().sections.len();
    let text = refused(16, &[9, 1, 0, 0]);
    let wanted = [
        "FILE: refused (14): a value out of its kind's range".to_string(),
        format!("  byte {} of the file, 16 of the sections: 09, for rbc.clk (std_ulogic takes 0 to 8)", start + 16),
        format!("  {:08x}  00 00 00 00 [09] 01 00 00", start + 12),
        "  in step 1, at 0 fs".to_string(),
    ];
    assert_eq!(lines(&text), wanted);
    let text = refused(17, &[2]);
    assert!(
        lines(&text)[1].ends_with("17 of the sections: 02, for bit 1 of rbc.session (each bit takes 0 and 1)"),
        "{text}"
    );
}

/// Each number that a file's sections can be refused with.
#[test]
fn every_number_of_the_sections() {
    let cycle = [b"CYC\0", &[0; 8][..]].concat();
    let with = |more: &[u8]| [&cycle[..], more].concat();
    let long = [vec![0x80; 9], vec![2]].concat();
    for (number, bytes, place, said) in [
        (7, b"SN".to_vec(), 0, "a section's mark"),
        (8, b"XXX\0".to_vec(), 0, "a section's mark"),
        (9, b"SNP\0\x01\0\0\0\0\0\0\0\0\0\0\0".to_vec(), 4, "a snapshot's head"),
        (10, with(b"\0\x7fXXX\0"), 14, "a cycle's end mark"),
        (11, b"DIR\0\0\0\0\0\xff\xff\xff\xff".to_vec(), 8, "the directory's head"),
        (12, with(&long), 12, "a change's id"),
        (13, with(&[5, 0]), 12, "a step from id 0 to one past the last, 4"),
        (14, with(&[1, 9]), 13, "for rbc.clk"),
        (15, [b"CYC\0", &[0xff; 8][..], &[0, 1]].concat(), 13, "a time's delta"),
    ] {
        let text = refused(0, &bytes);
        let head = format!("FILE: refused ({number}): ");
        assert!(text.starts_with(&head) && text.len() > head.len() + 10, "{text}");
        let second = lines(&text)[1];
        assert!(second.contains(&format!(", {place} of the sections: ")) && second.contains(said), "{text}");
        assert!(lines(&text)[2].contains('['), "{text}");
    }
}

#[test]
fn a_step_and_its_time_are_named() {
    let text = refused(41, &[9]);
    assert_eq!(lines(&text)[3], "  in step 3, at 15 fs", "{text}");
}

#[test]
fn files_that_end_too_early() {
    let whole = small();
    let cut = |length: usize, more: &[&str]| {
        let mut file = whole.clone();
        file.sections.truncate(length);
        Temporary::new(&format!("cut-{length}-{}", more.len()), &file.bytes()).run("check", more)
    };
    for (length, said, salvaged) in [
        (0, "the file ends inside a section's mark, before its first step", None),
        (9, "the file ends inside a snapshot's head, before its first step", None),
        (19, "the file ends inside step 1, at 0 fs", None),
        (22, "the file ends inside step 1, at 0 fs", Some("steps 1 to 1, up to 0 fs; left out: the last 2 bytes")),
        (
            30,
            "the file ends inside a cycle's head, behind step 1, at 0 fs",
            Some("steps 1 to 1, up to 0 fs; left out: the last 10 bytes"),
        ),
        (38, "the file ends inside step 2, at 10 fs", Some("steps 1 to 1, up to 0 fs; left out: the last 18 bytes")),
        (
            39,
            "the file ends inside a time's delta, behind step 2, at 10 fs",
            Some("steps 1 to 2, up to 10 fs; left out: the last 0 bytes"),
        ),
        (41, "the file ends inside step 3, at 15 fs", Some("steps 1 to 2, up to 10 fs; left out: the last 2 bytes")),
        (
            46,
            "the file ends inside a cycle's end mark, behind step 3, at 15 fs",
            Some("steps 1 to 3, up to 15 fs; left out: the last 3 bytes"),
        ),
        (
            55,
            "the file ends inside the tailer, behind step 3, at 15 fs",
            Some("steps 1 to 3, up to 15 fs; left out: the last 12 bytes"),
        ),
    ] {
        let plain = cut(length, &[]);
        assert_eq!(plain.status, 1);
        assert!(plain.err.starts_with("FILE: refused (7): "), "{}", plain.err);
        assert!(plain.err.contains(said) && plain.err.contains("--salvage"), "{length}: {}", plain.err);
        let ran = cut(length, &["--salvage"]);
        match salvaged {
            Some(salvaged) => {
                assert!(
                    ran.status == 0 && ran.err.contains(said) && ran.err.contains(salvaged),
                    "{length}: {}",
                    ran.err
                );
                assert!(ran.out.starts_with("FILE: cut; what was salvaged is good\n"), "{}", ran.out);
            }
            None => assert!(ran.status == 1 && ran.err.contains("no whole step is there"), "{length}: {}", ran.err),
        }
    }
    let ran = Temporary::new("damaged", &{
        let mut file = whole.clone();
        file.sections[16] = 9;
        file.bytes()
    });
    assert!(ran.run("check", &["--salvage"]).err.contains("--salvage does not help"));
}

/// What is salvaged of a cut file are the whole file's events, up to the last whole step.
#[test]
fn salvaged_events_are_the_first_of_the_whole() {
    let file = sample("reassembly_l12.ghw");
    let raw = |name: &str, bytes: &[u8]| Temporary::new(name, bytes).run("events", &["--raw", "--salvage"]);
    let whole = raw("whole", &file).out;
    let at = ghw::open(&file).unwrap().sections_at();
    let mut lengths = vec![4096];
    lengths.extend((at + 60..file.len()).step_by(61));
    for length in lengths {
        let part = raw("part", &file[..length]);
        let (events, done) = part.out.trim_end().rsplit_once('\n').unwrap();
        assert!(done.starts_with("done "), "{length}");
        assert!(whole.starts_with(events), "{length}");
        assert!(part.status == 0 && part.err.contains("salvaged: steps 1 to"), "{length}: {}", part.err);
    }
}

#[test]
fn files_over_a_limit() {
    // 65,536 signals in two scopes
    let mut file = File::new();
    file.instance("rbc");
    (0..65_000).for_each(|n| file.fresh(["a", "b"][n % 2], 2, 1));
    file.instance("lane");
    (0..536).for_each(|_| file.fresh("s", 2, 1));
    file.end();
    file.end();
    let ran = Temporary::new("signals", &file.bytes()).run("check", &[]);
    let way = "  a wave option file makes it smaller (run the simulation with --write-wave-opt=FILE, take out signals, then --read-wave-opt=FILE), \
               and so does a shorter run (--stop-time=T)";
    let wanted = [
        "FILE: refused (2): table lists of unequal length, or too many signals or vectors",
        "  it has 65,536 signals, each bit of a vector counted; 65,535 can be read",
        "  most signals: rbc (65,000), rbc.lane (536)",
        way,
    ];
    assert_eq!((lines(&ran.err), ran.status), (wanted.to_vec(), 1));

    // 16,384 vectors
    let mut file = File::new();
    let array = file.array("v", 1);
    let one = file.bound("", array, 0, &[]);
    file.instance("rbc");
    (0..16_384).for_each(|_| file.fresh("s", one, 1));
    file.end();
    let ran = Temporary::new("vectors", &file.bytes()).run("check", &[]);
    assert_eq!(lines(&ran.err)[1], "  it has 16,384 vectors; 16,383 can be read");

    // 16,777,216 section bytes
    let mut file = small();
    file.sections.resize(16_777_216, 0);
    let long = Temporary::new("sections", &file.bytes());
    let ran = long.run("check", &[]);
    let wanted = [
        "FILE: refused (1): a buffer over its limit",
        "  it has 16,777,216 section bytes; 16,777,215 can be read",
        "  most signals: rbc (4)",
        way,
    ];
    assert_eq!((lines(&ran.err), ran.status), (wanted.to_vec(), 1));
    // its names can be listed all the same, and one byte less is read
    assert_eq!(long.run("signals", &[]).status, 0);
    file.sections.pop();
    assert_eq!(Temporary::new("just", &file.bytes()).run("check", &[]).status, 0);
}

/// `rbc` with a strobe, a close line and a session of so many bits, and steps of (id, value)s at 0, 1, 2 .. ns.
fn recorded(element: u64, width: u64, steps: &[Vec<(u64, u8)>]) -> Vec<u8> {
    let mut file = File::new();
    let array = file.array("lines", element);
    let wide = file.bound("", array, width as i64 - 1, &[]);
    file.instance("rbc");
    file.fresh("strobe", element, 1);
    file.fresh("close", element, 1);
    file.fresh("session", wide, width);
    file.end();
    file.sections = b"CYC\0\0\0\0\0\0\0\0\0".to_vec();
    for (number, step) in steps.iter().enumerate() {
        let mut last = 0;
        if number > 0 {
            file.sections.extend(signed(1_000_000));
        }
        for (id, value) in step {
            file.sections.extend(unsigned(id - last));
            file.sections.push(*value);
            last = *id;
        }
        file.sections.push(0);
    }
    file.sections.extend(b"\x7fECY\0TAI\0\0\0\0\0\0\0\0\0");
    file.bytes()
}

const THREE: [&str; 6] = ["--session", "rbc.session", "--strobe", "rbc.strobe", "--close", "rbc.close"];

#[test]
fn more_sessions_than_can_be_live() {
    // sessions 0 to 32, a fragment each and none closed: six bits, ids 3 to 8
    let mut steps = vec![];
    for session in 0..33u8 {
        let mut step = vec![(1, 1)];
        step.extend((0..6u8).map(|bit| (u64::from(3 + bit), session >> (5 - bit) & 1)));
        steps.push(step);
        steps.push(vec![(1, 0)]);
    }
    let ran = Temporary::new("live", &recorded(1, 6, &steps)).run("fragments", &THREE);
    let wanted = [
        "FILE: refused (21): a new session while 32 are live",
        "  at 64 ns: session x\"20\" has a fragment, and 32 other sessions are not closed",
        "  is rbc.close the close line, and is it 1 while the session to be closed is shown?",
    ];
    assert_eq!((lines(&ran.err), ran.out.as_str(), ran.status), (wanted.to_vec(), "", 1));
    let ran = Temporary::new("held", &recorded(1, 6, &steps[..64])).run("fragments", &THREE);
    assert!(ran.status == 0 && ran.out.ends_with("32 rises = 0 handed out + 32 still held\n"), "{}", ran.err);
}

#[test]
fn a_session_of_33_bits() {
    let ran = Temporary::new("wide", &recorded(1, 33, &[])).run("fragments", &THREE);
    assert_eq!(ran.err, "FILE: rbc.session cannot be the session: it has 33 bits, and may have 32\n");
}

/// Letters as bits: IEEE 1164's order is U X 0 1 Z W L H -.
#[test]
fn std_logic_as_bits() {
    let bits = |steps: &[Vec<(u64, u8)>], more: &[&str]| {
        let file = Temporary::new("bits", &recorded(2, 10, steps));
        file.run("fragments", &[&THREE[..], more].concat())
    };
    // 1 and H, 0 and L; lines without an event are 0
    let steps = [vec![(1, 3), (3, 7), (12, 3)], vec![(1, 6)], vec![(1, 7), (2, 7)]];
    let ran = bits(&steps, &["--as-bits"]);
    let wanted = [
        "as bits: std_logic lines were turned into bits by the host; this step is outside the proof",
        "fragment         0 fs  session 201",
        "fragment         2 ns  session 201",
        "closed           2 ns  session 201  2 fragments handed out",
        "2 rises = 2 handed out + 0 still held",
    ];
    // the bits of the session that no write reached are 0, not U: the gatherer's stored values start at zero
    assert_eq!((lines(&ran.out), ran.status), (wanted.to_vec(), 0), "{}", ran.err);
    let ran = bits(&steps, &[]);
    assert!(ran.status == 1 && ran.err.contains("nine states") && ran.err.contains("--as-bits"), "{}", ran.err);
    for (byte, letter) in [(0, 'U'), (1, 'X'), (4, 'Z'), (5, 'W'), (8, '-')] {
        let ran = bits(&[vec![(1, 2)], vec![(1, byte)]], &["--as-bits"]);
        let wanted = format!("FILE: rbc.strobe is {letter} at 1 ns: --as-bits takes 0, L, 1 and H alone\n");
        assert_eq!((ran.err, ran.out.as_str(), ran.status), (wanted, "", 1));
        let ran = bits(&[vec![(5, byte)]], &["--as-bits"]);
        assert_eq!(
            ran.err,
            format!("FILE: bit 7 of rbc.session is {letter} at 0 fs: --as-bits takes 0, L, 1 and H alone\n")
        );
    }
}

#[test]
fn compressed_files_by_name() {
    let gz = Temporary::new("gz", b"\x1f\x8b\x08\0\0\0\0\0").run("signals", &[]);
    assert_eq!(lines(&gz.err)[0], "FILE: refused: the file is compressed by gzip: unpack it first, by gunzip");
    let bz2 = Temporary::new("bz2", b"BZh91AY").run("check", &[]);
    assert_eq!(lines(&bz2.err)[0], "FILE: refused: the file is compressed by bzip2: unpack it first, by bunzip2");
    assert_eq!((gz.status, bz2.status), (1, 1));
}

#[test]
fn a_damaged_header_has_a_place() {
    let mut file = small().bytes();
    file[12] = 7;
    let ran = Temporary::new("header", &file).run("check", &[]);
    let wanted = [
        "FILE: refused: the byte order is 7, and must be 1, little, or 2, big",
        "  byte 12 of the file: 07",
        "  00000008  0a 10 00 01 [07] 04 01 00",
    ];
    assert_eq!((lines(&ran.err), ran.status), (wanted.to_vec(), 1));
    let ran = Temporary::new("empty", b"").run("check", &[]);
    assert_eq!(
        lines(&ran.err),
        ["FILE: refused: the file ends inside the header", "  byte 0 of the file: the end", "  00000000  [end]"]
    );
}

/// Every byte of a real file cut off behind, or changed: an answer or a refusal with words, and no panic.
#[test]
fn damage_anywhere() {
    let good = sample("names_filtered.ghw");
    let judge = |bytes: &[u8]| {
        let file = Temporary::new("damage", bytes);
        for (subcommand, more) in [("check", &[][..]), ("events", &["--salvage"])] {
            let ran = file.run(subcommand, more);
            match ran.status {
                0 => assert!(!ran.out.is_empty() || subcommand == "events"),
                1 => assert!(
                    ran.out.is_empty() && ran.err.starts_with("FILE: ") && ran.err.contains("refused"),
                    "{}",
                    ran.err
                ),
                status => panic!("{status}: {}", ran.err),
            }
        }
    };
    for length in 0..good.len() {
        judge(&good[..length]);
    }
    for place in 0..good.len() {
        for byte in [0, 0xff, good[place] ^ 1] {
            let mut bad = good.clone();
            bad[place] = byte;
            judge(&bad);
        }
    }
}

/// A reader that goes away ends the command quietly.
#[test]
fn a_closed_pipe() {
    struct Closed;
    impl std::io::Write for Closed {
        fn write(&mut self, _: &[u8]) -> std::io::Result<usize> {
            Err(std::io::ErrorKind::BrokenPipe.into())
        }
        fn flush(&mut self) -> std::io::Result<()> {
            Err(std::io::ErrorKind::BrokenPipe.into())
        }
    }
    let mut err = vec![];
    let args = vec!["events".into(), "../samples/kinds_small.ghw".into()];
    let status = doorquill_command::run(args, &mut Closed, &mut err, false);
    assert_eq!((status, err), (0, vec![]));
}
