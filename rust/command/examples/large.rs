//! Writes a file as large as can be read, for measuring: the steps of the reassembly sample, again and again, with all
//! sessions closed in between.
//!
//!     cargo run --release --example large -- FILE
use doorquill::{ghw, read_sections, Counted, MOST_SECTION_BYTES};

/// A delta of 1 ns.
const NANOSECOND: [u8; 3] = [0xc0, 0x84, 0x3d];

fn main() {
    let name = std::env::args().nth(1).expect("the name of the file to write");
    let sample = concat!(env!("CARGO_MANIFEST_DIR"), "/../samples/reassembly_l12.ghw");
    let sample = std::fs::read(sample).expect("the sample");
    let trace = ghw::open(&sample).expect("the sample is good");
    let line = |name: &str| trace.find(&format!("reassembly.l12.{name}")).expect("a line of the sample");
    let lines = ["s_bv", "s_frag", "s_close"].map(line);
    let [session, strobe, close] = lines.map(|line| line.reference().expect("a line has a reference"));
    let reading = read_sections(trace.tables(), trace.big_endian(), trace.sections()).expect("the sample is good");
    let counted =
        reading.time_rule().and_then(|kept| kept.fragments(session, strobe, close)).expect("the sample is good");

    // the lines have neighbouring ids: a step that shows a session writes them all, and closes it; a last one ends the
    // closing
    let first = lines[0].ids()[0] as u8;
    let mut between = NANOSECOND.to_vec();
    for record in &counted {
        if let Counted::Held { session, .. } = record {
            let bits = (0..12).rev().map(|bit| (session >> bit & 1) as u8);
            for (place, value) in bits.chain([0, 1]).enumerate() {
                between.extend([if place == 0 { first } else { 1 }, value]);
            }
            between.push(0);
            between.extend(NANOSECOND);
        }
    }
    between.extend([first + 13, 0, 0]);
    between.extend(NANOSECOND);

    let sections = trace.sections();
    let find = |mark: &[u8]| sections.windows(mark.len()).position(|bytes| bytes == mark).expect("a mark");
    // from behind the cycle's head up to its closing delta: whole steps, with a delta between any two
    let (from, to) = (find(b"CYC\0") + 12, find(b"\x7fECY\0"));
    let end = b"\x7fECY\0TAI\0\0\0\0\0\0\0\0\0";
    let mut large = sections[..to].to_vec();
    while large.len() + between.len() + (to - from) + end.len() <= MOST_SECTION_BYTES {
        large.extend(&between);
        large.extend(&sections[from..to]);
    }
    large.extend(end);
    let file = [&sample[..trace.sections_at()], &large].concat();
    std::fs::write(&name, &file).expect("the file is written");
    println!("{name}: {} section bytes", large.len());
}
