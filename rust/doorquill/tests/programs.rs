//! The proved programs' own inputs through the safe crate: it prints what they print.
use doorquill::{read_sections, Counted};
use std::fs;

#[path = "../examples/listing.rs"]
mod listing;
mod listings;

fn of(program: &str, file: &str) -> Vec<u8> {
    let path = format!("{}/../../crates/{program}/{file}", env!("CARGO_MANIFEST_DIR"));
    fs::read(&path).unwrap_or_else(|e| panic!("{path}: {e}"))
}

#[test]
fn the_listings() {
    let text = |input: &[u8]| listing::listing(input).unwrap().expect("tables");
    assert!(text(&of("listing", "stdin")).into_bytes() == of("listing", "stdout"), "the worked example: other lines");
    for (name, input, stored) in listings::listings() {
        assert!(text(&input) == stored, "{name}: other lines");
    }
}

#[test]
fn the_fragments_of_a_recorded_reassembly() {
    let input = of("reassembly_fragments", "stdin");
    let (tables, big_endian, sections) = listing::preamble(&input).expect("tables");
    let kept = read_sections(&tables, big_endian, sections).unwrap().time_rule().unwrap();
    let counted = kept.fragments(3, 4, 5).unwrap();
    let lines: String = counted
        .iter()
        .filter_map(|counted| match counted {
            Counted::Fragment { time, session } => Some(format!("fragment {time} {session:08x}\n")),
            _ => None,
        })
        .collect();
    assert!(lines.lines().count() > 50 && lines.into_bytes() == of("reassembly_fragments", "stdout"));
    // Every fragment is handed out or held.
    let (mut fragments, mut accounted) = (0, 0);
    for counted in counted {
        match counted {
            Counted::Fragment { .. } => fragments += 1,
            Counted::Closed { count, .. } | Counted::Held { count, .. } => accounted += count,
        }
    }
    assert_eq!(fragments, accounted);
}
