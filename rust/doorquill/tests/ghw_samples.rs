//! Real files: the tables are those that the listing program is given for them, byte for byte, and damage to any part
//! has a place.
use doorquill::ghw::{open, HeaderFault, Trace};
use std::fs;
use std::path::PathBuf;

mod listings;

fn sample(name: &str) -> Vec<u8> {
    fs::read(PathBuf::from(env!("CARGO_MANIFEST_DIR")).join("../samples").join(name)).unwrap()
}

/// The listing program's input for a trace: its tables as records, the byte order, and the sections.
fn listing_input(trace: &Trace) -> Vec<u8> {
    let tables = trace.tables();
    let mut out = vec![];
    for id in 1..=tables.signals() as u32 {
        out.extend([1, tables.kind(id).unwrap() as u8]);
        out.extend(tables.reference(id).unwrap().to_be_bytes());
        out.extend(tables.vector_of(id).unwrap_or(0).to_be_bytes());
    }
    for number in 1..=tables.vectors() as u32 {
        let vector = tables.vector_at(number).unwrap();
        let two = tables.vector_states(number) == Some(doorquill::States::Two);
        out.push(2);
        out.extend(vector.min.to_be_bytes());
        out.extend(vector.max.to_be_bytes());
        out.push(u8::from(two));
        out.extend(tables.vector_reference(number).unwrap().to_be_bytes());
    }
    out.extend([3, u8::from(trace.big_endian())]);
    out.extend(trace.sections());
    out
}

#[test]
fn tables_as_the_listing_program_has_them() {
    for (name, stored, _) in listings::listings() {
        let file = sample(name);
        let trace = open(&file).unwrap();
        assert!(listing_input(&trace) == stored, "{name}");
    }
}

const SAMPLES: [&str; 4] = ["kinds_small.ghw", "reassembly_l12.ghw", "names.ghw", "names_filtered.ghw"];

#[test]
fn cut_anywhere_before_the_sections() {
    for name in SAMPLES {
        let file = sample(name);
        let end = open(&file).unwrap().sections_at();
        for length in 0..end {
            let error = open(&file[..length]).map(|_| ()).unwrap_err();
            // a count of more than is left is seen before the end is
            let early = error.fault == HeaderFault::Form && error.sentence.ends_with("bytes that are left");
            let ended = error.fault == HeaderFault::Ended && error.place == length;
            assert!(ended || early, "{name} {length}: {error}");
        }
        assert!(open(&file[..end]).is_ok());
    }
}

#[test]
fn any_byte_changed() {
    for name in &SAMPLES[1..] {
        let good = sample(name);
        let end = open(&good).unwrap().sections_at();
        let mut refused = 0;
        for place in 0..end {
            let mut bad = good[..end].to_vec();
            for byte in [0, 0x80, 0xff, good[place] ^ 1] {
                bad[place] = byte;
                match open(&bad) {
                    // a changed name or bound can be good
                    Ok(trace) => assert!(trace.signals().all(|signal| !signal.path().is_empty())),
                    Err(error) => {
                        assert!(error.place <= end && !error.sentence.is_empty());
                        refused += 1;
                    }
                }
            }
        }
        assert!(refused > end, "{name}: {refused} of {}", 4 * end);
    }
}
