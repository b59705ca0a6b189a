//! The header and the page are held to the table of refusals. `DOORQUILL_WRITE=1 cargo test --test refusals` writes the
//! page again; of the header it prints what should stand there.
use doorquill::refusal::{Counts, MEANINGS};
use doorquill::Refusal;
use std::fmt::Write;

const TOP: &str = concat!(env!("CARGO_MANIFEST_DIR"), "/../..");

const HEAD: &str = "# Refusals

Every call of the library answers 0 or refuses with a number and a place. This page is made from the table in `rust/doorquill/src/refusal.rs`, and a test holds it to that;
`doorquill explain 14` prints the same of one number. The rules behind the numbers are document 01's; 21, 22, 23 and 34 came with the requests of document 02.

A place counts bytes from 0, ids and vector numbers from 1. When a section file is read, bytes count from the first section byte: `doorquill` adds where in the file that is.

The smallest input of each number is written as the call and what it is lent. Numbers of lists (`kinds`, `refs`, `vecs` of signals; `mins`, `maxs`, `states`, `vec_refs` of vectors) are decimal, bytes (`input`,
`events`, `values`) are hex, `80*9` is nine bytes 80; `out`, `room` and `list` are lengths of room; `session`, `strobe` and `close` are references. What is not named is empty, other room is ample, and the flag is
little-endian. A test puts each of them to the library.
";

fn page() -> String {
    let mut page = HEAD.to_string();
    for m in MEANINGS {
        write!(
            page,
            "\n## {}: {}\n\n- name: `DOORQUILL_{}`\n- place: {}\n- smallest input: `{}`\n- what to do: {}\n",
            m.number, m.sentence, m.name, m.place, m.smallest, m.advice
        )
        .unwrap();
    }
    page
}

fn names() -> String {
    let mut names = "enum doorquill_number {\n    DOORQUILL_DONE = 0".to_string();
    for m in MEANINGS {
        write!(names, ",\n    /* {} */\n    DOORQUILL_{} = {}", m.sentence, m.name, m.number).unwrap();
    }
    names + "\n};\n"
}

#[test]
fn the_page_is_the_table() {
    let path = format!("{TOP}/docs/REFUSALS.md");
    if std::env::var_os("DOORQUILL_WRITE").is_some() {
        std::fs::write(&path, page()).unwrap();
    }
    // wrapped as all pages are, by tools/wrap-prose: the words alone are held equal
    let words = |text: &str| text.split_whitespace().collect::<Vec<_>>().join(" ");
    assert!(words(&std::fs::read_to_string(path).unwrap()) == words(&page()), "the page is to be written again");
}

#[test]
fn the_header_has_the_names() {
    let header = std::fs::read_to_string(format!("{TOP}/include/doorquill.h")).unwrap();
    assert!(header.contains(&names()), "the header should have:\n{}", names());
    for (name, limit) in [
        ("MOST_SIGNALS", doorquill::MOST_SIGNALS),
        ("MOST_VECTORS", doorquill::MOST_VECTORS),
        ("MOST_SECTION_BYTES", doorquill::MOST_SECTION_BYTES),
        ("MOST_BUFFER", doorquill::MOST_BUFFER),
    ] {
        assert!(header.contains(&format!("#define DOORQUILL_{name} {limit}u\n")), "{name}");
    }
}

#[test]
fn a_refusal_is_a_sentence() {
    let said = |number, place| Refusal { number, place }.to_string();
    assert_eq!(said(14, 88), "refused (14): a value out of its kind's range, at byte 88");
    assert_eq!(said(3, 2), "refused (3): a bad vector in the tables, vector 2");
    assert_eq!(said(4, 7), "refused (4): a bad signal in the tables, id 7");
    assert_eq!(said(1, 0), "refused (1): a buffer over its limit");
    assert_eq!(said(99, 5), "refused (99): a number that this crate does not know, at 5");
    for m in MEANINGS {
        let text = said(m.number, 0);
        assert!(text.contains(m.sentence) && !text.ends_with('.'), "{text}");
        assert_eq!(m.counts == Counts::Nothing, m.place == "always 0", "{}", m.number);
        assert!(m.advice.ends_with('.'), "{}", m.number);
    }
}
