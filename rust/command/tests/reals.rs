//! Reals of a big-endian file: by its header, and as wellen reads them; which of the two is said.
mod common;
#[path = "../../doorquill/tests/ghw_builder/mod.rs"]
mod ghw_builder;

use common::Temporary;
use ghw_builder::File;

/// `top.level`, which is 1.0 at 0 fs.
fn file(big_endian: bool) -> Vec<u8> {
    let mut file = File::new();
    let real = file.kind(27, "real", &[]);
    file.instance("top");
    file.fresh("level", real, 1);
    file.end();
    file.big_endian = big_endian;
    let one = 1f64.to_bits();
    let bits = if big_endian { one.to_be_bytes() } else { one.to_le_bytes() };
    file.sections = [&b"CYC\0\0\0\0\0\0\0\0\0\x01"[..], &bits, &[0, 0x7f], b"ECY\0", b"TAI\0\0\0\0\0\0\0\0\0"].concat();
    file.bytes()
}

#[test]
fn by_the_header_and_as_wellen_does() {
    let big = Temporary::new("reals-big", &file(true));
    let little = Temporary::new("reals-little", &file(false));
    let shown = little.run("events", &[]);
    assert!(shown.out.contains("top.level"), "{}", shown.out);
    assert_eq!((shown.err.as_str(), shown.status), ("", 0));

    let by_header = big.run("events", &[]);
    assert_eq!((by_header.out.as_str(), by_header.status), (shown.out.as_str(), 0));
    assert_eq!(by_header.err, "FILE: reals are read big-endian, as its header says\n");
    assert_eq!(big.run("events", &["--reals=flag"]), by_header);

    let as_wellen = big.run("events", &["--reals=rust"]);
    assert_eq!((as_wellen.err.as_str(), as_wellen.status), ("FILE: reals are read little-endian, as wellen does\n", 0));
    assert_ne!(as_wellen.out, shown.out);
    assert_eq!(little.run("events", &["--reals=rust"]), shown);

    let other = big.run("events", &["--reals=both"]);
    assert!(other.err.contains("--reals=both: say rust or flag"), "{}", other.err);
    assert_eq!(other.out, "");
}
