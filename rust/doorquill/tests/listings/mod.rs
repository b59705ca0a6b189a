//! What the proved program `listings` reads and prints: the two real files as the listing reads them, and their text.
use std::fs;

/// The file's name under `rust/samples`, the listing's input and its text.
pub fn listings() -> Vec<(&'static str, Vec<u8>, String)> {
    let stored = |file| {
        let path = format!("{}/../../crates/run_listings/{file}", env!("CARGO_MANIFEST_DIR"));
        fs::read_to_string(&path).unwrap_or_else(|e| panic!("{path}: {e}"))
    };
    let (input, printed) = (stored("stdin"), stored("stdout"));
    let inputs = input.lines().filter(|line| !line.starts_with('#')).map(unhex);
    // Other runs of the program are printed first; a listing begins with a time and ends with `done`.
    let mut texts = vec![];
    let mut text = String::new();
    for line in printed.lines().skip_while(|line| !line.starts_with("time ")) {
        text.extend([line, "\n"]);
        if line.starts_with("done ") {
            texts.push(std::mem::take(&mut text));
        }
    }
    assert_eq!((texts.len(), text.len()), (2, 0), "two whole listings");
    let names = ["kinds_small.ghw", "reassembly_l12.ghw"];
    let all: Vec<_> = names.into_iter().zip(inputs).zip(texts).map(|((name, input), text)| (name, input, text)).collect();
    assert_eq!(all.len(), 2, "two inputs");
    all
}

fn unhex(line: &str) -> Vec<u8> {
    (0..line.len() / 2).map(|i| u8::from_str_radix(&line[2 * i..2 * i + 2], 16).expect("hex")).collect()
}
