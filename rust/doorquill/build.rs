//! Finds the proved archives and links them: those of a folder's `lib*.a` that have one of the calls. The folder is the
//! one that DOORQUILL_LIB names, else `target/staticlib` at the repository's top or `lib` at a release's.
use std::env;
use std::fs;
use std::path::{Path, PathBuf};
use std::process::exit;

/// The calls, and the crate whose archive has each in the repository; a release has them all in one.
const CALLS: [(&str, &str); 7] = [
    ("doorquill_read_sections", "doorquill"),
    ("doorquill_read_sections_lent", "doorquill"),
    ("doorquill_read_changes", "doorquill_changes"),
    ("doorquill_time_rule", "doorquill"),
    ("doorquill_write_sections", "doorquill"),
    ("doorquill_read_back", "doorquill_back"),
    ("doorquill_bench", "bench"),
];

fn main() {
    println!("cargo:rerun-if-env-changed=DOORQUILL_LIB");
    let target = env::var("TARGET").unwrap_or_default();
    if !target.starts_with("x86_64-") || !target.contains("linux") {
        wrong(&format!(
            "the proved archives are for x86-64 Linux, not for {target}: build with --target x86_64-unknown-linux-gnu"
        ));
    }
    let folder = folder();
    let archives = archives(&folder);
    let mut linked: Vec<&Path> = Vec::new();
    for (call, crate_name) in CALLS {
        match archives.iter().find(|(_, bytes)| has(bytes, call)) {
            Some((path, _)) if linked.contains(&path.as_path()) => {}
            Some((path, _)) => linked.push(path),
            None => wrong(&format!(
                "no archive in {} has {call}: name their folder by DOORQUILL_LIB, or make it by `tools/archives {crate_name}` at the repository's top",
                folder.display()
            )),
        }
    }
    println!("cargo:rerun-if-changed={}", folder.display());
    println!("cargo:rustc-link-search=native={}", folder.display());
    for archive in &linked {
        println!("cargo:rerun-if-changed={}", archive.display());
        println!("cargo:rustc-link-lib=static={}", name(archive));
    }
    // For the tests, which link C programs with the same archives.
    let all: Vec<String> = linked.iter().map(|archive| archive.display().to_string()).collect();
    println!("cargo:rustc-env=DOORQUILL_ARCHIVES={}", all.join(":"));
}

fn folder() -> PathBuf {
    if let Some(folder) = env::var_os("DOORQUILL_LIB") {
        return folder.into();
    }
    let top = PathBuf::from(env::var_os("CARGO_MANIFEST_DIR").unwrap_or_default()).join("../..");
    let (made, released) = (top.join("target/staticlib"), top.join("lib"));
    if released.is_dir() && !made.is_dir() {
        released
    } else {
        made
    }
}

/// The folder's archives and their bytes, in order of their names.
fn archives(folder: &Path) -> Vec<(PathBuf, Vec<u8>)> {
    let entries = fs::read_dir(folder).into_iter().flatten().flatten();
    let mut paths: Vec<PathBuf> = entries.map(|entry| entry.path()).filter(|path| !name(path).is_empty()).collect();
    paths.sort();
    paths.into_iter().filter_map(|path| fs::read(&path).ok().map(|bytes| (path, bytes))).collect()
}

/// `NAME` of `libNAME.a`, else nothing.
fn name(path: &Path) -> &str {
    let file = path.file_name().and_then(|name| name.to_str()).unwrap_or("");
    file.strip_prefix("lib").and_then(|rest| rest.strip_suffix(".a")).unwrap_or("")
}

/// Whether a symbol of this name stands in the archive, where a zero byte ends it.
fn has(archive: &[u8], call: &str) -> bool {
    let symbol = [call.as_bytes(), &[0]].concat();
    archive.windows(symbol.len()).any(|part| part == symbol)
}

fn wrong(sentence: &str) -> ! {
    eprintln!("doorquill: {sentence}");
    exit(1)
}
