//! `include/doorquill.h` as C and as C++: compiled with all warnings as errors, linked with the archives, run.
use std::path::{Path, PathBuf};
use std::process::Command;

const TOP: &str = concat!(env!("CARGO_MANIFEST_DIR"), "/../..");

const WORKED_EXAMPLE: &str =
    "time 0\nnine 1 01\ntwo 2 02\ntwo 3 2a\ntime 10\ntwo 2 03\ntime 15\nnine 1 03\ndone 60 3\n";

/// The compilers for x86-64, and what runs a program for it. These tests are themselves x86-64 programs, which on an
/// Arm machine run under an emulator: what the machine is, `uname` says.
fn tools() -> ([&'static str; 2], Option<&'static str>) {
    let machine = Command::new("uname").arg("-m").output().expect("uname").stdout;
    if machine == b"x86_64\n" {
        (["cc", "c++"], None)
    } else {
        (["x86_64-linux-gnu-gcc", "x86_64-linux-gnu-g++"], Some("qemu-x86_64"))
    }
}

fn done(mut command: Command) {
    let made = command.output().unwrap_or_else(|e| panic!("{command:?}: {e}"));
    assert!(made.status.success(), "{command:?}\n{}", String::from_utf8_lossy(&made.stderr));
}

/// Compiled by the language's compiler; linked as C, for neither program needs a library of C++.
fn built(compiler: &str, linker: &str, source: &Path, language: &[&str], name: &str) -> PathBuf {
    let program = Path::new(env!("CARGO_TARGET_TMPDIR")).join(name);
    let object = program.with_extension("o");
    let mut compile = Command::new(compiler);
    compile.args(language).args(["-Wall", "-Wextra", "-Werror", "-pedantic", "-c", "-I"]);
    compile.arg(format!("{TOP}/include")).arg(source).arg("-o").arg(&object);
    done(compile);
    let mut link = Command::new(linker);
    link.arg(&object).args(env!("DOORQUILL_ARCHIVES").split(':')).arg("-o").arg(&program);
    done(link);
    program
}

fn printed(program: &Path, emulator: Option<&str>) -> String {
    let mut command = match emulator {
        Some(emulator) => Command::new(emulator),
        None => Command::new("env"),
    };
    let run = command.arg(program).output().expect("the program can be run");
    assert!(run.status.success(), "{program:?}: {run:?}");
    String::from_utf8_lossy(&run.stdout).into_owned()
}

fn prints(source: &str, wanted: &str) {
    let ([c, cpp], emulator) = tools();
    let source = Path::new(TOP).join(source);
    let stem = source.file_stem().and_then(|stem| stem.to_str()).expect("a name").to_string();
    for (compiler, language, name) in [(c, ["-x", "c", "-std=c99"], "c"), (cpp, ["-x", "c++", "-std=c++11"], "cpp")] {
        let program = built(compiler, c, &source, &language, &format!("{stem}_{name}"));
        assert_eq!(printed(&program, emulator), wanted, "{compiler}");
    }
}

#[test]
fn the_worked_example_in_c_and_cpp() {
    prints("include/worked_example.c", WORKED_EXAMPLE);
}

#[test]
fn every_call_in_c_and_cpp() {
    prints("rust/doorquill/tests/header.c", "as it should be\n");
}
