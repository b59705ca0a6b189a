//! The command, run in the test's own process.
#![allow(dead_code)]
use std::ffi::OsString;
use std::path::PathBuf;

/// What a run wrote and how it ended.
#[derive(Debug, PartialEq, Eq)]
pub struct Ran {
    pub out: String,
    pub err: String,
    pub status: i32,
}

pub fn run(args: &[&str]) -> Ran {
    let args = args.iter().map(OsString::from).collect();
    let (mut out, mut err) = (vec![], vec![]);
    let status = doorquill_command::run(args, &mut out, &mut err, false);
    Ran { out: String::from_utf8(out).unwrap(), err: String::from_utf8(err).unwrap(), status }
}

/// A file for one test, gone when the test is over.
pub struct Temporary(PathBuf);

impl Temporary {
    pub fn new(name: &str, bytes: &[u8]) -> Temporary {
        let path = std::env::temp_dir().join(format!("doorquill-{}-{name}", std::process::id()));
        std::fs::write(&path, bytes).unwrap();
        Temporary(path)
    }

    pub fn path(&self) -> &str {
        self.0.to_str().unwrap()
    }

    /// Runs a subcommand on the file; its name reads `FILE` in what was written.
    pub fn run(&self, subcommand: &str, more: &[&str]) -> Ran {
        let ran = run(&[&[subcommand, self.path()], more].concat());
        let named = |text: String| text.replace(self.path(), "FILE");
        Ran { out: named(ran.out), err: named(ran.err), status: ran.status }
    }
}

impl Drop for Temporary {
    fn drop(&mut self) {
        let _ = std::fs::remove_file(&self.0);
    }
}

pub fn sample(name: &str) -> Vec<u8> {
    std::fs::read(format!("../samples/{name}")).unwrap()
}
