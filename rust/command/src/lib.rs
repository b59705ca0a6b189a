//! The command `doorquill`, from a `.ghw` file to an answer; as a library, so that tests and the fuzzer run it in their
//! own process.
//!
//! What stands before the sections is read by [`doorquill::ghw`]; sections, time rule and bench are the proved calls of
//! [`doorquill`]. This crate asks them and shows what they say.
#![forbid(unsafe_code)]
#![warn(missing_docs)]

mod as_bits;
mod check;
mod events;
mod explain;
mod file;
mod fragments;
mod json;
mod names;
mod options;
mod refused;
mod signals;
mod stop;
mod times;
mod values;
mod walk;
mod work;

use options::Which;
use std::ffi::OsString;
use std::io::Write;
use stop::Stop;
use work::Work;

/// Runs the command: results to `out`, everything else to `err`. The exit status: 0 done, 1 refused, 2 usage or a file
/// that cannot be read.
///
/// `progress` says that a person watches standard error: work of more than a second then shows there that it goes on.
pub fn run(args: Vec<OsString>, out: &mut dyn Write, err: &mut dyn Write, progress: bool) -> i32 {
    let done = options::parse(args).and_then(|options| {
        let mut work = Work::new(progress, options.timings);
        let done = match options.which {
            Which::Help => write!(out, "{}", options::HELP).map_err(Stop::from),
            Which::Version => writeln!(out, "doorquill {}", env!("CARGO_PKG_VERSION")).map_err(Stop::from),
            Which::Signals => signals::run(&options, &mut work, out, err),
            Which::Events => events::run(&options, &mut work, out, err),
            Which::Fragments => fragments::run(&options, &mut work, out, err),
            Which::Check => check::run(&options, &mut work, out, err),
            Which::Explain => explain::run(&options, out),
        };
        let done = done.and_then(|()| out.flush().map_err(Stop::from));
        work.show(err);
        done
    });
    match done {
        Ok(()) => 0,
        Err(stop) => {
            // what was found before the stop comes first; nothing can be said where standard error is closed
            let _ = out.flush();
            let _ = write!(err, "{}", stop.text());
            stop.status()
        }
    }
}

/// Whether a person watches standard error.
pub fn terminal() -> bool {
    let target = std::fs::read_link("/proc/self/fd/2").unwrap_or_default();
    ["/dev/pts/", "/dev/tty", "/dev/console"].iter().any(|start| target.to_string_lossy().starts_with(start))
}
