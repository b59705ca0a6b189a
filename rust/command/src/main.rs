//! The command `doorquill`: its arguments and streams, handed to the library that does the work.
use std::io::{stderr, stdout, BufWriter};
use std::process::exit;

fn main() {
    let args = std::env::args_os().skip(1).collect();
    let status =
        doorquill_command::run(args, &mut BufWriter::new(stdout()), &mut stderr(), doorquill_command::terminal());
    exit(status)
}
