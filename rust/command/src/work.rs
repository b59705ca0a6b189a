//! Work that may take long: shown to who waits, timed for who asks.
use std::io::{stderr, Write};
use std::sync::mpsc::{channel, RecvTimeoutError};
use std::thread;
use std::time::{Duration, Instant};

/// What is to be shown of the work, and what it took so far.
pub struct Work {
    progress: bool,
    timings: bool,
    spent: Vec<(&'static str, Duration)>,
}

impl Work {
    pub fn new(progress: bool, timings: bool) -> Work {
        Work { progress, timings, spent: vec![] }
    }

    /// Does one part of the work.
    pub fn part<T>(&mut self, name: &'static str, of: &str, part: impl FnOnce() -> T) -> T {
        let from = Instant::now();
        let done = if self.progress { watched(&format!("{of}: {name}"), part) } else { part() };
        self.spent.push((name, from.elapsed()));
        done
    }

    /// The times of the parts, where they were asked for.
    pub fn show(&self, err: &mut dyn Write) {
        if self.timings {
            for (name, spent) in &self.spent {
                let _ = writeln!(err, "{:>10.3} ms  {name}", spent.as_secs_f64() * 1000.0);
            }
        }
    }
}

/// Does the work, and from the first second on shows on standard error that it goes on.
fn watched<T>(what: &str, work: impl FnOnce() -> T) -> T {
    let (done, wait) = channel::<()>();
    let line = what.to_string();
    let watcher = thread::spawn(move || {
        let mut seconds = 0;
        while let Err(RecvTimeoutError::Timeout) = wait.recv_timeout(Duration::from_secs(1)) {
            seconds += 1;
            let _ = write!(stderr(), "\r{line}, {seconds} s ");
        }
        if seconds > 0 {
            let _ = write!(stderr(), "\r\x1b[K");
        }
    });
    let result = work();
    drop(done);
    let _ = watcher.join();
    result
}
