//! Why the command stops before it is done.
use std::io;

/// A reason, and so an exit status.
#[derive(Debug)]
pub enum Stop {
    /// The arguments are not understood.
    Usage(String),
    /// The system does not give or take what is asked.
    Unreadable(String),
    /// What the file holds, or a name, is refused; lines of text.
    Refused(String),
    /// The reader of the results has gone.
    Closed,
}

impl Stop {
    pub fn status(&self) -> i32 {
        match self {
            Stop::Closed => 0,
            Stop::Refused(_) => 1,
            Stop::Usage(_) | Stop::Unreadable(_) => 2,
        }
    }

    /// What goes to standard error.
    pub fn text(&self) -> String {
        match self {
            Stop::Closed => String::new(),
            Stop::Refused(text) => format!("{text}\n"),
            Stop::Unreadable(text) => format!("doorquill: {text}\n"),
            Stop::Usage(text) => format!("doorquill: {text}\ntry: doorquill --help\n"),
        }
    }
}

impl From<io::Error> for Stop {
    /// An error of writing results.
    fn from(error: io::Error) -> Stop {
        match error.kind() {
            io::ErrorKind::BrokenPipe => Stop::Closed,
            _ => Stop::Unreadable(format!("the results cannot be written: {error}")),
        }
    }
}
