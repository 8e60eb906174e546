//! Why a command did not do what it is for: its text and its exit status.

use std::fmt::Display;
use std::io::{ErrorKind, Write};
use std::path::Path;
use std::sync::atomic::{AtomicBool, Ordering};

use crate::done;
use crate::plain::plain;

pub enum Failure {
    /// The words on the command line are wrong.
    Usage(String),
    /// Trouble with a file.
    File(String),
    /// Trouble with standard output; whoever closed it wants no more.
    Output(std::io::Error),
    /// The library refused. The text is empty where the refusal was printed as JSON.
    Refused(String),
    /// The two programs differ on a replayed case.
    Differs(String),
    /// The answer is no, and stands on standard output.
    No,
    /// A signal asked for an end.
    Stopped(i32),
    /// What was asked for is done, but something after it went wrong.
    Done(String),
}

impl Failure {
    /// A file operation that failed.
    pub fn file(doing: &str, path: &Path, error: impl Display) -> Failure {
        Failure::File(format!("cannot {doing} {}: {error}", path.display()))
    }

    pub fn status(&self) -> u8 {
        match self {
            Failure::Differs(_) | Failure::No => 1,
            Failure::Usage(_) | Failure::File(_) | Failure::Output(_) | Failure::Stopped(_) => 2,
            Failure::Refused(_) => 3,
            Failure::Done(_) => 4,
        }
    }

    /// The words of the failure; empty where there is nothing to tell.
    pub fn text(&self) -> String {
        match self {
            Failure::Output(error) if error.kind() == ErrorKind::BrokenPipe => String::new(),
            Failure::No => String::new(),
            Failure::Output(error) => format!("cannot write to standard output: {error}"),
            Failure::Stopped(number) => format!("stopped by signal {number}; {}", done::so_far()),
            Failure::Usage(text)
            | Failure::File(text)
            | Failure::Refused(text)
            | Failure::Differs(text)
            | Failure::Done(text) => text.clone(),
        }
    }

    /// The failure of a run that has changed a file: where its report could not be written, that says so.
    pub fn after_changes(self) -> Failure {
        match (self, done::marked()) {
            (Failure::Output(error), Some(done)) => {
                Failure::Done(format!("cannot write to standard output: {error}; {done}"))
            }
            (failure, _) => failure,
        }
    }

    /// Prints the failure on standard error.
    pub fn tell(&self) {
        let text = self.text();
        if !text.is_empty() {
            tell(text.trim_end());
        }
    }
}

static QUIET: AtomicBool = AtomicBool::new(false);

/// From now on nothing but failures is told.
pub fn be_quiet() {
    QUIET.store(true, Ordering::Relaxed);
}

/// Prints what is good to know on standard error.
pub fn note(text: impl Display) {
    if !QUIET.load(Ordering::Relaxed) {
        tell(text);
    }
}

/// Prints a line on standard error. With that closed too, the exit status has to say it all.
pub fn tell(text: impl Display) {
    let text = format!("lumbraquay: {text}\n");
    let _ = std::io::stderr().write_all(plain(&text).as_bytes());
}
