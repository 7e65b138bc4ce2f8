//! Why a command ends without its result, and the exit status that says so.

use std::io;

pub enum Failure {
    /// The command line is not one of the command's.
    Usage(String),
    /// A file can't be read or written, or isn't what the command takes.
    File(String),
    /// The engine refused, or a text can't be said in the dialect.
    Refused(String),
    /// Whoever read the output has closed it: there is nobody left to tell.
    Gone,
}

impl Failure {
    pub fn status(&self) -> u8 {
        match self {
            Failure::Usage(_) | Failure::File(_) => 2,
            Failure::Refused(_) => 1,
            Failure::Gone => 0,
        }
    }

    pub fn message(&self) -> Option<&str> {
        match self {
            Failure::Usage(words) | Failure::File(words) | Failure::Refused(words) => Some(words),
            Failure::Gone => None,
        }
    }
}

/// Of standard output; files that are read have their own messages.
impl From<io::Error> for Failure {
    fn from(error: io::Error) -> Failure {
        match error.kind() {
            io::ErrorKind::BrokenPipe => Failure::Gone,
            _ => Failure::File(format!("standard output: {error}")),
        }
    }
}
