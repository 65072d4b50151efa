//! What the program says when it does not do what was asked, and its exit status.
use lateenbael::{Error, Refusal};
use std::fmt;
use std::io;
use std::path::Path;

#[derive(Debug)]
pub enum Failure {
    /// Refused, or the disk failed: status 1.
    Refused(String),
    /// The words or a text were not understood: status 2.
    Usage(String),
}

impl Failure {
    /// A file could not be used. It is told as the crate tells it of a store's.
    pub fn file(name: impl fmt::Display, error: io::Error) -> Failure {
        Failure::Refused(match error.kind() {
            io::ErrorKind::AlreadyExists => format!("{name} is there already"),
            io::ErrorKind::NotFound => format!("{name}: there is no such file"),
            _ => format!("{name}: {error}"),
        })
    }

    /// A call on a store failed. A bare refusal does not name the store.
    pub fn of_store(path: &Path, error: Error) -> Failure {
        match error {
            Error::Refused(_) => Failure::from(error).about(path.display()),
            named => named.into(),
        }
    }

    /// The same failure, with what it is about in front.
    pub fn about(self, what: impl fmt::Display) -> Failure {
        match self {
            Failure::Refused(why) => Failure::Refused(format!("{what}: {why}")),
            Failure::Usage(why) => Failure::Usage(format!("{what}: {why}")),
        }
    }

    pub fn exit_status(&self) -> u8 {
        match self {
            Failure::Refused(_) => 1,
            Failure::Usage(_) => 2,
        }
    }
}

impl fmt::Display for Failure {
    fn fmt(&self, f: &mut fmt::Formatter<'_>) -> fmt::Result {
        match self {
            Failure::Refused(why) => write!(f, "{why}"),
            Failure::Usage(why) => write!(f, "{why} (see lateenbael --help)"),
        }
    }
}

impl From<Error> for Failure {
    fn from(error: Error) -> Failure {
        Failure::Refused(error.to_string())
    }
}

impl From<Refusal> for Failure {
    fn from(refusal: Refusal) -> Failure {
        Failure::Refused(refusal.to_string())
    }
}
