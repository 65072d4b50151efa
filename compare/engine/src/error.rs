//! Shim of the source's `error.rs`: the kinds of error that the log and the
//! pager make, with the source's texts. It drops what needs a crate from a
//! registry (the derive, the SQL parser's error).

use std::{fmt, io};

pub type Result<T> = std::result::Result<T, SQLRiteError>;

#[derive(Debug)]
pub enum SQLRiteError {
    General(String),
    Internal(String),
    Io(io::Error),
}

impl fmt::Display for SQLRiteError {
    fn fmt(&self, f: &mut fmt::Formatter<'_>) -> fmt::Result {
        match self {
            Self::General(text) => write!(f, "General error: {text}"),
            Self::Internal(text) => write!(f, "Internal error: {text}"),
            Self::Io(error) => write!(f, "IO error: {error}"),
        }
    }
}

impl std::error::Error for SQLRiteError {}

impl From<io::Error> for SQLRiteError {
    fn from(error: io::Error) -> Self {
        Self::Io(error)
    }
}
