//! What the program prints, and the status that it ends with. Nothing here panics, whatever the descriptors are.
use crate::failure::Failure;
use crate::json::Json;
use lateenbael::wal_path_for;
use std::ffi::OsStr;
use std::fs::{File, OpenOptions};
use std::io::{self, ErrorKind, Write};
use std::os::fd::AsFd;
use std::path::Path;

/// What a command answers once it has done its work.
pub struct Answer {
    bytes: Vec<u8>,
    altered: bool,
    finding: Option<Failure>,
}

impl Answer {
    /// Of a command that shows something: without its output it has done nothing.
    pub fn shown(bytes: impl Into<Vec<u8>>) -> Answer {
        Answer {
            bytes: bytes.into(),
            altered: false,
            finding: None,
        }
    }

    /// The same, as one JSON object or as text.
    pub fn shown_as(json: bool, object: Json, text: String) -> Answer {
        match json {
            true => Answer::shown(object.line()),
            false => Answer::shown(text),
        }
    }

    /// Of a command that has altered a store: its status stays 0 where the report can't be printed.
    pub fn report_as(json: bool, object: Json, text: String) -> Answer {
        Answer {
            altered: true,
            ..Answer::shown_as(json, object, text)
        }
    }

    /// What was shown is bad news, which the status tells too.
    pub fn with_finding(self, finding: Option<Failure>) -> Answer {
        Answer { finding, ..self }
    }

    /// Prints it: the exit status.
    pub fn print(self) -> u8 {
        match (write_standard_output(&self.bytes), self.altered) {
            (Ok(()), _) => {}
            (Err(error), _) if error.kind() == ErrorKind::BrokenPipe => {}
            (Err(error), true) => say(&format!("done, but its report can't be printed: standard output: {error}")),
            (Err(error), false) => return complain(&Failure::Refused(format!("standard output: {error}"))),
        }
        self.finding.map_or(0, |finding| complain(&finding))
    }
}

/// Prints a failure: its exit status.
pub fn complain(failure: &Failure) -> u8 {
    say(&failure.to_string());
    failure.exit_status()
}

/// A line on standard error. Where that can't be written either, nobody is left to be told.
fn say(message: &str) {
    let _ = io::stderr().write_all(format!("lateenbael: {message}\n").as_bytes());
}

/// As a file and not by `io::stdout`, which buffers, and takes a descriptor that can't be written for one that was.
fn write_standard_output(bytes: &[u8]) -> io::Result<()> {
    if bytes.is_empty() {
        return Ok(());
    }
    File::from(io::stdout().as_fd().try_clone_to_owned()?).write_all(bytes)
}

/// Writes a file that must not be there yet, and syncs it; a failed writing leaves none. A store without a log would take it for its own.
pub fn write_new_file(store: &OsStr, path: &Path, bytes: &[u8]) -> Result<(), Failure> {
    let failed = |error| Failure::file(path.display(), error);
    if path == wal_path_for(Path::new(store)) {
        return Err(Failure::Refused(format!("{} is the name of the store's log", path.display())));
    }
    let mut file = OpenOptions::new().write(true).create_new(true).open(path).map_err(failed)?;
    let written = file.write_all(bytes).and_then(|()| file.sync_all());
    if written.is_err() {
        let _ = std::fs::remove_file(path);
    }
    written.map_err(failed)
}
