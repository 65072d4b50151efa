//! A list of cases with its answers, and its two files.

use std::fs;
use std::path::PathBuf;

use crate::hex;

/// The most that all answers of a list may take, in bytes.
const MOST_STDOUT: usize = 1_500_000;

pub struct List {
    /// The test program's name, which is its folder's.
    pub name: &'static str,
    /// The longest that a case may be, in bytes.
    pub longest: usize,
    /// The most that all cases may take, in bytes: a replay takes them in at
    /// once.
    pub room: usize,
    pub cases: Vec<Vec<u8>>,
    /// Answers that no case asks for; they come before the others.
    pub preamble: Vec<String>,
    pub answer: fn(&[u8]) -> String,
}

impl List {
    pub fn write(&self) -> Result<(), String> {
        fs::create_dir_all(self.folder()).map_err(|error| format!("{}: {error}", self.name))?;
        for (file, text) in self.files() {
            fs::write(self.folder().join(file), text)
                .map_err(|error| format!("{}/{file}: {error}", self.name))?;
        }
        Ok(())
    }

    /// Fails if a file in the repository isn't what would be written now.
    pub fn check(&self) -> Result<(), String> {
        for (file, text) in self.files() {
            let stored = fs::read_to_string(self.folder().join(file))
                .map_err(|error| format!("{}/{file}: {error}", self.name))?;
            if stored != text {
                let pairs = stored.lines().zip(text.lines());
                let line = 1 + pairs.take_while(|(stored, now)| stored == now).count();
                return Err(format!("{}/{file}: differs from line {line}", self.name));
            }
        }
        Ok(())
    }

    fn folder(&self) -> PathBuf {
        PathBuf::from(concat!(env!("CARGO_MANIFEST_DIR"), "/../../crates")).join(self.name)
    }

    fn files(&self) -> [(&'static str, String); 2] {
        [("stdin", self.stdin()), ("stdout", self.stdout())]
    }

    /// One case a line, its bytes in hexadecimal.
    fn stdin(&self) -> String {
        assert!(self.cases.iter().all(|case| case.len() <= self.longest));
        let text = lines(self.cases.iter().map(|case| hex::digits(case)));
        assert!(text.len() <= self.room, "{}: {}", self.name, text.len());
        text
    }

    /// The preamble, then the answers, each of one line or more.
    fn stdout(&self) -> String {
        let answers = self.cases.iter().map(|case| (self.answer)(case));
        let text = lines(self.preamble.iter().cloned().chain(answers));
        assert!(text.len() <= MOST_STDOUT, "{}: {}", self.name, text.len());
        text
    }
}

fn lines(lines: impl Iterator<Item = String>) -> String {
    lines.map(|line| line + "\n").collect()
}
