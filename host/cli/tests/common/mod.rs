//! What the program's tests share: a folder in which it runs, and calls of it.
#![allow(dead_code)]
#[path = "../../../lateenbael/tests/common/mod.rs"]
mod of_the_crate;

pub use of_the_crate::Folder;
use std::ffi::OsStr;
use std::fs;
use std::path::{Path, PathBuf};
use std::process::{Command, Output, Stdio};

/// The program.
pub const PROGRAM: &str = env!("CARGO_BIN_EXE_lateenbael");

/// A folder of its own, in which the program runs.
pub struct WorkDir(pub Folder);

/// What a call printed, and its exit status.
pub struct Printed {
    pub out: String,
    pub err: String,
    pub status: i32,
}

impl From<Output> for Printed {
    fn from(Output { stdout, stderr, status }: Output) -> Printed {
        Printed {
            out: String::from_utf8_lossy(&stdout).into_owned(),
            err: String::from_utf8(stderr).unwrap(),
            status: status.code().unwrap(),
        }
    }
}

impl WorkDir {
    pub fn new() -> WorkDir {
        WorkDir(Folder::new())
    }

    /// One with a store of 7 pages and files of pages beside it.
    pub fn with_store() -> WorkDir {
        let dir = WorkDir::new();
        for n in 1..=9 {
            fs::write(dir.path(&format!("p{n}")), [n; 4096]).unwrap();
        }
        dir.done("create grips");
        dir.done("commit grips 2=p2 3=p3 4=p4 5=p5 6=p6");
        dir
    }

    pub fn path(&self, name: &str) -> PathBuf {
        self.0.0.join(name)
    }

    pub fn call(&self, line: &str) -> Printed {
        self.call_with(line.split_whitespace())
    }

    /// A call with words of any bytes.
    pub fn call_with(&self, words: impl IntoIterator<Item = impl AsRef<OsStr>>) -> Printed {
        let mut command = Command::new(PROGRAM);
        command.current_dir(&self.0.0).args(words).stdin(Stdio::null());
        command.output().unwrap().into()
    }

    /// A line for the shell, in which `$P` is the program.
    pub fn shell(&self, line: &str) -> Printed {
        let mut command = Command::new("bash");
        command
            .current_dir(&self.0.0)
            .args(["-c", line])
            .env("P", PROGRAM)
            .stdin(Stdio::null());
        command.output().unwrap().into()
    }

    /// A call that must work: what it printed.
    pub fn done(&self, line: &str) -> String {
        let printed = self.call(line);
        assert_eq!((printed.status, printed.err.as_str()), (0, ""), "{line}");
        printed.out
    }

    /// A call that must fail with a status and a message, and alter no file.
    pub fn fails(&self, line: &str, status: i32, message: &str) {
        let before = self.files();
        let printed = self.call(line);
        assert_eq!((printed.status, printed.out.as_str()), (status, ""), "{line}");
        assert!(
            printed.err.starts_with("lateenbael: ") && printed.err.contains(message),
            "{line}: {}",
            printed.err
        );
        assert!(self.files() == before, "{line} altered a file");
    }

    /// A call that must work and alter no file.
    pub fn shows(&self, line: &str) -> String {
        let before = self.files();
        let out = self.done(line);
        assert!(self.files() == before, "{line} altered a file");
        out
    }

    /// Every file's name, time and bytes.
    pub fn files(&self) -> Vec<(PathBuf, std::time::SystemTime, Vec<u8>)> {
        let paths = fs::read_dir(&self.0.0).unwrap().map(|entry| entry.unwrap().path());
        let mut files: Vec<_> = paths
            .map(|p| (p.clone(), fs::metadata(&p).unwrap().modified().unwrap(), fs::read(&p).unwrap()))
            .collect();
        files.sort();
        files
    }

    pub fn page(&self, n: u32) -> Vec<u8> {
        let out = self.path("out");
        let _ = fs::remove_file(&out);
        assert_eq!(self.done(&format!("read grips {n} out")), "");
        fs::read(out).unwrap()
    }

    pub fn text(&self, name: &str, text: &str) {
        fs::write(self.path(name), text).unwrap();
    }
}

pub fn damage(path: &Path, at: usize, byte: u8) {
    let mut bytes = fs::read(path).unwrap();
    bytes[at] = byte;
    fs::write(path, bytes).unwrap();
}

pub const BATCH: u32 = u32::MAX;

/// Puts frames of other making behind a log's header, which stays: page number, commit count, body.
pub fn forge_log(path: &Path, frames: &[(u32, u32, &[u8])]) {
    let mut log = fs::read(path).unwrap();
    log.truncate(32);
    for (page_num, commit_page_count, body) in frames {
        let heading = [
            page_num.to_le_bytes(),
            commit_page_count.to_le_bytes(),
            log[16..20].try_into().unwrap(),
        ]
        .concat();
        let bytes = heading.iter().chain(*body);
        let sum = bytes.fold(0u32, |sum, b| sum.rotate_left(1).wrapping_add((*b).into()));
        log.extend([&heading, &sum.to_le_bytes()[..], body].concat());
    }
    fs::write(path, log).unwrap();
}
