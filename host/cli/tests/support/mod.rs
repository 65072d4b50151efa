//! What the tests of the program on a hurt disk share: a folder to call it in, and a tracer that kills it at a system call.
#![allow(dead_code)]
#[path = "../common/mod.rs"]
mod common;
pub mod tracer;

use common::{PROGRAM, Printed};
use std::collections::BTreeMap;
use std::ffi::OsString;
use std::fs;
use std::path::{Path, PathBuf};
use std::process::{Command, Output, Stdio};
use std::sync::atomic::{AtomicU32, Ordering};

/// Every file of a folder by its name.
pub type Snapshot = BTreeMap<OsString, Vec<u8>>;

/// A folder that the program is called in. The store is named grips; `p1` to `p9` are pages, filled with their number.
pub struct WorkDir {
    pub path: PathBuf,
}

impl WorkDir {
    /// A new folder with the pages in it.
    pub fn new() -> WorkDir {
        let dir = WorkDir { path: fresh_folder() };
        dir.put_pages();
        dir
    }

    pub fn put_pages(&self) {
        for n in 1..=9 {
            fs::write(self.file(&format!("p{n}")), [n; 4096]).unwrap();
        }
    }

    /// One with a store in it.
    pub fn with_store() -> WorkDir {
        let dir = WorkDir::new();
        dir.make_store();
        dir
    }

    /// A store of 7 pages, each filled with its number, all in the main file but page 4, which the log has filled with 8.
    pub fn make_store(&self) {
        self.done("create grips");
        self.done("commit grips 1=p1 2=p2 3=p3 4=p4 5=p5 6=p6");
        self.done("checkpoint grips");
        self.done("commit grips 4=p8");
    }

    pub fn file(&self, name: &str) -> PathBuf {
        self.path.join(name)
    }

    pub fn command(&self, line: &str) -> Command {
        let mut command = Command::new(PROGRAM);
        command.current_dir(&self.path).args(line.split_whitespace()).stdin(Stdio::null());
        command
    }

    pub fn call(&self, line: &str) -> Printed {
        self.command(line).output().unwrap().into()
    }

    /// A call that must work: what it printed.
    pub fn done(&self, line: &str) -> String {
        let printed = self.call(line);
        assert_eq!((printed.status, printed.err.as_str()), (0, ""), "{line}");
        printed.out
    }

    /// A call that must end with status 1.
    pub fn fails(&self, line: &str) -> String {
        let printed = self.call(line);
        assert_eq!(printed.status, 1, "{line}: {}", printed.out);
        printed.err
    }

    /// Each page's first byte, where all of its bytes are alike; none where the page is nowhere.
    pub fn pages(&self, numbers: impl IntoIterator<Item = u32>) -> Vec<Option<u8>> {
        numbers.into_iter().map(|n| self.page(n)).collect()
    }

    fn page(&self, n: u32) -> Option<u8> {
        let Output { stdout, status, .. } = self.command(&format!("read grips {n} -")).output().unwrap();
        if !status.success() {
            return None;
        }
        assert_eq!(stdout.len(), 4096, "page {n}");
        let alike = stdout.iter().all(|byte| *byte == stdout[0]);
        assert!(alike || n == 0, "page {n} is torn");
        Some(stdout[0])
    }

    /// That the store opens, has so many pages and lacks none.
    pub fn is_whole(&self, count: u32) {
        let printed = self.done("check grips");
        assert!(printed.starts_with(&format!("opens; pages: {count};")), "{printed}");
        assert!(!printed.contains("nowhere"), "{printed}");
    }

    pub fn snapshot(&self) -> Snapshot {
        let entries = fs::read_dir(&self.path).unwrap().map(|entry| entry.unwrap());
        let files = entries.filter(|entry| entry.file_type().unwrap().is_file());
        files.map(|entry| (entry.file_name(), fs::read(entry.path()).unwrap())).collect()
    }

    /// Makes the folder what it was: only files that are otherwise now are written.
    pub fn restore(&self, snapshot: &Snapshot) {
        let now = self.snapshot();
        for name in now.keys().filter(|name| !snapshot.contains_key(*name)) {
            fs::remove_file(self.path.join(name)).unwrap();
        }
        for (name, bytes) in snapshot.iter().filter(|(name, bytes)| now.get(*name) != Some(*bytes)) {
            fs::write(self.path.join(name), bytes).unwrap();
        }
    }
}

impl Drop for WorkDir {
    fn drop(&mut self) {
        let _ = fs::remove_dir_all(&self.path);
    }
}

/// An empty folder that no other test has.
pub fn fresh_folder() -> PathBuf {
    static MADE: AtomicU32 = AtomicU32::new(0);
    let name = format!("lateenbael-hurt-{}-{}", std::process::id(), MADE.fetch_add(1, Ordering::Relaxed));
    let path = std::env::temp_dir().join(name);
    fs::create_dir(&path).unwrap();
    path
}

/// Says why a test does nothing here. Standard error is written to directly, since a test's own output is kept back when it passes.
pub fn skipped(test: &str, why: &str) {
    use std::io::Write;
    let _ = writeln!(std::io::stderr(), "skipped: {test}: {why}");
}

/// Whether a path is there, whatever it leads to.
pub fn is_there(path: &Path) -> bool {
    fs::symlink_metadata(path).is_ok()
}
