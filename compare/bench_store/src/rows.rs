//! The groups of rows, and what they share.

mod batch;
mod checkpoint;
mod commit;
mod opening;
mod own;
mod preview;
mod read;
mod stage;

use std::env;
use std::fs;
use std::path::{Path, PathBuf};
use std::process;

use crate::files::PAGE_COUNT;
use crate::side::Side;
use crate::table::Table;
use crate::timing::Sampler;

type Group = fn(&Table);

/// What is timed beside the two, with its name.
type Beside = Option<(&'static str, Sampler<'static>)>;

const BOTH: [&str; 4] = ["Rust", "port", "port / Rust", "beside: port / it"];
const OWN: [&str; 4] = ["commit", "its frames", "own cost", "the least: own cost"];
const PREVIEW: [&str; 4] = ["beginning", "preview", "preview / beginning", ""];

/// A group's name, its columns, and its rows.
pub const GROUPS: [(&str, [&str; 4], Group); 8] = [
    ("opening", BOTH, opening::rows),
    ("read", BOTH, read::rows),
    ("stage", BOTH, stage::rows),
    ("commit", BOTH, commit::rows),
    ("own", OWN, own::rows),
    ("preview", PREVIEW, preview::rows),
    ("fold", BOTH, checkpoint::rows),
    ("batch", BOTH, batch::rows),
];

/// A folder of its own on a file system in memory, removed at the end.
/// BENCH_FOLDER names another place.
struct Folder(PathBuf);

impl Folder {
    fn new() -> Self {
        let place = env::var_os("BENCH_FOLDER").map_or("/dev/shm".into(), PathBuf::from);
        let path = place.join(format!("bench_store-{}", process::id()));
        fs::create_dir(&path).expect("a folder can be made there");
        Self(path)
    }

    fn path(&self) -> &Path {
        &self.0
    }
}

impl Drop for Folder {
    fn drop(&mut self) {
        // Where it cannot be removed, it stays.
        let _ = fs::remove_dir_all(&self.0);
    }
}

/// So many pages, in words.
fn in_words(pages: usize) -> String {
    match pages {
        1 => "1 page".to_string(),
        _ => format!("{pages} pages"),
    }
}

/// Puts both files before a side and opens them.
fn begin(side: &mut impl Side, main: &[u8], log: &[u8]) {
    side.put(main, log);
    side.open();
}

/// What is as fast as you like must also be right: both read every page
/// alike.
fn assert_agreed(rust: &impl Side, port: &impl Side) {
    for page_num in 0..2 * PAGE_COUNT {
        let agree = rust.read(page_num) == port.read(page_num);
        assert!(agree, "the two read page {page_num} differently");
    }
}
