//! Openings of a store of 501 pages with a full log and with a small one, and
//! with one full of batches, whose times a clean opening reads.

use super::{Folder, assert_agreed, begin};
use crate::files::{self, PAGES};
use crate::side::Side;
use crate::table::Table;
use crate::timing::{clock, each};
use crate::{port, rust};

/// Whether the port opens cleanly, and how a row says it.
const MODES: [(bool, &str); 2] = [(false, ""), (true, " (port: clean)")];

pub fn rows(table: &Table) {
    let folder = Folder::new();
    for (frames, commit_each) in [(1_024, 8), (10, 5)] {
        let log = files::log(PAGES, frames, commit_each);
        for (clean, mode) in MODES {
            let memory = (rust::InMemory::new(), port::InMemory::new(clean));
            let what = format!("log of {frames} frames, in memory{mode}");
            row(table, &what, memory, &log);
            let rust = rust::InFiles::new(folder.path());
            let port = port::InFiles::new(folder.path(), clean);
            let what = format!("log of {frames} frames, files{mode}");
            row(table, &what, (rust, port), &log);
        }
    }
    let log = files::log_of_batches(1_024);
    for (clean, mode) in MODES {
        let memory = (rust::InMemory::new(), port::InMemory::new(clean));
        let what = format!("log of 1,023 batches and a seal, in memory{mode}");
        row(table, &what, memory, &log);
    }
}

fn row(table: &Table, what: &str, sides: (impl Side, impl Side), log: &[u8]) {
    let (mut rust, mut port) = sides;
    let main = files::main();
    begin(&mut rust, &main, log);
    begin(&mut port, &main, log);
    assert_agreed(&rust, &port);
    let rust = Box::new(|| sample(&mut rust));
    let port = Box::new(|| sample(&mut port));
    table.row(what, rust, port, None);
}

/// What was open is given back before.
fn sample(side: &mut impl Side) -> f64 {
    side.close();
    each(clock(|| side.open()), 1)
}
