//! Appends of a batch to the log.

use bench::bodies;

use super::{Folder, begin};
use crate::files;
use crate::side::{Page, Side};
use crate::table::Table;
use crate::timing::{clock, each};
use crate::{port, rust};

/// How many are appended for a sample; then the log is emptied.
const APPENDS: usize = 64;

pub fn rows(table: &Table) {
    let folder = Folder::new();
    for (name, batch) in bodies::all() {
        let body = batch.encode().expect("a batch that fits");
        for (built, how) in [(false, "from a body"), (true, "building included")] {
            let memory = (rust::InMemory::new(), port::InMemory::new(false));
            let what = format!("{name}, {how}, in memory");
            row(table, &what, memory, &body, built);
            let rust = rust::InFiles::new(folder.path());
            let port = port::InFiles::new(folder.path(), false);
            let what = format!("{name}, {how}, files");
            row(table, &what, (rust, port), &body, built);
        }
    }
}

fn row<R: Side, P: Side>(table: &Table, what: &str, sides: (R, P), body: &Page, built: bool) {
    let (mut rust, mut port) = sides;
    let (main, log) = (files::main(), files::empty_log());
    begin(&mut rust, &main, &log);
    begin(&mut port, &main, &log);
    let (for_rust, for_port) = (R::batch(body), P::batch(body));
    let mut rust = || sample(&mut rust, &for_rust, built, body);
    let mut port = || sample(&mut port, &for_port, built, body);
    rust();
    port();
    table.row(what, Box::new(rust), Box::new(port), None);
}

fn sample<S: Side>(side: &mut S, batch: &S::Batch, built: bool, body: &Page) -> f64 {
    side.checkpoint();
    let time = clock(|| {
        for _ in 0..APPENDS {
            match built {
                true => side.append_built(batch),
                false => side.append(body),
            }
        }
    });
    let log = side.log_file();
    assert!(log.ends_with(body), "another body was appended");
    each(time, APPENDS)
}
