//! Checkpoints of logs with so many pages.

use lateenbael::sys::STAGED_PAGES;

use super::{Beside, Folder, assert_agreed, begin, in_words};
use crate::files;
use crate::side::Side;
use crate::table::Table;
use crate::timing::{clock, each};
use crate::{port, rust};

pub fn rows(table: &Table) {
    let folder = Folder::new();
    for pages in [1, STAGED_PAGES as u32, 500] {
        let log = files::log(pages, pages + 1, pages + 1);
        let memory = (rust::InMemory::new(), port::InMemory::new(false));
        let what = format!("{}, in memory", in_words(pages as usize));
        row(table, &what, memory, &log, None);
        let rust = rust::InFiles::new(folder.path());
        let port = port::InFiles::new(folder.path(), false);
        let what = format!("{}, files", in_words(pages as usize));
        row(table, &what, (rust, port), &log, beside(&folder, pages));
    }
}

#[cfg(feature = "sqlite")]
fn beside(folder: &Folder, pages: u32) -> Beside {
    let mut sqlite = crate::sqlite::Sqlite::new(folder.path());
    let mut pool = files::Pool::new(files::Differs::FromTheFirst);
    let sample = move || {
        sqlite.commit(&mut pool, pages as usize);
        let time = each(clock(|| sqlite.checkpoint()), 1);
        sqlite.assert_holds(&pool);
        time
    };
    Some(("SQLite", Box::new(sample)))
}

#[cfg(not(feature = "sqlite"))]
fn beside(_: &Folder, _: u32) -> Beside {
    None
}

fn row(table: &Table, what: &str, sides: (impl Side, impl Side), log: &[u8], beside: Beside) {
    let (mut rust, mut port) = sides;
    let main = files::main();
    sample(&mut rust, &main, log);
    sample(&mut port, &main, log);
    assert_agreed(&rust, &port);
    let rust = Box::new(|| sample(&mut rust, &main, log));
    let port = Box::new(|| sample(&mut port, &main, log));
    table.row(what, rust, port, beside);
}

/// The files are put anew before.
fn sample(side: &mut impl Side, main: &[u8], log: &[u8]) -> f64 {
    begin(side, main, log);
    each(clock(|| side.checkpoint()), 1)
}
