//! Reads of pages in any order, from each of their places and from all.

use std::hint::black_box;

use splitmix::mix;

use lateenbael::sys::STAGED_PAGES;

use super::{Folder, assert_agreed, begin};
use crate::files::{self, PAGE_COUNT, PAGES};
use crate::side::{Page, Side};
use crate::table::Table;
use crate::timing::{clock, each};
use crate::{port, rust};

/// Pages up to this one are in the log.
const IN_LOG: u32 = 250;

/// Every page with a number that this divides is staged, as many as there are
/// to be.
const STAGED: u32 = 20;

const READS: usize = 4_096;

pub fn rows(table: &Table) {
    let folder = Folder::new();
    let log = files::log(IN_LOG, IN_LOG + 1, IN_LOG + 1);
    let mut rust = rust::InFiles::new(folder.path());
    let mut port = port::InMemory::new(false);
    begin(&mut rust, &files::main(), &log);
    begin(&mut port, &files::main(), &log);
    let unstaged = |page_num: &u32| !page_num.is_multiple_of(STAGED);
    let places: [(&str, Vec<u32>); 4] = [
        ("in the log", (1..=IN_LOG).filter(unstaged).collect()),
        ("in main", (IN_LOG + 1..=PAGES).filter(unstaged).collect()),
        ("none", (PAGE_COUNT..2 * PAGE_COUNT).collect()),
        ("any that is there", (1..=PAGES).collect()),
    ];
    for staged in [0, 1, STAGED_PAGES as u32] {
        let pages: Vec<u32> = (1..=staged).map(|k| k * STAGED).collect();
        for &page_num in &pages {
            let bytes: Page = [page_num as u8; _];
            rust.stage(page_num, &bytes);
            port.stage(page_num, &bytes);
        }
        assert_agreed(&rust, &port);
        for (place, pages) in &places {
            let what = format!("{place}, {staged} staged");
            row(table, &what, &rust, &port, pages);
        }
        if staged > 0 {
            let what = format!("staged, {staged} staged");
            row(table, &what, &rust, &port, &pages);
        }
    }
}

fn row(table: &Table, what: &str, rust: &impl Side, port: &impl Side, pages: &[u32]) {
    let reads: Vec<u32> = (0..READS as u64)
        .map(|k| pages[mix(k + 1) as usize % pages.len()])
        .collect();
    let rust = Box::new(|| sample(rust, &reads));
    let port = Box::new(|| sample(port, &reads));
    table.row(what, rust, port, None);
}

fn sample(side: &impl Side, reads: &[u32]) -> f64 {
    let time = clock(|| {
        for &page_num in reads {
            black_box(side.read(black_box(page_num)));
        }
    });
    each(time, reads.len())
}
