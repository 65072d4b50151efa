//! Stagings, beside plain copies of the same bytes.

use std::hint::black_box;

use engine::sql::pager::page::PAGE_SIZE;

use lateenbael::sys::STAGED_PAGES;

use super::{Folder, assert_agreed, begin};
use crate::files::{self, Differs, Pool};
use crate::side::{Page, Side};
use crate::table::Table;
use crate::timing::{clock, each};
use crate::{port, rust};

/// How often all pages are staged for one sample.
const TIMES: usize = 16;

pub fn rows(table: &Table) {
    for (pages, drop) in [(1, false), (STAGED_PAGES, false), (STAGED_PAGES, true)] {
        let what = match drop {
            false => format!("one of {pages} again and again"),
            true => format!("{pages} anew, each, then dropped"),
        };
        row(table, &what, pages, drop);
    }
}

fn row(table: &Table, what: &str, pages: usize, drop: bool) {
    let mut pool = Pool::new(Differs::FromTheFirst);
    let pages: Vec<(u32, Page)> = (0..pages)
        .map(|_| {
            let (page_num, page) = pool.next();
            (page_num, *page)
        })
        .collect();
    let folder = Folder::new();
    let mut rust = rust::InFiles::new(folder.path());
    let mut port = port::InMemory::new(false);
    let (main, log) = (files::main(), files::empty_log());
    begin(&mut rust, &main, &log);
    begin(&mut port, &main, &log);
    for (page_num, page) in &pages {
        rust.stage(*page_num, page);
        port.stage(*page_num, page);
    }
    assert_agreed(&rust, &port);
    let rust = Box::new(|| sample(&mut rust, &pages, drop));
    let port = Box::new(|| sample(&mut port, &pages, drop));
    let mut area = vec![0; pages.len() * PAGE_SIZE];
    let copy = Box::new(|| copies(&mut area, &pages));
    table.row(what, rust, port, Some(("plain copy", copy)));
}

fn sample(side: &mut impl Side, pages: &[(u32, Page)], drop: bool) -> f64 {
    let time = clock(|| {
        for _ in 0..TIMES {
            for (page_num, page) in pages {
                side.stage(black_box(*page_num), black_box(page));
            }
            if drop {
                side.clear();
            }
        }
    });
    each(time, TIMES * pages.len())
}

fn copies(area: &mut [u8], pages: &[(u32, Page)]) -> f64 {
    let time = clock(|| {
        for _ in 0..TIMES {
            for (slot, (_, page)) in area.chunks_exact_mut(PAGE_SIZE).zip(pages) {
                black_box(slot).copy_from_slice(black_box(page));
            }
        }
    });
    each(time, TIMES * pages.len())
}
