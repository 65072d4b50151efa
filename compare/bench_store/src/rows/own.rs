//! A commit's own cost: what it takes beside the frames that it appends, and
//! beside the least that a commit must do.

use std::cell::RefCell;

use lateenbael::sys;

use engine::sql::pager::header::encode_header;
use engine::sql::pager::page::PAGE_SIZE;

use super::commit::{Commits, in_a_row};
use super::{begin, in_words};
use crate::files::{self, Differs, Pool};
use crate::port::{HEADER, InMemory};
use crate::side::Side;
use crate::table::Table;
use crate::timing::{clock, each};

pub fn rows(table: &Table) {
    for differs in [
        Differs::FromTheFirst,
        Differs::InTheMiddle,
        Differs::AtTheLast,
    ] {
        for pages in [1, 4, 8, 16, sys::STAGED_PAGES] {
            let what = format!("{}, {}", in_words(pages), differs.name());
            row(table, &what, pages, differs);
        }
    }
}

fn row(table: &Table, what: &str, pages: usize, differs: Differs) {
    let commits = Commits::alone(pages, differs);
    let mut pool = Pool::new(differs);
    let mut port = InMemory::new(false);
    begin(&mut port, &files::main(), &files::empty_log());
    commits.sample(&mut port, &mut pool);
    let frame = commit_frame(port.engine.store().wal);
    let both = RefCell::new((port, pool));
    let whole = Box::new(|| {
        let (port, pool) = &mut *both.borrow_mut();
        commits.sample(port, pool)
    });
    let parts = [None, Some(&*frame)].map(|frame| {
        let both = &both;
        Box::new(move || {
            let (port, pool) = &mut *both.borrow_mut();
            frames(port, pool, pages, frame)
        })
    });
    let [frames, least] = parts;
    table.own_cost(what, whole, frames, least);
}

/// Appends the same frames with the log's own call, to the log area behind a
/// checkpoint, as the commits between two checkpoints do, each time of pages
/// that were just staged. With a commit frame, each page is compared before
/// with its bytes in the main area, as a commit must, and the commit frame is
/// copied with the sum that it has, since a commit need not sum its zeros. The
/// mean of a commit's.
fn frames(port: &mut InMemory, pool: &mut Pool, pages: usize, frame: Option<&[u8]>) -> f64 {
    port.checkpoint();
    let mut wal = port.engine.store().wal;
    let header = header_page();
    let commits = in_a_row(pages);
    let time = (0..commits)
        .map(|_| {
            for _ in 0..pages {
                let (page_num, page) = pool.next();
                port.stage(page_num, page);
            }
            let engine = &mut port.engine;
            let staged = engine.store().staged;
            let time = clock(|| {
                let bodies = engine.staging.chunks_exact(PAGE_SIZE);
                if frame.is_some() {
                    let places = staged.pages[..pages]
                        .iter()
                        .map(|&n| n as usize * PAGE_SIZE);
                    let same = |(body, at): (&[u8], usize)| body == &engine.main[at..][..PAGE_SIZE];
                    assert!(!bodies.clone().zip(places).any(same), "they differ");
                }
                for (k, body) in bodies.take(pages).enumerate() {
                    append(&mut engine.log, &mut wal, k as u32 + 1, body, 0);
                }
                match frame {
                    None => append(&mut engine.log, &mut wal, 0, &header, HEADER.page_count),
                    Some(frame) => {
                        engine.log[wal.len..][..frame.len()].copy_from_slice(frame);
                        wal.len += frame.len();
                    }
                }
            });
            port.clear();
            time
        })
        .sum();
    each(time, commits)
}

/// The commit frame of every commit behind a checkpoint, whose salt stays the
/// same.
fn commit_frame(mut wal: sys::Wal) -> Vec<u8> {
    let mut log = vec![0; sys::LOG_AREA];
    let at = wal.len;
    append(&mut log, &mut wal, 0, &header_page(), HEADER.page_count);
    log[at..wal.len].to_vec()
}

fn append(log: &mut [u8], wal: &mut sys::Wal, page_num: u32, body: &[u8], count: u32) {
    // Safety: it reads the body lent to it, and writes the log alone.
    let answer = unsafe {
        sys::lateenbael_wal_append_frame(
            log.as_mut_ptr(),
            log.len(),
            *wal,
            page_num,
            body.as_ptr(),
            body.len(),
            count,
        )
    };
    assert_eq!(answer.refusal, 0);
    *wal = answer.wal;
}

fn header_page() -> [u8; PAGE_SIZE] {
    encode_header(&engine::sql::pager::header::DbHeader {
        page_count: HEADER.page_count,
        schema_root_page: HEADER.schema_root_page,
        format_version: HEADER.format_version,
        freelist_head: HEADER.freelist_head,
    })
}
