//! Previews beside the beginnings of the same commits, which judge as much and
//! write nothing either: the port alone.

use lateenbael::sys::{self, PreviewAnswered};

use super::{begin, in_words};
use crate::files::{self, Differs, Pool};
use crate::port::{HEADER, InMemory, SALT};
use crate::side::Side;
use crate::table::Table;
use crate::timing::{clock, each};

/// How many are timed for a sample.
const CALLS: usize = 256;

pub fn rows(table: &Table) {
    for differs in [
        Differs::FromTheFirst,
        Differs::InTheMiddle,
        Differs::AtTheLast,
    ] {
        for pages in [1, 8, sys::STAGED_PAGES] {
            let what = format!("{}, {}", in_words(pages), differs.name());
            row(table, &what, pages, differs);
        }
    }
}

fn row(table: &Table, what: &str, pages: usize, differs: Differs) {
    let mut port = InMemory::new(false);
    begin(&mut port, &files::main(), &files::empty_log());
    let mut pool = Pool::new(differs);
    for _ in 0..pages {
        let (page_num, page) = pool.next();
        port.stage(page_num, page);
    }
    let (begun, shown) = (begin_commit(&port), preview_commit(&port));
    assert_eq!((begun.refusal, shown.refusal), (0, 0));
    assert_eq!(shown.answer, pages);
    let sample = |call: fn(&InMemory) -> u32| {
        let port = &port;
        Box::new(move || {
            let time = clock(|| (0..CALLS).map(|_| call(port)).sum::<u32>());
            each(time, CALLS)
        })
    };
    let begin = sample(|port| begin_commit(port).refusal);
    let preview = sample(|port| preview_commit(port).refusal);
    table.row(what, begin, preview, None);
    assert_made(&mut port, &shown);
}

/// The commit comes to what was shown.
fn assert_made(port: &mut InMemory, shown: &PreviewAnswered) {
    assert_eq!(port.commit(), shown.answer);
    let store = port.engine.store();
    let left = (store.wal.frame_count, store.wal.len, store.storage.len);
    assert_eq!(left, (shown.frame_count, shown.log_len, shown.main_len));
}

/// A call over the areas as they are.
macro_rules! over_areas {
    ($port:ident, $call:path $(, $behind:expr)*) => {{
        let engine = &$port.engine;
        // Safety: it reads the areas lent to it, and writes none.
        unsafe {
            $call(
                *engine.store(),
                engine.table.as_ptr(),
                engine.table.len(),
                engine.log.as_ptr(),
                engine.log.len(),
                engine.main.as_ptr(),
                engine.main.len(),
                engine.staging.as_ptr(),
                engine.staging.len(),
                HEADER,
                $($behind,)*
            )
        }
    }};
}

fn begin_commit(port: &InMemory) -> sys::Answered {
    over_areas!(port, sys::lateenbael_begin_commit, SALT)
}

fn preview_commit(port: &InMemory) -> PreviewAnswered {
    over_areas!(port, sys::lateenbael_preview_commit)
}
