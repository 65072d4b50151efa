//! What the Rust's `Wal` makes of a log, printed as `loglist` prints it.
//!
//! `Wal` tells its header, its frame count and its last commit count. What
//! it keeps to itself is found out by further openings, so that still the
//! Rust decides: the version from how it refuses another, each frame from a
//! log of that frame alone, the commit point from what it lets be read.

use std::collections::HashMap;

use engine::error::Result;
use engine::mvcc::{MVCC_FRAME_MARKER, MvccCommitBatch};
use engine::sql::pager::page::PAGE_SIZE;
use engine::sql::pager::wal::{FRAME_HEADER_SIZE, FRAME_SIZE, WAL_HEADER_SIZE, Wal};
use stand_in::path::Path;
use stand_in::world;

use crate::refusal;

/// The lines for a log, or its refusal.
pub fn listed(log: &[u8]) -> String {
    let wal = match open(log) {
        Ok(wal) => wal,
        Err(error) => return refusal::answer(&error, &REFUSALS),
    };
    let header = wal.header();
    let mut lines = vec![format!(
        "log {} {:08x} {} {}",
        version(log),
        header.salt,
        header.checkpoint_seq,
        header.clock_high_water
    )];
    let (before, frames) = log.split_at(WAL_HEADER_SIZE);
    let count = wal.frame_count();
    for (index, frame) in frames.chunks(FRAME_SIZE).take(count).enumerate() {
        match described(before, frame) {
            Some(frame) => lines.push(format!("{index} {frame}")),
            None => assert_eq!(index, count - 1, "reading stops at such a frame"),
        }
    }
    let last = match wal.last_commit_page_count() {
        Some(count) => count.to_string(),
        None => "-".to_string(),
    };
    lines.push(format!("end {count} {} {last}", commit_point(log)));
    lines.join("\n")
}

/// By the text of the check that refused.
pub const REFUSALS: [(&str, u32); 4] = [
    ("(too short / bad magic)", 2),
    ("(bad magic)", 3),
    (OTHER_VERSION, 4),
    ("WAL page size", 5),
];

const OTHER_VERSION: &str = "unsupported WAL format version ";

fn path() -> Path {
    Path::from("log")
}

fn open(log: &[u8]) -> Result<Wal> {
    world::write_file(&path(), log);
    Wal::open(&path())
}

/// The Rust says nothing of a version that it takes, but names one that it
/// doesn't: it is asked about a copy with a version three higher.
fn version(log: &[u8]) -> u32 {
    let mut copy = log.to_vec();
    copy[8] += 3;
    let text = match open(&copy) {
        Ok(_) => panic!("4 to 6 are no versions"),
        Err(error) => error.to_string(),
    };
    let (_, behind) = text.split_once(OTHER_VERSION).expect("the version first");
    let (number, _) = behind.split_once(';').expect("then what it reads");
    number.parse::<u32>().expect("a number") - 3
}

/// A frame that is in order (salt and checksum agree), listed; or nothing if
/// it is a batch that doesn't decode.
///
/// Alone behind the log's header it shows its commit count. With an empty
/// batch as a commit frame behind it, it is the one page that the log has, or
/// the first of two batches. If it doesn't decode, the commit frame isn't
/// found.
fn described(header: &[u8], frame: &[u8]) -> Option<String> {
    let mut alone = open(&[header, frame].concat()).expect("the header is good");
    assert_eq!(alone.frame_count(), 1);
    let commit_count = alone.last_commit_page_count().unwrap_or(0);
    alone
        .append_frame(MVCC_FRAME_MARKER, &empty_batch(), Some(1))
        .expect("the stand-in's files take every store");

    let mut committed = Wal::open(&path()).expect("the header is good");
    if committed.frame_count() == 1 {
        return None;
    }
    let mut pages = HashMap::new();
    let loaded = committed.load_committed_into(&mut pages);
    loaded.expect("what was found can be read");
    let pages: Vec<_> = pages.into_iter().collect();
    match (&pages[..], committed.recovered_mvcc_commits()) {
        ([(page, body)], [_]) => {
            assert_eq!(body[..], frame[FRAME_HEADER_SIZE..]);
            Some(format!("page {page} {commit_count}"))
        }
        ([], [batch, _]) => Some(format!("batch {} {commit_count}", batch.records.len())),
        _ => panic!("a frame is one page or one batch"),
    }
}

fn empty_batch() -> Box<[u8; PAGE_SIZE]> {
    let batch = MvccCommitBatch {
        commit_ts: 0,
        records: Vec::new(),
    };
    batch.encode().expect("18 bytes fit")
}

/// `read_page` shows no frame that ends behind the commit point. So the file
/// is cut under the open log, an uncommitted frame added at the cut, and read.
/// The last cut at which it shows has the commit point at the frame's end,
/// to the byte; if it shows at none, nothing is committed.
fn commit_point(log: &[u8]) -> usize {
    let mut wal = open(log).expect("it was opened before");
    let mut shows_at = |cut: usize| {
        world::write_file(&path(), &log[..cut]);
        wal.append_frame(1, &[0; PAGE_SIZE], None)
            .and_then(|()| wal.read_page(1))
            .expect("the stand-in's files take every store")
            .is_some()
    };
    // Below `shown` it shows, from `hidden` on it doesn't.
    let (mut shown, mut hidden) = (0, log.len() + 1);
    while shown < hidden {
        let cut = (shown + hidden) / 2;
        if shows_at(cut) {
            shown = cut + 1;
        } else {
            hidden = cut;
        }
    }
    match shown {
        0 => WAL_HEADER_SIZE,
        _ => shown - 1 + FRAME_SIZE,
    }
}
