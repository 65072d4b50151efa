//! Good frames, committed in every way.

use super::headers::CREATED;
use super::recipe::Recipe;
use crate::batch::body::Body;
use crate::cases::Cases;
use crate::frame::{Heading, SeededFrame};

pub fn add_all(cases: &mut Cases) {
    patterns(cases);
    pages_and_counts(cases);
    full_logs(cases);
}

/// Four frames, each a commit frame or not: different pages, one page, page 0
/// as the commit frame or not, batches between.
fn patterns(cases: &mut Cases) {
    let batch = Body::new(5, 1).tombstone("t", 1);
    for pages in [
        [1, 2, 3, 4],
        [5, 5, 5, 5],
        [0, 1, 0, 2],
        [u32::MAX, 1, u32::MAX, 0],
    ] {
        for commits in 0..16 {
            let mut log = CREATED.log();
            for (index, page) in pages.into_iter().enumerate() {
                let is_commit = commits >> index & 1 == 1;
                let count = if is_commit { 9 - index as u32 } else { 0 };
                let body = if page == u32::MAX {
                    batch.as_ref()
                } else {
                    &[b'a' + index as u8]
                };
                log = log.page(page, count, body);
            }
            cases.add(log);
        }
    }
}

/// Page numbers up to the last that is no batch, and commit counts.
fn pages_and_counts(cases: &mut Cases) {
    let numbers = [1, 2, 255, 256, 1_023, 1_024, 1_025, 65_536, 1 << 31];
    for number in numbers.into_iter().chain([u32::MAX - 1]) {
        for count in [0, 1] {
            cases.add(CREATED.log().page(number, count, b"page"));
        }
        for page in [0, 1] {
            let log = CREATED.log().page(page, number, b"");
            cases.add(log.page(page + 1, 0, b""));
        }
    }
    for count in [u32::MAX, 0x00ff_0000, 0xff00_0000] {
        cases.add(CREATED.log().page(0, count, b""));
    }
}

/// 0 to 15 frames: never committed, committed at the end, at every frame, at
/// the first, or two frames before the end.
fn full_logs(cases: &mut Cases) {
    for frames in 0..=15u32 {
        let log = |count: &dyn Fn(u32) -> u32, frame: &dyn Fn(Recipe, u32, u32) -> Recipe| {
            (0..frames).fold(CREATED.log(), |log, index| frame(log, index, count(index)))
        };
        let bare = |log: Recipe, index, count| log.page(index % 3, count, b"");
        let seeded = |log: Recipe, index, count| {
            let heading = Heading::new(index, count, log.salt());
            log.seeded(SeededFrame::new(heading, index as u8 % 6, 1_000 + index))
        };
        cases.add(log(&|_| 0, &bare));
        cases.add(log(&|index| u32::from(index + 1 == frames), &bare));
        cases.add(log(&|index| index + 1, &seeded));
        cases.add(log(&|index| u32::from(index == 0), &seeded));
        cases.add(log(&|index| u32::from(index + 3 == frames), &bare));
    }
}
