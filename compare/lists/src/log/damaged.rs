//! Frames with a changed byte or another salt.

use super::cuts::three_frames;
use super::headers::{CREATED, Header};
use super::place;
use super::recipe::Recipe;
use crate::cases::Cases;
use crate::frame::{Heading, SeededFrame};

pub fn add_all(cases: &mut Cases) {
    headings(cases);
    bodies(cases);
    unseen(cases);
    other_salts(cases);
}

/// Each byte of each heading, changed in three ways.
fn headings(cases: &mut Cases) {
    for index in 0..3 {
        for at in 0..16 {
            for change in [0x01, 0x80, 0xff] {
                cases.add(three_frames().changed(place(index) + at, change));
            }
        }
    }
}

fn bodies(cases: &mut Cases) {
    for index in 0..3 {
        for at in [0, 1, 2, 31, 32, 2_047, 2_048, 4_094, 4_095] {
            let change = if at % 2 == 0 { 0x01 } else { 0x80 };
            cases.add(three_frames().changed(place(index) + 16 + at, change));
        }
    }
}

/// Changes that the sum doesn't see: a byte one less and the next one two
/// more. In a heading they make another page of it, or a commit frame, or
/// another salt. Then bytes swapped that are 32 places apart: between them the
/// sum turns once around.
fn unseen(cases: &mut Cases) {
    let less_and_more = |log: Recipe, at: usize| {
        let before = log.log()[at] - 1;
        let behind = log.log()[at + 1] + 2;
        log.put(at, &[before, behind])
    };
    for at in [0, 1, 2, 31, 100, 3_000, 4_094] {
        // One byte, 1, in a body of zeros.
        let frame = SeededFrame::new(Heading::new(1, 2, CREATED.salt), 4, at + 4_096);
        let log = CREATED.log().seeded(frame).page(2, 3, b"");
        cases.add(less_and_more(log, place(0) + 16 + at as usize));
    }
    for heading in [
        [0x0000_0001, 0],
        [0x0001_0000, 2],
        [0x0100_0000, 0],
        [0xff00_ffff, 5],
        [7, 0x0000_0001],
        [7, 0x0001_0000],
        [7, 0x0100_0000],
    ] {
        let [page, count] = heading;
        let log = CREATED.log().page(page, count, b"").page(2, 0, b"");
        for at in 0..8 {
            let [this, next] = [0, 1].map(|more| log.log()[place(0) + at + more]);
            if this > 0 && next < 254 {
                cases.add(less_and_more(log.clone(), place(0) + at));
            }
        }
    }
    for [one, other] in [[1, 0], [0x80, 0x7f], [0xff, 0x01], [0x10, 0xef]] {
        let mut body = vec![0; 64];
        body[10] = one;
        body[42] = other;
        let log = CREATED.log().page(1, 2, &body).page(2, 3, b"");
        let log = log.put(place(0) + 16 + 10, &[other]);
        cases.add(log.put(place(0) + 16 + 42, &[one]));
    }
}

/// One of three frames, or all, with another salt, else in order. The last
/// is the log's with its bytes swapped.
fn other_salts(cases: &mut Cases) {
    for salt in [0, CREATED.salt] {
        let header = Header { salt, ..CREATED };
        for other in [
            salt ^ 1,
            salt ^ 0x8000_0000,
            !salt.swap_bytes(),
            0x7856_3412,
        ] {
            let heading = |index, odd| {
                let count = [0, 2, 3][index];
                Heading::new(index as u32, count, if odd { other } else { salt })
            };
            for odd in 0..4 {
                let log = (0..3).fold(header.log(), |log, index| {
                    log.frame(heading(index, odd == index || odd == 3), b"body")
                });
                cases.add(log);
            }
        }
    }
}
