//! items_replay: how far a batch is read, or why it is refused, and how many
//! items were read.
//!
//! A case: its kind (1 byte), the body's length (2 bytes, little endian) and
//! the bytes at the body's front; the rest of the body is zeros. The Rust
//! counts no items, so the answers are those of the crate `items`.

pub mod at_random;
mod by_hand;
#[cfg(test)]
mod by_rust;
mod swept;

use crate::batch;
use crate::batch::body::Body;
use crate::batch::damaged::{CHANGES, changed};
use crate::batch::limits::of_length;
use crate::cases::Cases;
use crate::list::List;

/// What is asked of a body: it as it is; cut at every length; each byte of
/// its front changed.
const WHOLE: u8 = 0;
const CUT: u8 = 1;
const CHANGED: u8 = 2;

pub fn list() -> List {
    List {
        name: "items_replay",
        longest: 4_096,
        room: 524_288,
        cases: cases(),
        preamble: Vec::new(),
        answer,
    }
}

/// A line for each body.
fn answer(case: &[u8]) -> String {
    let bodies = bodies(case).into_iter();
    let lines: Vec<_> = bodies
        .map(|body| ::items::read(&body).to_string())
        .collect();
    lines.join("\n")
}

/// The bodies that a case asks for, in their order.
fn bodies(case: &[u8]) -> Vec<Vec<u8>> {
    let (kind, told) = case.split_first().expect("a kind");
    let body = batch::body(told);
    let front = told.len() - 2;
    match *kind {
        WHOLE => vec![body],
        CUT => (0..=body.len())
            .map(|length| body[..length].to_vec())
            .collect(),
        CHANGED => (0..front)
            .flat_map(|at| CHANGES.map(|change| changed(&body, at, change)))
            .collect(),
        kind => panic!("no kind {kind}"),
    }
}

/// A case with as few bytes of the body as tell it.
fn case(kind: u8, body: impl AsRef<[u8]>) -> Vec<u8> {
    [vec![kind], batch::case(body)].concat()
}

/// A case with all bytes of a front, and zeros behind it up to a length.
fn case_of_front(kind: u8, front: &Body, length: usize) -> Vec<u8> {
    let length = (length as u16).to_le_bytes();
    [&[kind], &length[..], front.as_ref()].concat()
}

/// A row of an empty table. The zeros behind it, up to a length, are null
/// columns with empty names, then tombstones.
fn null_columns(records: u16, columns: u16, length: usize) -> Vec<u8> {
    of_length(&Body::new(14, records).present("", 0, columns), length)
}

/// Zeros behind a heading are tombstones.
fn tombstones(records: u16, length: usize) -> Vec<u8> {
    of_length(&Body::new(14, records), length)
}

fn cases() -> Vec<Vec<u8>> {
    let mut cases = Cases::default();
    by_hand::add_all(&mut cases);
    at_random::add_all(&mut cases);
    swept::add_all(&mut cases);
    cases.into_vec()
}

#[cfg(test)]
mod tests {
    use super::*;
    use std::collections::{BTreeMap, BTreeSet};
    use std::ops::RangeInclusive;

    use ::items::{LONGEST, MOST, Reading};
    use splitmix::Random;

    fn all_bodies() -> impl Iterator<Item = Vec<u8>> {
        cases().into_iter().flat_map(|case| bodies(&case))
    }

    fn assert_same(body: &[u8]) {
        assert_eq!(::items::read(body), by_rust::read(body), "{body:02x?}");
    }

    #[test]
    fn the_rust_says_the_same() {
        all_bodies().for_each(|body| assert_same(&body));
    }

    /// Of bodies that were not made for their items.
    #[test]
    fn the_rust_says_the_same_of_the_other_list() {
        for case in batch::list().cases {
            assert_same(&batch::body(&case));
        }
    }

    #[test]
    fn the_rust_says_the_same_of_drawn_bodies() {
        let mut random = Random::new(16);
        for round in 0..10_000 {
            assert_same(&batch::at_random::bytes(&mut random, round % 6));
            assert_same(&at_random::heavy(&mut random));
        }
    }

    #[test]
    fn the_lines_of_a_case() {
        let row = Body::new(0, 1).tombstone("", 0);
        assert_eq!(case(WHOLE, &row)[..3], [0, 29, 0]);
        assert_eq!(answer(&case(WHOLE, &row)), "end 29 items 1");
        let cuts = answer(&case(CUT, &row));
        let cuts: Vec<_> = cuts.lines().collect();
        assert_eq!(cuts.len(), 30);
        assert_eq!(cuts[17], "refused 2 items 0");
        assert_eq!(cuts[18..29], ["refused 17 items 0"; 11]);
        assert_eq!(cuts[29], "end 29 items 1");
        let changed = answer(&case_of_front(CHANGED, &row, 40));
        let changed: Vec<_> = changed.lines().collect();
        assert_eq!(changed.len(), 3 * 29);
        assert_eq!(changed[..24], ["refused 3 items 0"; 24]);
        // the record count: 0, 129 and 254
        let counts = ["end 18 items 0", "refused 17 items 2", "refused 17 items 2"];
        assert_eq!(changed[48..51], counts);
        // the op: 1, 128 and 255
        let ops = ["end 31 items 1", "refused 18 items 0", "refused 18 items 0"];
        assert_eq!(changed[54..57], ops);
    }

    /// The items of bodies that have 1,356 or more, and whether they are read
    /// to the end.
    fn heaviest(lengths: RangeInclusive<usize>) -> BTreeSet<(usize, bool)> {
        all_bodies()
            .filter(|body| lengths.contains(&body.len()))
            .map(|body| ::items::read(&body))
            .filter(|reading| reading.items >= MOST)
            .map(|reading| (reading.items, reading.outcome.is_ok()))
            .collect()
    }

    #[test]
    fn the_heaviest_are_there_and_none_is_heavier() {
        let most = BTreeSet::from([(MOST, false), (MOST, true)]);
        for length in [4_096, 4_097, LONGEST] {
            assert_eq!(heaviest(length..=length), most, "{length}");
        }
        assert_eq!(heaviest(0..=LONGEST), most);
        let more = BTreeSet::from([(MOST + 1, false), (MOST + 1, true)]);
        assert!(heaviest(LONGEST + 1..=LONGEST + 1).is_superset(&more));
        assert!(
            heaviest(0..=LONGEST + 2)
                .iter()
                .all(|(items, _)| *items <= MOST + 1)
        );
    }

    /// The list would be worth little if nearly all were refused alike.
    #[test]
    fn every_answer_comes_often() {
        let mut found = BTreeMap::new();
        for body in all_bodies() {
            let Reading { outcome, items } = ::items::read(&body);
            let kind = outcome.err().unwrap_or(0);
            *found.entry((kind, items.min(3))).or_insert(0) += 1;
        }
        let kinds: Vec<_> = found.keys().copied().collect();
        let judged_later = [0, 17, 18, 19].into_iter();
        let mut wanted: Vec<_> = judged_later
            .flat_map(|number| [0, 1, 2, 3].map(|items| (number, items)))
            .chain([(2, 0), (3, 0)])
            .collect();
        wanted.sort_unstable();
        assert_eq!(kinds, wanted);
        assert!(found.values().all(|count| *count >= 15), "{found:?}");
    }
}
