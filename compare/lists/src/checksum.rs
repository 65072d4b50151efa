//! checksum_replay: the checksum that wal.rs stores in a frame's heading.
//!
//! A case is a frame with a drawn body, in 17 bytes.

#[cfg(test)]
use std::collections::HashMap;

use engine::sql::pager::page::PAGE_SIZE;
use splitmix::Random;

use crate::cases::Cases;
use crate::frame::{self, Heading, SeededFrame};
use crate::list::List;

pub fn list() -> List {
    List {
        name: "checksum_replay",
        longest: SeededFrame::LENGTH,
        room: 120_000,
        cases: cases(),
        preamble: Vec::new(),
        answer,
    }
}

fn answer(case: &[u8]) -> String {
    let checksum = frame::number(&SeededFrame::from_bytes(case).stored(), Heading::LENGTH);
    format!("{checksum:08x}")
}

fn cases() -> Vec<Vec<u8>> {
    let mut cases = Cases::default();
    zero_bodies(&mut cases);
    even_bodies(&mut cases);
    single_bytes(&mut cases);
    texts(&mut cases);
    at_random(&mut cases);
    runs_of_ones(&mut cases);
    cases.into_vec()
}

/// Document 01's starred cases first, then each heading byte alone.
fn zero_bodies(cases: &mut Cases) {
    for (page, commit_count) in [(0, 0), (1, 0), (1, 2)] {
        let heading = Heading::new(page, commit_count, 0);
        cases.add(SeededFrame::new(heading, 0, 0).to_bytes());
    }
    for at in 0..12 {
        for byte in [0x01, 0x80, 0xff] {
            let mut case = SeededFrame::default().to_bytes();
            case[at] = byte;
            cases.add(case);
        }
    }
}

/// All bytes alike, under headings from all zeros to all ones.
fn even_bodies(cases: &mut Cases) {
    for heading in [
        Heading::default(),
        Heading::new(7, 0, 0x1234_5678),
        Heading::new(0, 1_024, 0xdead_beef),
        Heading::new(u32::MAX, u32::MAX, u32::MAX),
    ] {
        for seed in [0, 1, 0x7f, 0x80, 0xa5, 0xfe, 0xff, 256, u32::MAX] {
            cases.add(SeededFrame::new(heading, 0, seed).to_bytes());
        }
    }
}

/// One byte in a body of zeros; the last value, above 255, wraps to 55. A
/// byte and its double at the next place give the same sum.
fn single_bytes(cases: &mut Cases) {
    let places = [
        0, 1, 2, 7, 8, 15, 16, 31, 32, 33, 2_047, 2_048, 4_063, 4_064, 4_094, 4_095,
    ];
    for place in places {
        for value in [1, 2, 0x80, 0xff, 0x155] {
            for salt in [0, 0x8000_0001] {
                let seed = place + value * PAGE_SIZE as u32;
                cases.add(SeededFrame::new(Heading::new(0, 0, salt), 4, seed).to_bytes());
            }
        }
    }
}

/// Texts of every length that could be off by one.
fn texts(cases: &mut Cases) {
    for length in [0, 1, 2, 4_094, 4_095, 4_096] {
        for round in [1, 1_000] {
            let seed = round * (PAGE_SIZE as u32 + 1) + length;
            cases.add(SeededFrame::new(Heading::new(1, 0, 0), 5, seed).to_bytes());
        }
    }
}

fn at_random(cases: &mut Cases) {
    let mut random = Random::new(2);
    for round in 0..180 {
        let page = random.u32() >> random.below(32);
        let commit_count = [0, random.u32() >> random.below(32)][round % 2];
        let heading = Heading::new(page, commit_count, random.u32());
        cases.add(SeededFrame::new(heading, (round % 6) as u8, random.u32()).to_bytes());
    }
}

/// Bodies of zeros, of 0xff, mostly of 0xff, of 0 or 0xff and of any bytes,
/// behind every heading whose sum is one long run of ones.
fn runs_of_ones(cases: &mut Cases) {
    let mut random = Random::new(7);
    for ones in 7..=20 {
        for place in 0..=20 - ones {
            let sum = (1 << (ones + place)) - (1 << place);
            let Some(heading) = heading_of(sum) else {
                continue;
            };
            for (kind, seed) in [
                (0, 0),
                (0, 0xff),
                (1, random.u32()),
                (2, random.u32()),
                (3, random.u32()),
            ] {
                cases.add(SeededFrame::new(heading, kind, seed).to_bytes());
            }
        }
    }
}

/// A heading with that sum, if there is one: each byte counts twice as much
/// as the next.
fn heading_of(sum: u32) -> Option<Heading> {
    let mut left = sum;
    let mut bytes = [0; Heading::LENGTH];
    for (at, byte) in bytes.iter_mut().enumerate() {
        let weight = 1 << (Heading::LENGTH - 1 - at);
        *byte = (left / weight).min(255) as u8;
        left -= u32::from(*byte) * weight;
    }
    (left == 0).then(|| Heading::from_bytes(&bytes))
}

/// Document 01's rule, in numbers without a width.
#[cfg(test)]
pub fn by_document(heading: &[u8], body: &[u8]) -> u64 {
    sum_over(sum_over(0, heading), body)
}

/// The sum carried from a start over bytes, by the same rule.
#[cfg(test)]
pub fn sum_over(start: u64, bytes: &[u8]) -> u64 {
    bytes
        .iter()
        .fold(start, |sum, byte| step(sum, *byte) % (1 << 32))
}

/// A step before it wraps.
#[cfg(test)]
fn step(sum: u64, byte: u8) -> u64 {
    2 * sum % (1 << 32) + sum / (1 << 31) + u64::from(byte)
}

/// That sums over the bytes meet all that sums in blocks of 8 and of 16 bytes
/// can: blocks whose rotated sum and weight carry out of the 32 bits or do
/// not, and among the first such with a step that wraps, and without.
#[cfg(test)]
pub fn assert_blocks_reached(sums: &[(u64, Vec<u8>)]) {
    for size in [8, 16] {
        let blocks = sums
            .iter()
            .flat_map(|(start, bytes)| blocks(size, *start, bytes));
        let mut met = HashMap::new();
        blocks.for_each(|block| *met.entry(block).or_insert(0) += 1);
        for block in [(false, false), (true, false), (true, true)] {
            assert!(met[&block] > 100, "{size}: {met:?}");
        }
        // A block that does not carry out has no step that wraps.
        assert!(!met.contains_key(&(false, true)));
    }
}

/// Of each whole block of a size, whether it carries out and whether one of
/// its steps wraps.
#[cfg(test)]
fn blocks(size: usize, start: u64, bytes: &[u8]) -> impl Iterator<Item = (bool, bool)> {
    let mut sum = start;
    bytes.chunks_exact(size).map(move |block| {
        let weight = block.iter().fold(0, |t, byte| 2 * t + u64::from(*byte));
        let rotated = u64::from((sum as u32).rotate_left(size as u32));
        let mut wraps = false;
        for byte in block {
            let next = step(sum, *byte);
            wraps |= next >= 1 << 32;
            sum = next % (1 << 32);
        }
        (rotated + weight >= 1 << 32, wraps)
    })
}

#[cfg(test)]
mod tests {
    use super::*;

    #[test]
    fn the_document_says_the_same() {
        for case in cases() {
            let body = SeededFrame::from_bytes(&case).body();
            let sum = by_document(&case[..Heading::LENGTH], &body);
            assert_eq!(answer(&case), format!("{sum:08x}"));
        }
    }

    #[test]
    fn the_headings_have_their_sums() {
        for sum in [0, 1, 0x7f00, 0xff00, 0xffff, 0x7ffff, 0xfe000, 255 * 4_095] {
            let heading = heading_of(sum).unwrap();
            assert_eq!(sum_over(0, &heading.to_bytes()), u64::from(sum));
        }
        assert!(heading_of(255 * 4_095 + 1).is_none());
    }

    #[test]
    fn the_bodies_meet_every_way_of_a_block() {
        let sums: Vec<_> = cases()
            .iter()
            .map(|case| {
                let heading = sum_over(0, &case[..Heading::LENGTH]);
                (heading, SeededFrame::from_bytes(case).body().to_vec())
            })
            .collect();
        assert_blocks_reached(&sums);
    }

    #[test]
    fn starred_cases() {
        let answers: Vec<_> = cases().iter().take(3).map(|case| answer(case)).collect();
        assert_eq!(answers, [0, 2_048, 2_304].map(|sum| format!("{sum:08x}")));
    }
}
