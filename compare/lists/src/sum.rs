//! sum_replay: the sum that wal.rs computes, carried from any start over any
//! bytes.
//!
//! A case is a start and a part of a drawn body, in 13 bytes.

use engine::sql::pager::page::PAGE_SIZE;
use splitmix::Random;

use crate::cases::Cases;
use crate::frame::{self, Heading, SeededFrame};
use crate::list::List;

/// The longest part that every kind of body is cut to in turn.
const LONGEST: u16 = 600;

pub fn list() -> List {
    List {
        name: "sum_replay",
        longest: Part::LENGTH,
        room: 120_000,
        cases: cases(),
        preamble: Vec::new(),
        answer,
    }
}

/// The start (4 bytes, little endian), the body's kind (1) and its seed (4),
/// the place of the part in the body and its length (2 each).
#[derive(Clone, Copy)]
struct Part {
    start: u32,
    kind: u8,
    seed: u32,
    place: u16,
    length: u16,
}

impl Part {
    const LENGTH: usize = 13;

    fn to_bytes(self) -> Vec<u8> {
        let mut bytes = self.start.to_le_bytes().to_vec();
        bytes.push(self.kind);
        bytes.extend(self.seed.to_le_bytes());
        bytes.extend(self.place.to_le_bytes());
        bytes.extend(self.length.to_le_bytes());
        bytes
    }

    fn from_bytes(bytes: &[u8]) -> Self {
        assert_eq!(bytes.len(), Self::LENGTH);
        let short = |at: usize| u16::from_le_bytes([bytes[at], bytes[at + 1]]);
        Self {
            start: frame::number(bytes, 0),
            kind: bytes[4],
            seed: frame::number(bytes, 5),
            place: short(9),
            length: short(11),
        }
    }

    fn bytes(self) -> Vec<u8> {
        let body = SeededFrame::new(Heading::default(), self.kind, self.seed).body();
        let place = usize::from(self.place);
        body[place..place + usize::from(self.length)].to_vec()
    }
}

/// Bytes that take the sum from 0 to a number: each of its four bytes is
/// rotated by eight places on the way to the next.
fn lead_to(start: u32) -> Vec<u8> {
    let [first, second, third, fourth] = start.to_be_bytes();
    let mut lead = vec![0; 25];
    (lead[0], lead[8], lead[16], lead[24]) = (first, second, third, fourth);
    lead
}

/// `compute_checksum` takes a heading and a whole body, and starts at 0. So
/// the heading is zeros, which leave 0 as it is, and so are the body's first
/// bytes; behind them come those that lead to the start, and then the part.
fn answer(case: &[u8]) -> String {
    let part = Part::from_bytes(case);
    let bytes = [lead_to(part.start), part.bytes()].concat();
    let mut body = [0; PAGE_SIZE];
    body[PAGE_SIZE - bytes.len()..].copy_from_slice(&bytes);
    let checksum = frame::number(&Heading::default().stored(&body), Heading::LENGTH);
    format!("{checksum:08x}")
}

fn cases() -> Vec<Vec<u8>> {
    let mut cases = Cases::default();
    let mut random = Random::new(6);
    every_length(&mut cases, &mut random);
    every_run(&mut cases, &mut random);
    cases.into_vec()
}

/// All 0xff, any bytes, mostly 0xff, 0 or 0xff.
fn kinds(random: &mut Random) -> [(u8, u32); 4] {
    [
        (0, 0xff),
        (1, random.u32()),
        (2, random.u32()),
        (3, random.u32()),
    ]
}

/// Parts of every length from 0 on, of each kind, from starts of every kind.
fn every_length(cases: &mut Cases, random: &mut Random) {
    for length in 0..=LONGEST {
        for (kind, seed) in kinds(random) {
            let start = match random.below(3) {
                0 => random.u32(),
                1 => 0,
                _ => run(7 + random.below(26) as u32, random.below(32) as u32),
            };
            let part = Part {
                start,
                kind,
                seed,
                place: random.below(PAGE_SIZE - usize::from(LONGEST)) as u16,
                length,
            };
            cases.add(part.to_bytes());
        }
    }
}

/// Starts with every long run of ones, wherever it stands, before parts that
/// a block or two of eight or sixteen bytes cover, or do not quite.
fn every_run(cases: &mut Cases, random: &mut Random) {
    for ones in 7..=32 {
        for place in 0..32 {
            let kinds = kinds(random);
            let (kind, seed) = random.pick(&kinds);
            // Half of them with some places turned over.
            let turned = [0, random.u32() & random.u32() & random.u32()];
            let part = Part {
                start: run(ones, place) ^ random.pick(&turned),
                kind,
                seed,
                place: 0,
                length: random.pick(&[8, 9, 15, 16, 17, 24, 31, 32, 33, 48]),
            };
            cases.add(part.to_bytes());
        }
    }
}

/// So many ones, from that place on and round.
fn run(ones: u32, place: u32) -> u32 {
    (u32::MAX >> (32 - ones)).rotate_left(place)
}

#[cfg(test)]
mod tests {
    use super::*;
    use crate::checksum::{assert_blocks_reached, sum_over};

    #[test]
    fn the_document_says_the_same() {
        for case in cases() {
            let part = Part::from_bytes(&case);
            let sum = sum_over(part.start.into(), &part.bytes());
            assert_eq!(answer(&case), format!("{sum:08x}"));
        }
    }

    #[test]
    fn leads() {
        for start in [0, 1, 0x1234_5678, 0xdead_beef, u32::MAX - 1, u32::MAX] {
            assert_eq!(sum_over(0, &lead_to(start)), u64::from(start));
        }
    }

    #[test]
    fn every_length_is_there() {
        let lengths = |kind| {
            let parts = cases().into_iter().map(|case| Part::from_bytes(&case));
            let mut lengths: Vec<_> = parts
                .filter(|part| part.kind == kind)
                .map(|part| part.length)
                .collect();
            lengths.sort();
            lengths.dedup();
            lengths
        };
        for kind in 0..4 {
            assert_eq!(lengths(kind), (0..=LONGEST).collect::<Vec<_>>());
        }
    }

    #[test]
    fn the_parts_meet_every_way_of_a_block() {
        let sums: Vec<_> = cases()
            .iter()
            .map(|case| Part::from_bytes(case))
            .map(|part| (part.start.into(), part.bytes()))
            .collect();
        assert_blocks_reached(&sums);
    }
}
