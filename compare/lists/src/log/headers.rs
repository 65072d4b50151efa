//! The log's header: good, wrong and short; and the logs that the other
//! cases start from.

use engine::sql::pager::wal::WAL_MAGIC;

use super::recipe::Recipe;
use crate::batch::body::Body;
use crate::cases::Cases;

/// The header by its fields.
#[derive(Clone, Copy)]
pub struct Header {
    pub magic: [u8; 8],
    pub version: u32,
    pub page_size: u32,
    pub salt: u32,
    pub sequence: u32,
    pub clock: u64,
}

/// What creation writes, with any salt but 0.
pub const CREATED: Header = Header {
    magic: *WAL_MAGIC,
    version: 3,
    page_size: 4_096,
    salt: 0x1234_5678,
    sequence: 0,
    clock: 0,
};

impl Header {
    fn bytes(&self) -> Vec<u8> {
        let mut bytes = self.magic.to_vec();
        bytes.extend(self.version.to_le_bytes());
        bytes.extend(self.page_size.to_le_bytes());
        bytes.extend(self.salt.to_le_bytes());
        bytes.extend(self.sequence.to_le_bytes());
        bytes.extend(self.clock.to_le_bytes());
        bytes
    }

    /// A log of the header alone.
    pub fn log(&self) -> Recipe {
        Recipe::default().bytes(&self.bytes())
    }

    /// With a page and its commit frame.
    fn two_frames(&self) -> Recipe {
        self.log().page(1, 0, b"one").page(0, 2, b"")
    }
}

pub fn add_all(cases: &mut Cases) {
    example(cases);
    fields(cases);
    versions_and_page_sizes(cases);
    damaged_bytes(cases);
    short_logs(cases);
    several_faults(cases);
}

/// Document 01's, with the lengths of its cases.
fn example(cases: &mut Cases) {
    let header = Header { salt: 0, ..CREATED };
    let log = header.log().page(1, 0, b"").page(1, 2, b"");
    cases.add(log.clone());
    for length in [32, 33, 4_143, 4_144, 4_145, 8_255, 8_257, 12_367] {
        cases.add(log.clone().length(length));
    }
}

/// Salt, sequence and clock at their borders.
fn fields(cases: &mut Cases) {
    for number in [1, 255, 256, 65_535, 65_536, 1 << 31, u32::MAX, 0x0102_0304] {
        let salt = number;
        let sequence = number;
        cases.add(Header { salt, ..CREATED }.two_frames());
        cases.add(
            Header {
                sequence,
                ..CREATED
            }
            .log(),
        );
    }
    for clock in [1, 255, 1 << 32, u64::MAX, 1 << 63, 0x0102_0304_0506_0708] {
        for version in 1..=3 {
            let header = Header {
                version,
                clock,
                ..CREATED
            };
            cases.add(header.log());
        }
    }
}

/// Batches count under every version that is read. Also the good numbers
/// with their bytes moved.
fn versions_and_page_sizes(cases: &mut Cases) {
    let moved = [0x0100, 0x0300, 0x0001_0000, 0x0100_0000, 0x0300_0000];
    for version in (0..=7).chain(moved).chain([255, 257, u32::MAX]) {
        let header = Header { version, ..CREATED };
        let log = header.log().batch(0, Body::new(1, 1).tombstone("t", 1));
        cases.add(log.page(0, 2, b""));
    }
    let moved = [0x0010_0000, 0x1000_0000, 0x0001_1000, 0x0010];
    for page_size in [0, 1, 512, 4_095, 4_096, 4_097, 8_192, 65_536, u32::MAX]
        .into_iter()
        .chain(moved)
    {
        for version in 1..=3 {
            let header = Header {
                version,
                page_size,
                ..CREATED
            };
            cases.add(header.two_frames());
        }
    }
}

/// Each byte changed in three ways; where only the salt is, the frames
/// aren't good any more.
fn damaged_bytes(cases: &mut Cases) {
    let log = CREATED.two_frames();
    for at in 0..32 {
        for change in [0x01, 0x80, 0xff] {
            cases.add(log.clone().changed(at, change));
        }
    }
}

/// Lengths up to the header's own, of a header and of other bytes.
fn short_logs(cases: &mut Cases) {
    for length in 0..=32 {
        cases.add(Recipe::default().bytes(&CREATED.bytes()[..length]));
    }
    for length in [1, 8, 31, 32, 33] {
        cases.add(Recipe::default().bytes(&vec![0; length]));
        cases.add(Recipe::default().bytes(&vec![0xff; length]));
    }
}

/// Length, magic, version and page size, wrong in every combination: the
/// lowest number is the answer.
fn several_faults(cases: &mut Cases) {
    let other = *b"SQLRWAL1";
    for magic in [CREATED.magic, other, *b"SQLRiteF", *b"\0LAWRLQS"] {
        for version in [3, 0, 4] {
            for page_size in [4_096, 0] {
                let header = Header {
                    magic,
                    version,
                    page_size,
                    ..CREATED
                };
                cases.add(header.log());
                if magic == other {
                    cases.add(header.log().length(31));
                    cases.add(header.two_frames());
                }
            }
        }
    }
}
