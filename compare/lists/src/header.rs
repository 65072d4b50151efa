//! header_replay: `decode_header` and `encode_header` of header.rs.
//!
//! A case describes the buffer to decode: its length (2 bytes, little
//! endian), a fill byte, and a prefix of 0 to 64 bytes. The buffer is the
//! prefix, cut to the length, and then the fill byte up to the length.

use engine::sql::pager::header::{DbHeader, MAGIC, decode_header, encode_header};
use splitmix::Random;

use crate::cases::Cases;
use crate::hex;
use crate::list::List;
use crate::refusal;

pub fn list() -> List {
    List {
        name: "header_replay",
        longest: 3 + 64,
        room: 120_000,
        cases: cases(),
        preamble: Vec::new(),
        answer,
    }
}

fn answer(case: &[u8]) -> String {
    match decode_header(&buffer(case)) {
        Ok(header) => described(header),
        Err(error) => refusal::answer(&error, &REFUSALS),
    }
}

fn buffer(case: &[u8]) -> Vec<u8> {
    let length = u16::from_le_bytes([case[0], case[1]]);
    let mut buffer = case[3..].to_vec();
    buffer.resize(length.into(), case[2]);
    buffer
}

/// The four fields, and what encoding makes of them: the 32 bytes that
/// count, and how many of the others aren't zero.
fn described(header: DbHeader) -> String {
    let DbHeader {
        page_count,
        schema_root_page,
        format_version,
        freelist_head,
    } = header;
    let encoded = encode_header(&header);
    let digits = hex::digits(&encoded[..32]);
    let nonzero = encoded[32..].iter().filter(|byte| **byte != 0).count();
    format!(
        "ok {page_count} {schema_root_page} {format_version} {freelist_head} {digits} {nonzero}"
    )
}

/// By the text of the check that refused.
const REFUSALS: [(&str, u32); 4] = [
    ("header buffer length", 2),
    ("bad magic bytes", 3),
    ("unsupported SQLRite format version", 4),
    ("unsupported page size", 5),
];

/// The 32 bytes that count, by their fields.
#[derive(Clone, Copy)]
struct Fields {
    magic: [u8; 16],
    version: u16,
    page_size: u16,
    page_count: u32,
    root: u32,
    freelist: u32,
}

/// What creation writes.
const CREATED: Fields = Fields {
    magic: *MAGIC,
    version: 4,
    page_size: 4_096,
    page_count: 2,
    root: 1,
    freelist: 0,
};

impl Fields {
    fn bytes(&self) -> Vec<u8> {
        let mut bytes = self.magic.to_vec();
        bytes.extend(self.version.to_le_bytes());
        bytes.extend(self.page_size.to_le_bytes());
        bytes.extend(self.page_count.to_le_bytes());
        bytes.extend(self.root.to_le_bytes());
        bytes.extend(self.freelist.to_le_bytes());
        bytes
    }
}

const PAGE: u16 = 4_096;
const VERSIONS: [u16; 3] = [4, 5, 6];
const FILLS: [u8; 3] = [0x00, 0xff, 0xa5];
const WRONG_LENGTHS: [u16; 8] = [0, 1, 2, 31, 32, 4_095, 4_097, 65_535];

fn case(length: u16, fill: u8, prefix: &[u8]) -> Vec<u8> {
    let mut case = length.to_le_bytes().to_vec();
    case.push(fill);
    case.extend(prefix);
    case
}

fn cases() -> Vec<Vec<u8>> {
    let mut cases = Cases::default();
    good_fields(&mut cases);
    good_at_random(&mut cases);
    damaged_bytes(&mut cases);
    versions_and_page_sizes(&mut cases);
    lengths(&mut cases);
    several_faults(&mut cases);
    short_prefixes(&mut cases);
    cases.into_vec()
}

/// Each field at its borders, under each version and each fill.
fn good_fields(cases: &mut Cases) {
    let borders = [0, 1, 2, 255, 256, 65_535, 65_536, 1 << 31, u32::MAX];
    for version in VERSIONS {
        let base = Fields { version, ..CREATED };
        for border in borders {
            let page_count = border;
            let root = border;
            let freelist = border;
            for fields in [
                Fields { page_count, ..base },
                Fields { root, ..base },
                Fields { freelist, ..base },
            ] {
                for fill in FILLS {
                    cases.add(case(PAGE, fill, &fields.bytes()));
                }
            }
        }
    }
}

/// Any fields, any fill, and up to 32 bytes behind those that count.
fn good_at_random(cases: &mut Cases) {
    let mut random = Random::new(1);
    for _ in 0..80 {
        let fields = Fields {
            version: random.pick(&VERSIONS),
            page_count: random.u32(),
            root: random.u32(),
            freelist: random.u32(),
            ..CREATED
        };
        let mut prefix = fields.bytes();
        let behind = random.below(33);
        prefix.extend(random.bytes(behind));
        cases.add(case(PAGE, random.u8(), &prefix));
    }
}

/// Each byte that counts, changed in three ways, in two headers.
fn damaged_bytes(cases: &mut Cases) {
    let busy = Fields {
        version: 6,
        page_count: 0x0102_0304,
        root: 0x0506_0708,
        freelist: 0x090a_0b0c,
        ..CREATED
    };
    for fields in [CREATED, busy] {
        for at in 0..32 {
            for change in [0x01, 0x80, 0xff] {
                let mut prefix = fields.bytes();
                prefix[at] ^= change;
                cases.add(case(PAGE, 0, &prefix));
            }
        }
    }
}

/// Also the good ones with their two bytes swapped.
fn versions_and_page_sizes(cases: &mut Cases) {
    let swapped = VERSIONS.map(u16::swap_bytes);
    for version in (0..=260).chain(swapped).chain([65_535]) {
        let fields = Fields { version, ..CREATED };
        cases.add(case(PAGE, 0, &fields.bytes()));
    }
    let swapped = PAGE.swap_bytes();
    for page_size in [0, 1, 4_095, 4_096, 4_097, 8_192, 65_535, swapped] {
        for version in VERSIONS {
            let fields = Fields {
                version,
                page_size,
                ..CREATED
            };
            cases.add(case(PAGE, 0, &fields.bytes()));
        }
    }
}

/// A good header in a buffer of every length.
fn lengths(cases: &mut Cases) {
    for length in WRONG_LENGTHS.into_iter().chain([PAGE]) {
        for version in VERSIONS {
            for fill in FILLS {
                let fields = Fields { version, ..CREATED };
                cases.add(case(length, fill, &fields.bytes()));
            }
        }
    }
}

/// Length, magic, version and page size, wrong in every combination: the
/// lowest number is the answer.
fn several_faults(cases: &mut Cases) {
    let magics = [
        CREATED.magic,
        [0; 16],
        *b"SQLite format 3\0",
        *b"SQLRWAL\0\x03\0\0\0\0\x10\0\0",
        *b"SQLRiteFormat\0\0\x01",
    ];
    for length in WRONG_LENGTHS.into_iter().chain([PAGE]) {
        // The other faults in every way only where they come to be judged.
        let ways = if length == PAGE { magics.len() } else { 2 };
        for magic in &magics[..ways] {
            for version in &[4, 3, 7, 0, 65_535][..ways] {
                for page_size in &[4_096, 0, 4_097, 65_535][..ways.min(4)] {
                    let fields = Fields {
                        magic: *magic,
                        version: *version,
                        page_size: *page_size,
                        ..CREATED
                    };
                    cases.add(case(length, 0, &fields.bytes()));
                }
            }
        }
    }
}

/// A good header's first bytes alone: the fill makes up the rest.
fn short_prefixes(cases: &mut Cases) {
    for kept in 0..32 {
        for fill in FILLS {
            cases.add(case(PAGE, fill, &CREATED.bytes()[..kept]));
        }
    }
}

#[cfg(test)]
mod tests {
    use super::*;

    fn number_at(bytes: &[u8], at: usize, width: usize) -> u64 {
        let field = bytes[at..at + width].iter().rev();
        field.fold(0, |number, byte| number * 256 + u64::from(*byte))
    }

    /// Document 01's text, reckoned without the Rust's help.
    fn by_document(case: &[u8]) -> String {
        let bytes = buffer(case);
        let refused = if bytes.len() != 4_096 {
            2
        } else if &bytes[..16] != b"SQLRiteFormat\0\0\0" {
            3
        } else if !(4..=6).contains(&number_at(&bytes, 16, 2)) {
            4
        } else if number_at(&bytes, 18, 2) != 4_096 {
            5
        } else {
            let [count, root, freelist] = [20, 24, 28].map(|at| number_at(&bytes, at, 4));
            let version = number_at(&bytes, 16, 2);
            let digits = hex::digits(&bytes[..32]);
            return format!("ok {count} {root} {version} {freelist} {digits} 0");
        };
        format!("refused {refused}")
    }

    #[test]
    fn the_document_says_the_same() {
        for case in cases() {
            assert_eq!(answer(&case), by_document(&case));
        }
    }
}
