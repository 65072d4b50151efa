//! Frames as the Rust stores them, and bodies that are drawn from a seed.

use engine::sql::pager::page::PAGE_SIZE;
use engine::sql::pager::wal::{FRAME_SIZE, WAL_HEADER_SIZE, Wal};
use stand_in::path::Path;
use stand_in::world;

/// A frame's heading but for the checksum.
#[derive(Clone, Copy, Default)]
pub struct Heading {
    pub page: u32,
    pub commit_count: u32,
    pub salt: u32,
}

impl Heading {
    pub const LENGTH: usize = 12;

    pub fn new(page: u32, commit_count: u32, salt: u32) -> Self {
        Self {
            page,
            commit_count,
            salt,
        }
    }

    pub fn to_bytes(self) -> Vec<u8> {
        [self.page, self.commit_count, self.salt]
            .map(u32::to_le_bytes)
            .concat()
    }

    pub fn from_bytes(bytes: &[u8]) -> Self {
        Self::new(number(bytes, 0), number(bytes, 4), number(bytes, 8))
    }

    /// `compute_checksum` is private to wal.rs, so the frame is really
    /// appended to a log with that salt, alone in an empty world (commit
    /// count 0: no commit frame), and read out of it.
    pub fn stored(self, body: &[u8; PAGE_SIZE]) -> Vec<u8> {
        let path = Path::from("log");
        world::reset();
        world::queue_salt(self.salt);
        let commit_count = (self.commit_count != 0).then_some(self.commit_count);
        Wal::create(&path)
            .and_then(|mut wal| wal.append_frame(self.page, body, commit_count))
            .expect("the stand-in's files take every store");
        let log = world::read_file(&path).expect("the log was created");
        let frame = log[WAL_HEADER_SIZE..].to_vec();
        assert_eq!(frame.len(), FRAME_SIZE);
        assert_eq!(frame[..Self::LENGTH], self.to_bytes());
        frame
    }
}

/// A frame with a drawn body, in 17 bytes: page, commit count and salt (4
/// each, little endian), the body's kind (1) and its seed (4).
#[derive(Clone, Copy, Default)]
pub struct SeededFrame {
    pub heading: Heading,
    pub kind: u8,
    pub seed: u32,
}

impl SeededFrame {
    pub const LENGTH: usize = Heading::LENGTH + 5;

    pub fn new(heading: Heading, kind: u8, seed: u32) -> Self {
        Self {
            heading,
            kind,
            seed,
        }
    }

    pub fn to_bytes(self) -> Vec<u8> {
        let mut bytes = self.heading.to_bytes();
        bytes.push(self.kind);
        bytes.extend(self.seed.to_le_bytes());
        bytes
    }

    pub fn from_bytes(bytes: &[u8]) -> Self {
        assert_eq!(bytes.len(), Self::LENGTH);
        Self::new(Heading::from_bytes(bytes), bytes[12], number(bytes, 13))
    }

    pub fn stored(self) -> Vec<u8> {
        self.heading.stored(&self.body())
    }

    pub fn body(&self) -> [u8; PAGE_SIZE] {
        let seed = self.seed;
        let mut x = seed;
        let mut next = || {
            x = x.wrapping_mul(1_664_525).wrapping_add(1_013_904_223);
            (x >> 24) as u8
        };
        let mut body = [0; PAGE_SIZE];
        match self.kind {
            0 => body.fill(seed as u8),
            1 => body.fill_with(next),
            2 => body.fill_with(|| Some(next()).filter(|byte| *byte < 16).unwrap_or(255)),
            3 => body.fill_with(|| if next() >= 128 { 255 } else { 0 }),
            4 => body[seed as usize % PAGE_SIZE] = (seed / PAGE_SIZE as u32) as u8,
            5 => body[..seed as usize % (PAGE_SIZE + 1)].fill_with(|| b'a' + next() % 26),
            other => panic!("no kind {other}"),
        }
        body
    }
}

/// Four bytes, little endian.
pub fn number(bytes: &[u8], at: usize) -> u32 {
    u32::from_le_bytes(bytes[at..at + 4].try_into().unwrap())
}

#[cfg(test)]
mod tests {
    use super::*;

    #[test]
    fn bodies() {
        let body = |kind, seed| SeededFrame::new(Heading::default(), kind, seed).body();
        // 1,013,904,223 is 3C6EF35F, and the next number 47502932.
        assert_eq!(body(1, 0)[..2], [0x3c, 0x47]);
        assert_eq!(body(3, 0)[..2], [0, 0]);
        assert!(body(5, 4_096)[4_095].is_ascii_lowercase());
        assert_eq!(body(5, 4_097), [0; PAGE_SIZE]);
        assert!(body(2, 9).iter().all(|byte| *byte == 255 || *byte < 16));
        assert_eq!(body(4, 4_095 + 3 * 4_096)[4_095], 3);
    }
}
