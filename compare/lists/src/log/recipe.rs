//! The byte code of a case, which describes a log.
//!
//! A case is a row of items that build the log from nothing. An item is its
//! kind (1 byte), a length (2) and so many bytes; numbers are little endian.
//!
//! - 0, bytes: adds them.
//! - 1, a frame with a drawn body (frame.rs, 17 bytes): adds it.
//! - 2, page, commit count, salt (4 each), bytes: adds a frame whose body
//!   begins with the bytes and goes on in zeros.
//! - 3, place (4), bytes: puts them there, over what is there.
//! - 4, length (4): cuts the log to it, or brings zeros up to it.
//!
//! To add is to put at the log's end. A frame gets its right checksum.

use engine::sql::pager::page::PAGE_SIZE;

use crate::frame::{Heading, SeededFrame, number};

/// Header and 15 frames: the most that the program `loglist` takes.
pub const LONGEST_LOG: usize = 61_712;

/// A case, and the log that it describes so far.
#[derive(Clone, Default)]
pub struct Recipe {
    case: Vec<u8>,
    log: Vec<u8>,
}

impl Recipe {
    pub fn bytes(self, bytes: &[u8]) -> Self {
        self.item(0, bytes)
    }

    pub fn seeded(self, frame: SeededFrame) -> Self {
        self.item(1, &frame.to_bytes())
    }

    /// A frame by its heading and its body, but for the zeros at its end.
    pub fn frame(self, heading: Heading, body: &[u8]) -> Self {
        let end = body.iter().rposition(|byte| *byte != 0);
        let first = &body[..end.map_or(0, |last| last + 1)];
        self.item(2, &[&heading.to_bytes(), first].concat())
    }

    pub fn put(self, at: usize, bytes: &[u8]) -> Self {
        let place = (at as u32).to_le_bytes();
        self.item(3, &[&place, bytes].concat())
    }

    pub fn length(self, length: usize) -> Self {
        self.item(4, &(length as u32).to_le_bytes())
    }

    /// One byte changed.
    pub fn changed(self, at: usize, change: u8) -> Self {
        let byte = self.log[at] ^ change;
        self.put(at, &[byte])
    }

    /// The salt in the log's header.
    pub fn salt(&self) -> u32 {
        number(&self.log, 16)
    }

    /// A page's frame with the log's salt.
    pub fn page(self, page: u32, commit_count: u32, body: &[u8]) -> Self {
        let heading = Heading::new(page, commit_count, self.salt());
        self.frame(heading, body)
    }

    /// A batch's frame with the log's salt.
    pub fn batch(self, commit_count: u32, body: impl AsRef<[u8]>) -> Self {
        self.page(u32::MAX, commit_count, body.as_ref())
    }

    pub fn log(&self) -> &[u8] {
        &self.log
    }

    fn item(mut self, kind: u8, bytes: &[u8]) -> Self {
        self.case.push(kind);
        self.case.extend((bytes.len() as u16).to_le_bytes());
        self.case.extend(bytes);
        apply_item(&mut self.log, kind, bytes);
        self
    }
}

impl From<Recipe> for Vec<u8> {
    fn from(recipe: Recipe) -> Self {
        recipe.case
    }
}

/// The log that a case describes.
pub fn build(case: &[u8]) -> Vec<u8> {
    let mut log = Vec::new();
    let mut left = case;
    while let [kind, low, high, behind @ ..] = left {
        let length = u16::from_le_bytes([*low, *high]);
        let (bytes, next) = behind.split_at(length.into());
        apply_item(&mut log, *kind, bytes);
        left = next;
    }
    assert!(left.is_empty(), "half an item");
    log
}

fn apply_item(log: &mut Vec<u8>, kind: u8, bytes: &[u8]) {
    match kind {
        0 => log.extend(bytes),
        1 => log.extend(SeededFrame::from_bytes(bytes).stored()),
        2 => {
            let (heading, first) = bytes.split_at(Heading::LENGTH);
            let mut body = [0; PAGE_SIZE];
            body[..first.len()].copy_from_slice(first);
            log.extend(Heading::from_bytes(heading).stored(&body));
        }
        3 => {
            let at = number(bytes, 0) as usize;
            let over = &bytes[4..];
            log[at..at + over.len()].copy_from_slice(over);
        }
        4 => log.resize(number(bytes, 0) as usize, 0),
        other => panic!("no item {other}"),
    }
    assert!(log.len() <= LONGEST_LOG);
}

#[cfg(test)]
mod tests {
    use super::*;
    use crate::checksum;

    #[test]
    fn items_build_a_log() {
        let recipe = Recipe::default()
            .bytes(b"abc")
            .put(1, b"xy")
            .length(5)
            .changed(4, 0x80)
            .length(4);
        assert_eq!(recipe.log(), b"axy\0");
        let case: Vec<u8> = recipe.into();
        assert_eq!(
            case,
            *b"\0\x03\0abc\x03\x06\0\x01\0\0\0xy\x04\x04\0\x05\0\0\0\
               \x03\x05\0\x04\0\0\0\x80\x04\x04\0\x04\0\0\0"
        );
        assert_eq!(build(&case), b"axy\0");
    }

    #[test]
    fn what_was_cut_comes_back_as_zeros() {
        assert_eq!(
            Recipe::default().bytes(b"abc").length(1).length(3).log(),
            b"a\0\0"
        );
    }

    #[test]
    fn frames_have_their_sums() {
        let heading = Heading::new(3, 4, 5);
        let frame = SeededFrame::new(heading, 1, 6);
        let recipe = Recipe::default().frame(heading, b"body\0\0");
        let recipe = recipe.seeded(frame);
        let mut body = b"body".to_vec();
        body.resize(PAGE_SIZE, 0);
        for (frame, body) in recipe
            .log()
            .chunks(4_112)
            .zip([&body[..], &frame.body()[..]])
        {
            assert_eq!(frame[..12], heading.to_bytes());
            let sum = checksum::by_document(&frame[..12], body);
            assert_eq!(u64::from(number(frame, 12)), sum);
            assert_eq!(&frame[16..], body);
        }
        let case: Vec<u8> = recipe.clone().into();
        assert_eq!(case.len(), 3 + 12 + 4 + 3 + 17);
        assert_eq!(build(&case), recipe.log());
    }
}
