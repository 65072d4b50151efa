//! Texts and their numbers of characters, by themselves and in batches.
mod common;
use common::{Folder, batch, open};
use lateenbael::{Batch, BatchBuilder, Mode, Record, Refusal, Store, Text, Value, Vector};
use std::collections::HashSet;

/// Characters of 1 to 4 bytes, the first and last of each; among them a NUL, the neighbours of the surrogates, a byte order mark, a
/// noncharacter and a combining mark. Each counts as one.
const CHARACTERS: [char; 16] = [
    '\0',
    'a',
    '\u{7f}',
    '\u{80}',
    'ü',
    '\u{301}',
    '\u{7ff}',
    '\u{800}',
    '€',
    '\u{d7ff}',
    '\u{e000}',
    '\u{feff}',
    '\u{ffff}',
    '\u{10000}',
    '🚠',
    '\u{10ffff}',
];

/// What is not UTF-8: cut off, too long a form, a surrogate, above the last character, no first byte, a sound beginning.
const UNSOUND: [&[u8]; 12] = [
    b"\xc3",
    b"\xe2\x82",
    b"\xf0\x9f\x9a",
    b"\xc0\x80",
    b"\xe0\x9f\xbf",
    b"\xf0\x8f\xbf\xbf",
    b"\xed\xa0\x80",
    b"\xed\xbf\xbf",
    b"\xf4\x90\x80\x80",
    b"\x80",
    b"\xf8\x88\x80\x80\x80",
    b"gr\xc3\xbcn\xff",
];

/// Drawn numbers (splitmix64).
struct Draw(u64);

impl Draw {
    fn next(&mut self) -> u64 {
        self.0 = self.0.wrapping_add(0x9e37_79b9_7f4a_7c15);
        let z = (self.0 ^ (self.0 >> 30)).wrapping_mul(0xbf58_476d_1ce4_e5b9);
        let z = (z ^ (z >> 27)).wrapping_mul(0x94d0_49bb_1331_11eb);
        z ^ (z >> 31)
    }

    fn below(&mut self, n: usize) -> usize {
        (self.next() % n as u64) as usize
    }

    /// A character of so many bytes as are drawn, or one of those above.
    fn character(&mut self) -> char {
        let any = match self.below(5) {
            0 => self.below(0x80),
            1 => 0x80 + self.below(0x800 - 0x80),
            2 => 0x800 + self.below(0x1_0000 - 0x800),
            3 => 0x1_0000 + self.below(0x11_0000 - 0x1_0000),
            _ => return CHARACTERS[self.below(CHARACTERS.len())],
        };
        char::from_u32(any as u32).unwrap_or('x')
    }

    fn text(&mut self, longest: usize) -> String {
        (0..self.below(longest + 1)).map(|_| self.character()).collect()
    }
}

#[test]
fn every_character_counts_as_one() {
    assert_eq!((Text::from("").char_count(), Text::from_utf8(b"").unwrap().char_count()), (0, 0));
    for character in CHARACTERS {
        let text = character.to_string();
        assert_eq!(Text::from(text.as_str()).char_count(), 1, "{character:?}");
        assert_eq!(Text::from_utf8(text.as_bytes()).unwrap().char_count(), 1, "{character:?}");
    }
    let all = String::from_iter(CHARACTERS);
    assert_eq!((Text::from(all.as_str()).char_count(), all.len()), (16, 41));
    // One sign on the screen, two characters.
    assert_eq!(Text::from("e\u{301}").char_count(), 2);
}

#[test]
fn what_is_not_utf8_is_refused() {
    for bytes in UNSOUND {
        assert_eq!(Text::from_utf8(bytes), Err(Refusal::Text), "{bytes:02x?}");
    }
    assert_eq!(Refusal::Text.number(), 19);
}

/// By Rust's own count, and its own judgement where a byte was damaged.
#[test]
fn drawn_texts_are_counted_as_rust_counts_them() {
    let mut draw = Draw(6);
    for _ in 0..500 {
        let text = draw.text(120);
        let found = Text::from_utf8(text.as_bytes()).unwrap();
        assert_eq!((found.as_str(), found.char_count()), (text.as_str(), text.chars().count()));
        assert_eq!(Text::from(text.as_str()).char_count(), text.chars().count());
        let mut damaged = [text.as_bytes(), b"x"].concat();
        let at = draw.below(damaged.len());
        damaged[at] = draw.next() as u8;
        let expected = std::str::from_utf8(&damaged).map(|text| text.chars().count());
        let found = Text::from_utf8(&damaged).map(|text| text.char_count());
        assert_eq!(found.ok(), expected.ok(), "{damaged:02x?}");
    }
}

/// A row that is gone and one that is there, with these names and this text.
fn built(table: &str, name: &str, text: &str) -> BatchBuilder {
    let mut batch = BatchBuilder::new(6);
    batch.add_tombstone(table, -1).unwrap();
    batch.begin_present(table, 1).unwrap();
    batch.add_column(name, text.into()).unwrap();
    batch.add_column(name, Value::Vector(Vector(&[0; 8]))).unwrap();
    batch
}

/// Whether a batch has the names and the text that it was built with, and their numbers of characters.
fn assert_walked(batch: Batch, table: &str, name: &str, text: &str) {
    let records: Vec<Record> = batch.records().collect();
    let mut columns = records[1].columns.unwrap();
    let (first, second) = (columns.next().unwrap(), columns.next().unwrap());
    let Value::Text(value) = first.value else {
        panic!("{:?} is no text", first.value);
    };
    let told = [records[0].table, records[1].table, first.name, second.name, value];
    for (told, expected) in told.into_iter().zip([table, table, name, name, text]) {
        assert_eq!((told.as_str(), told.char_count()), (expected, expected.chars().count()));
    }
}

#[test]
fn batches_carry_the_numbers_along() {
    let mut draw = Draw(60);
    let all = String::from_iter(CHARACTERS);
    assert_walked(Batch::decode(built("", "", "").body()).unwrap(), "", "", "");
    assert_walked(Batch::decode(built(&all, &all, &all).body()).unwrap(), &all, &all, &all);
    for _ in 0..300 {
        let (table, name, text) = (draw.text(100), draw.text(100), draw.text(500));
        let batch = built(&table, &name, &text);
        let walked = Batch::decode(batch.body()).unwrap();
        assert_walked(walked, &table, &name, &text);
        // Built again from what was told.
        let mut again = BatchBuilder::new(walked.commit_ts());
        for record in walked.records() {
            match record.columns {
                None => again.add_tombstone(&record.table, record.rowid).unwrap(),
                Some(columns) => {
                    again.begin_present(&record.table, record.rowid).unwrap();
                    columns.for_each(|column| again.add_column(&column.name, column.value).unwrap());
                }
            }
        }
        assert!(again.body() == batch.body(), "{walked:?}");
    }
}

#[test]
fn a_store_gives_the_numbers_back() {
    let folder = Folder::new();
    let (table, name, text) = ("Kabinen, grün", "Name", "Zoë 🚠");
    let mut store = Store::create(folder.store()).unwrap();
    store.append_mvcc_batch(built(table, name, text).body()).unwrap();
    store.commit(store.header().unwrap()).unwrap();
    drop(store);
    let store = open(&folder.store(), Mode::ReadOnly);
    let recovered = store.recovered_mvcc_commits().unwrap().next().unwrap();
    assert_walked(recovered, table, name, text);
}

#[test]
fn unsound_texts_of_a_batch_are_refused() {
    let good = batch(3);
    let table = Batch::decode(good.body()).unwrap().records().next().unwrap().table;
    assert_eq!((table.as_str(), table.char_count()), ("grips", 5));
    for bytes in UNSOUND.into_iter().filter(|bytes| bytes.len() <= table.len()) {
        let mut body = *good.body();
        let end = 21 + table.len();
        body[end - bytes.len()..end].copy_from_slice(bytes);
        assert_eq!(Batch::decode(&body).err(), Some(Refusal::Text), "{bytes:02x?}");
    }
}

#[test]
fn in_all_else_a_text_is_its_str() {
    let (text, other) = (Text::from("grün"), Text::from_utf8("grün".as_bytes()).unwrap());
    assert_eq!(text, other);
    assert_eq!(text, "grün");
    assert_eq!(text, *"grün");
    assert_ne!(text, Text::from("gruen"));
    assert_eq!((text.len(), text.char_count(), text.chars().count()), (5, 4, 4));
    assert!(text.starts_with("gr") && text.as_ref() == text.as_str());
    assert_eq!(format!("{text}|{text:>6}|{text:?}"), "grün|  grün|\"grün\"");
    let texts: HashSet<Text> = [text, other, "".into()].into();
    assert_eq!(texts.len(), 2);
    assert_eq!(Value::from("grün"), Value::Text(text));
}
