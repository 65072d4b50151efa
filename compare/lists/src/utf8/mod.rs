//! utf8_replay: which bytes are text to mvcc/log.rs, and of how many
//! characters.
//!
//! A case is the text's bytes, 0 to 4,078. Before the cases come all sequences
//! of one byte and of two, two numbers to a digit.

mod at_random;
mod long;
pub mod samples;
mod table;

use engine::error::SQLRiteError;
use engine::mvcc::MvccCommitBatch;
use engine::mvcc::log::MVCC_BODY_MAGIC;

use crate::cases::Cases;
use crate::list::List;

pub fn list() -> List {
    List {
        name: "utf8_replay",
        longest: long::LONGEST,
        room: 500_000,
        cases: cases(),
        preamble: short_texts(),
        answer,
    }
}

fn answer(case: &[u8]) -> String {
    match number(case) {
        Some(number) => format!("chars {number}"),
        None => "refused 19".to_string(),
    }
}

/// Has mvcc/log.rs decode a batch whose one record, a tombstone, bears these
/// bytes as its table's name. If it takes them for a text, its number of
/// characters, which the Rust does not keep, is that of Rust's `str`.
fn number(bytes: &[u8]) -> Option<usize> {
    let mut body = MVCC_BODY_MAGIC.to_vec();
    body.extend([0; 8]); // commit time
    body.extend(1u16.to_le_bytes()); // records
    body.push(0); // tombstone
    body.extend((bytes.len() as u16).to_le_bytes());
    body.extend(bytes);
    body.extend([0; 8]); // row id
    match MvccCommitBatch::decode(&body) {
        Ok(batch) => {
            let table = &batch.records[0].row.table;
            assert_eq!(table.as_bytes(), bytes);
            Some(table.chars().count())
        }
        Err(SQLRiteError::General(text)) if text.contains("invalid UTF-8 in string") => None,
        Err(other) => panic!("nothing but the text is amiss, yet: {other}"),
    }
}

/// A line for the sequences of one byte, then 256 lines for those of two,
/// one for each first byte.
fn short_texts() -> Vec<String> {
    let first_bytes = (0..=255).map(|first| vec![first]);
    [Vec::new()]
        .into_iter()
        .chain(first_bytes)
        .map(|before| numbers(&before))
        .collect()
}

/// 128 hexadecimal digits: digit k is for the last bytes 2k and 2k + 1, four
/// times the first one's number and the second one's; 0 is for no text.
fn numbers(before: &[u8]) -> String {
    let number = |last: u8| number(&[before, &[last]].concat()).unwrap_or(0);
    (0..128)
        .map(|k| 4 * number(2 * k) + number(2 * k + 1))
        .map(|digit| format!("{digit:x}"))
        .collect()
}

fn cases() -> Vec<Vec<u8>> {
    let mut cases = Cases::default();
    cases.add("");
    table::borders(&mut cases);
    table::borders_in_texts(&mut cases);
    table::whole(&mut cases);
    table::truncations(&mut cases);
    table::grids(&mut cases);
    samples::published(&mut cases);
    samples::scripts(&mut cases);
    samples::unlike_signs(&mut cases);
    long::across_words(&mut cases);
    long::damaged(&mut cases);
    long::runs(&mut cases);
    long::one_sequence(&mut cases);
    long::longest(&mut cases);
    at_random::interesting_bytes(&mut cases);
    at_random::damaged_texts(&mut cases);
    cases.into_vec()
}

#[cfg(test)]
mod tests {
    use super::*;

    #[test]
    fn the_standard_says_the_same() {
        let same = |bytes: &[u8]| assert_eq!(number(bytes), characters::count(bytes));
        for first in 0..=255 {
            same(&[first]);
            for second in 0..=255 {
                same(&[first, second]);
            }
        }
        for case in cases() {
            same(&case);
        }
    }

    #[test]
    fn two_numbers_stand_in_a_digit() {
        let lines = short_texts();
        assert_eq!(lines.len(), 257);
        let ascii = |digit: &str| digit.repeat(64) + &"0".repeat(64);
        assert_eq!(lines[0], ascii("5"));
        assert_eq!(lines[1 + 0x41], ascii("a"));
        let continuation = "0".repeat(64) + &"5".repeat(32) + &"0".repeat(32);
        assert_eq!(lines[1 + 0xc2], continuation);
        assert_eq!(lines[1 + 0xc1], "0".repeat(128));
    }

    #[test]
    fn scalar_values_are_counted() {
        for (text, wanted) in [
            ("", "chars 0"),
            ("\0", "chars 1"),
            ("Gondel 7 – Süd", "chars 14"),
            ("e\u{301}", "chars 2"),
            ("\u{feff}\u{ffff}", "chars 2"),
            ("👩\u{200d}👩\u{200d}👧\u{200d}👦", "chars 7"),
        ] {
            assert_eq!(answer(text.as_bytes()), wanted);
        }
        assert_eq!(answer(b"S\xfcd"), "refused 19");
    }

    /// The first and the last code point of each row of table 3-7.
    const BORDERS: [u32; 18] = [
        0, 0x7f, 0x80, 0x7ff, 0x800, 0xfff, 0x1000, 0xcfff, 0xd000, 0xd7ff, 0xe000, 0xffff,
        0x1_0000, 0x3_ffff, 0x4_0000, 0xf_ffff, 0x10_0000, 0x10_ffff,
    ];

    #[test]
    fn each_border_is_there_whole() {
        let cases = cases();
        for border in BORDERS.map(|border| char::from_u32(border).unwrap()) {
            for text in [
                format!("{border}"),
                format!("a{border}"),
                format!("{border}a"),
            ] {
                assert!(cases.contains(&text.into_bytes()), "{border:?}");
            }
        }
    }

    /// Of one, two, three and four bytes to a character, and what is no text.
    #[test]
    fn the_longest_are_of_every_kind() {
        let mut cases = cases();
        cases.retain(|case| case.len() == long::LONGEST);
        let answers: Vec<_> = cases.iter().map(|case| answer(case)).collect();
        // 4,078 times 1 byte; 2,039 times 2; 1,359 times 3 behind a letter;
        // 1,019 times 4 behind two
        let wanted = ["chars 4078", "chars 2039", "chars 1360", "chars 1021"];
        for wanted in wanted.into_iter().chain(["refused 19"]) {
            assert!(answers.iter().any(|answer| answer == wanted), "{wanted}");
        }
    }
}
