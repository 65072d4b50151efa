//! Longer texts: a check that goes by words of 8 or 16 bytes, or by blocks of
//! 128, must not lose a sequence that lies across two of them, nor count it
//! twice.

use crate::cases::Cases;

/// As many bytes as a batch's body has behind its heading.
pub const LONGEST: usize = 4_078;

const LETTERS: &str = "the sealed log and its pager ";
const MIXED: &str = "Zürich–Łódź, 北京 → Αθήνα; цена 5 € 😀, ";
const WIDE: &str = "𐍈漢字かなé𝄞";
const SEQUENCES: [&str; 3] = ["é", "€", "😀"];

/// A text of at most this many bytes, made of the piece over and over.
fn text(piece: &str, most: usize) -> String {
    let mut text = String::new();
    for letter in piece.chars().cycle() {
        if text.len() + letter.len_utf8() > most {
            break;
        }
        text.push(letter);
    }
    text
}

/// The same with letters in front, so that it has exactly so many bytes.
fn exact(piece: &str, length: usize) -> String {
    let text = text(piece, length);
    "x".repeat(length - text.len()) + &text
}

/// A sequence at a place among letters, so many bytes in all.
fn among_letters(sequence: &str, at: usize, length: usize) -> String {
    let mut text = text(LETTERS, length - sequence.len());
    text.insert_str(at, sequence);
    text
}

/// A sequence at every place around the words' ends in 40 letters, whole and
/// without its last byte; then letters that end in a sequence broken off.
pub fn across_words(cases: &mut Cases) {
    let letters = text(LETTERS, 40);
    for sequence in SEQUENCES.map(str::as_bytes) {
        let broken = &sequence[..sequence.len() - 1];
        for at in [4..10, 12..18, 28..34].into_iter().flatten() {
            let (before, behind) = letters.as_bytes().split_at(at);
            cases.add([before, sequence, behind].concat());
            cases.add([before, broken, behind].concat());
        }
        for at in [6, 7, 8, 14, 15, 16, 30, 31, 32] {
            cases.add([&letters.as_bytes()[..at], broken].concat());
        }
    }
}

/// Texts of 100 to 300 bytes, and the shortest of them with one byte
/// replaced at the words' ends and at the text's.
pub fn damaged(cases: &mut Cases) {
    for piece in [LETTERS, MIXED, WIDE] {
        for most in [100, 127, 128, 129, 255, 256, 257, 300] {
            cases.add(text(piece, most));
        }
        let good = text(piece, 100).into_bytes();
        let last = good.len() - 1;
        for at in [0, 7, 8, 9, 15, 16, 17, 31, 32, 33, 63, 64, 65, last] {
            for byte in [0x41, 0x80, 0xc3, 0xff] {
                let mut bad = good.clone();
                bad[at] = byte;
                cases.add(bad);
            }
        }
    }
}

/// Letters of many lengths; sequences of one length in a row behind none to
/// seven letters, so that they lie in a word in every way.
pub fn runs(cases: &mut Cases) {
    for length in (1..=24).chain(120..=136).chain(250..=260) {
        cases.add(text(LETTERS, length));
    }
    for sequence in SEQUENCES {
        for before in 0..8 {
            for count in [2, 3, 4, 5, 8, 9] {
                cases.add("x".repeat(before) + &sequence.repeat(count));
            }
        }
    }
}

/// One sequence among letters: around the ends of blocks; and in the longest
/// text at its start, in its middle (across two words), across the ends of
/// its last whole block, and at its end.
pub fn one_sequence(cases: &mut Cases) {
    for sequence in SEQUENCES {
        for at in (120..=136).chain(252..=258) {
            cases.add(among_letters(sequence, at, at + 40));
        }
        let last = LONGEST - sequence.len();
        for at in [0, LONGEST / 2, 31 * 128 - 1, last] {
            cases.add(among_letters(sequence, at, LONGEST));
        }
    }
}

/// Texts of sequences of each length, and mixed, up to the longest; the
/// longest also with a last byte that begins a sequence.
pub fn longest(cases: &mut Cases) {
    for piece in SEQUENCES.into_iter().chain([LETTERS, MIXED]) {
        for length in [4_063, 4_064, 4_065, LONGEST - 1, LONGEST] {
            cases.add(exact(piece, length));
        }
        let mut broken = exact(piece, LONGEST).into_bytes();
        broken[LONGEST - 1] = 0xc3;
        cases.add(broken);
    }
}
