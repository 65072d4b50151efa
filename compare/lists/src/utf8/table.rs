//! Cases around the Unicode Standard's table 3-7, well-formed UTF-8 byte
//! sequences.

use characters::TABLE_3_7;

use crate::cases::Cases;

fn lowest(row: &[(u8, u8)]) -> Vec<u8> {
    row.iter().map(|(low, _)| *low).collect()
}

fn highest(row: &[(u8, u8)]) -> Vec<u8> {
    row.iter().map(|(_, high)| *high).collect()
}

/// In each row each byte at its borders and one beyond them, the others all
/// at their lowest or all at their highest.
fn border_sequences() -> Vec<Vec<u8>> {
    let mut sequences = Vec::new();
    for row in TABLE_3_7 {
        for good in [lowest(row), highest(row)] {
            for (at, (low, high)) in row.iter().enumerate() {
                let beyond = [low.checked_sub(1), high.checked_add(1)];
                for byte in [*low, *high]
                    .into_iter()
                    .chain(beyond.into_iter().flatten())
                {
                    let mut sequence = good.clone();
                    sequence[at] = byte;
                    sequences.push(sequence);
                }
            }
        }
    }
    sequences
}

/// They stand alone and between letters.
pub fn borders(cases: &mut Cases) {
    for sequence in border_sequences() {
        cases.add([b"a", &sequence[..], b"z"].concat());
        cases.add(sequence);
    }
}

/// They stand in texts that a check may look at by 16 bytes or more: behind
/// 17 bytes, of which the first three are looked at before, and at the end.
pub fn borders_in_texts(cases: &mut Cases) {
    let before = "Süd, cabin no. 7".as_bytes();
    assert_eq!(before.len(), 17);
    for sequence in border_sequences() {
        cases.add([before, &sequence, b" at rest"].concat());
        cases.add([before, b" at rest", &sequence].concat());
    }
}

/// Each row's first and last character: alone, behind a letter and before
/// one.
pub fn whole(cases: &mut Cases) {
    for row in TABLE_3_7 {
        for good in [lowest(row), highest(row)] {
            cases.add([b"a", &good[..]].concat());
            cases.add([&good[..], b"a"].concat());
            cases.add(good);
        }
    }
}

/// Good sequences that break off: at the end, before ASCII, and before
/// sequences of two, three and four bytes.
pub fn truncations(cases: &mut Cases) {
    for row in TABLE_3_7 {
        for good in [lowest(row), highest(row)] {
            for kept in 1..good.len() {
                for behind in ["", "A", "é", "日", "😀"] {
                    cases.add([&good[..kept], behind.as_bytes()].concat());
                }
            }
        }
    }
}

/// Sequences of three and four bytes with every mixture of border bytes:
/// overlong forms, surrogates and numbers past 10FFFF are among them. Then
/// each byte that is in no row, before continuation bytes.
pub fn grids(cases: &mut Cases) {
    for first in [0xe0, 0xe1, 0xec, 0xed, 0xee, 0xef] {
        for second in [0x7f, 0x80, 0x8f, 0x90, 0x9f, 0xa0, 0xbf, 0xc0] {
            for third in [0x7f, 0x80, 0xbf, 0xc0] {
                cases.add([first, second, third]);
            }
        }
    }
    for first in [0xf0, 0xf1, 0xf3, 0xf4, 0xf5] {
        for second in [0x7f, 0x80, 0x8f, 0x90, 0xbf, 0xc0] {
            for [third, fourth] in [[0x80, 0x80], [0xbf, 0xbf], [0x7f, 0x80], [0x80, 0xc0]] {
                cases.add([first, second, third, fourth]);
            }
        }
    }
    for never in [0xc0, 0xc1].into_iter().chain(0xf5..=0xff) {
        for continuation in [[0x80; 5], [0xbf; 5]] {
            for count in 2..=5 {
                cases.add([&[never], &continuation[..count]].concat());
            }
        }
    }
}
