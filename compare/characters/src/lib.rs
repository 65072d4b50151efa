//! How many characters bytes are, read from the Unicode Standard's table 3-7
//! alone: what the port's numbers are compared with.

/// Well-formed UTF-8 byte sequences: a row for each kind, in it each byte's
/// lowest and highest.
pub const TABLE_3_7: [&[(u8, u8)]; 9] = [
    &[(0x00, 0x7f)],
    &[(0xc2, 0xdf), (0x80, 0xbf)],
    &[(0xe0, 0xe0), (0xa0, 0xbf), (0x80, 0xbf)],
    &[(0xe1, 0xec), (0x80, 0xbf), (0x80, 0xbf)],
    &[(0xed, 0xed), (0x80, 0x9f), (0x80, 0xbf)],
    &[(0xee, 0xef), (0x80, 0xbf), (0x80, 0xbf)],
    &[(0xf0, 0xf0), (0x90, 0xbf), (0x80, 0xbf), (0x80, 0xbf)],
    &[(0xf1, 0xf3), (0x80, 0xbf), (0x80, 0xbf), (0x80, 0xbf)],
    &[(0xf4, 0xf4), (0x80, 0x8f), (0x80, 0xbf), (0x80, 0xbf)],
];

/// The number of Unicode scalar values: one for each sequence of the table.
/// None if the bytes are not such sequences from first to last.
pub fn count(mut bytes: &[u8]) -> Option<usize> {
    let mut count = 0;
    while !bytes.is_empty() {
        let row = TABLE_3_7.iter().find(|row| begins(bytes, row))?;
        bytes = &bytes[row.len()..];
        count += 1;
    }
    Some(count)
}

/// Whether a sequence of the row stands at the front.
fn begins(bytes: &[u8], row: &[(u8, u8)]) -> bool {
    row.len() <= bytes.len()
        && row
            .iter()
            .zip(bytes)
            .all(|((low, high), byte)| (low..=high).contains(&byte))
}

#[cfg(test)]
mod tests {
    use super::*;

    #[test]
    fn every_scalar_value_is_one() {
        let mut four = [0; 4];
        for character in '\0'..=char::MAX {
            let bytes = character.encode_utf8(&mut four).as_bytes();
            assert_eq!(count(bytes), Some(1), "{character:?}");
        }
    }

    /// Neither bytes nor signs on a panel.
    #[test]
    fn texts_have_as_many_as_they_are_made_of() {
        for (text, wanted) in [
            ("", 0),
            ("\0\0", 2),
            ("Süd", 3),
            ("Gondel 7 – Süd", 14),
            ("é", 1),
            ("e\u{301}", 2),
            ("\u{feff}a", 2),
            ("\u{fdd0}\u{fffe}\u{10ffff}", 3),
            ("\u{1f1e8}\u{1f1ed}", 2),
            ("👩\u{200d}👩\u{200d}👧\u{200d}👦", 7),
        ] {
            assert_eq!(count(text.as_bytes()), Some(wanted), "{text:?}");
        }
    }

    #[test]
    fn what_is_no_text_has_no_number() {
        for bytes in [
            &b"\x80"[..],
            b"\xff",
            b"\xc0\x80",
            b"\xe0\x9f\xbf",
            b"\xed\xa0\x80",
            b"\xf0\x8f\xbf\xbf",
            b"\xf4\x90\x80\x80",
            b"a\xc3",
            b"a\xe2\x82",
            b"\xf0\x9f\x98 ",
        ] {
            assert_eq!(count(bytes), None, "{bytes:02x?}");
        }
    }
}
