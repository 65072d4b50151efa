//! Bytes as people read them: offset, 16 bytes, ASCII.
use std::fmt::Write;

/// As `hexdump -C` shows them. Lines equal to the one before are one line `*`; the last line is the length.
pub fn hex_view(bytes: &[u8]) -> String {
    let mut lines = String::new();
    let mut before: &[u8] = &[];
    let mut starred = false;
    for (n, sixteen) in bytes.chunks(16).enumerate() {
        let repeated = sixteen == before;
        match (repeated, starred) {
            (false, _) => lines += &line(16 * n, sixteen),
            (true, false) => lines += "*\n",
            (true, true) => {}
        }
        (before, starred) = (sixteen, repeated);
    }
    let _ = writeln!(lines, "{:08x}", bytes.len());
    lines
}

fn line(offset: usize, bytes: &[u8]) -> String {
    let mut line = format!("{offset:08x} ");
    for (n, byte) in bytes.iter().enumerate() {
        let gap = if n == 8 { "  " } else { " " };
        let _ = write!(line, "{gap}{byte:02x}");
    }
    let ascii = bytes.iter().map(|byte| match byte {
        b' '..=b'~' => char::from(*byte),
        _ => '.',
    });
    format!("{line:<58}  |{}|\n", ascii.collect::<String>())
}

#[cfg(test)]
mod tests {
    use super::*;

    #[test]
    fn runs_of_equal_lines_are_starred() {
        let mut bytes = vec![0; 100];
        bytes[50] = b'A';
        bytes[51] = 0x7f;
        let expected = "\
00000000  00 00 00 00 00 00 00 00  00 00 00 00 00 00 00 00  |................|
*
00000030  00 00 41 7f 00 00 00 00  00 00 00 00 00 00 00 00  |..A.............|
00000040  00 00 00 00 00 00 00 00  00 00 00 00 00 00 00 00  |................|
*
00000060  00 00 00 00                                       |....|
00000064
";
        assert_eq!(hex_view(&bytes), expected);
    }
}
