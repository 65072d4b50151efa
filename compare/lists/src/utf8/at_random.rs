//! Pseudo-random bytes that come near to being text.

use splitmix::Random;

use crate::cases::Cases;

/// Bytes at the borders of table 3-7.
const INTERESTING: [u8; 32] = [
    0x00, 0x41, 0x7f, 0x80, 0x81, 0x8f, 0x90, 0x9f, 0xa0, 0xa1, 0xbf, 0xc0, 0xc1, 0xc2, 0xc3, 0xdf,
    0xe0, 0xe1, 0xec, 0xed, 0xee, 0xef, 0xf0, 0xf1, 0xf3, 0xf4, 0xf5, 0xf7, 0xf8, 0xfc, 0xfe, 0xff,
];

/// Three to six of them: a first byte, mostly followed by continuations.
pub fn interesting_bytes(cases: &mut Cases) {
    let mut random = Random::new(3);
    for _ in 0..250 {
        let mut bytes = vec![random.pick(&INTERESTING)];
        for _ in 0..2 + random.below(4) {
            let from = if random.below(4) == 0 {
                &INTERESTING[..]
            } else {
                &INTERESTING[3..11]
            };
            bytes.push(random.pick(from));
        }
        cases.add(bytes);
    }
}

/// Short texts of any characters, half of them with one byte replaced,
/// removed or put in.
pub fn damaged_texts(cases: &mut Cases) {
    let mut random = Random::new(4);
    for round in 0..300 {
        let count = 1 + random.below(6);
        let text: String = (0..count).map(|_| character(&mut random)).collect();
        let mut bytes = text.into_bytes();
        let at = random.below(bytes.len());
        let byte = random.pick(&INTERESTING);
        match round % 6 {
            0 => bytes[at] = byte,
            1 => drop(bytes.remove(at)),
            2 => bytes.insert(at, byte),
            _ => {}
        }
        cases.add(bytes);
    }
}

/// A character whose sequence has 1, 2, 3 or 4 bytes, equally often.
fn character(random: &mut Random) -> char {
    let (low, high) = random.pick(&[
        (0, 0x7f),
        (0x80, 0x7ff),
        (0x800, 0xffff),
        (0x1_0000, 0x10_ffff),
    ]);
    let number = low + random.u32() % (high - low + 1);
    char::from_u32(number).unwrap_or('\u{fffd}')
}
