//! Numbers and bytes that are likely to find a fault.

use lateenbael_sys::{FRAME_SIZE, LOG_AREA, MAIN_AREA, PAGE_SIZE, STAGED_PAGES, STAGING_AREA};
use splitmix::Random;

/// Lengths and counts that the calls judge by.
const KEYS: [usize; 16] = [
    0,
    18,
    32,
    STAGED_PAGES,
    100,
    1_023,
    1_024,
    2_048,
    PAGE_SIZE,
    FRAME_SIZE,
    2 * PAGE_SIZE,
    61_712,
    STAGING_AREA,
    MAIN_AREA,
    LOG_AREA - FRAME_SIZE,
    LOG_AREA,
];

/// Any number: small, at a border, a frame's or page's place, huge.
pub fn number(random: &mut Random) -> u64 {
    let near = (random.below(5) as u64).wrapping_sub(2);
    match random.below(7) {
        0 => random.below(10) as u64,
        1 => (random.pick(&KEYS) as u64).wrapping_add(near),
        2 => (1_u64 << random.below(64)).wrapping_add(near),
        3 => [1 << 32, 1 << 63, u64::MAX, u32::MAX.into()][random.below(4)],
        4 => (32 + FRAME_SIZE * random.below(1_025)) as u64,
        5 => random.below(LOG_AREA) as u64,
        _ => random.u64(),
    }
    .wrapping_add(if random.percent(5) { near } else { 0 })
}

/// Of one to four bytes.
const CHARACTERS: [&str; 10] = [
    "a",
    "\0",
    "ü",
    "\u{80}",
    "\u{7ff}",
    "–",
    "\u{d7ff}",
    "\u{feff}",
    "🚡",
    "\u{10ffff}",
];

/// Characters of every length from the front on, as far as they fit.
pub fn characters(random: &mut Random, bytes: &mut [u8]) {
    let mut at = 0;
    loop {
        let character = random.pick(&CHARACTERS).as_bytes();
        let Some(place) = bytes.get_mut(at..at + character.len()) else {
            return;
        };
        place.copy_from_slice(character);
        at += character.len();
    }
}

/// Bytes: any, all alike, or nearly all zero.
pub fn overwrite(random: &mut Random, bytes: &mut [u8]) {
    let kind = random.below(3);
    let one = random.u8();
    bytes.fill(if kind == 1 { one } else { 0 });
    match kind {
        0 => random.fill(bytes),
        _ if bytes.is_empty() => {}
        _ => {
            for _ in 0..random.below(4) {
                let at = random.below(bytes.len());
                bytes[at] = random.u8();
            }
        }
    }
}
