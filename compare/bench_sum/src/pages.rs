//! The frames that are summed.

use splitmix::Random;

pub const PAGE_SIZE: usize = 4_096;
pub const FRAME_SIZE: usize = 16 + PAGE_SIZE;
/// What a frame's checksum covers of its first 16 bytes.
pub const HEADING_SIZE: usize = 12;

/// So many of each kind that no branch of a sum can be learned by heart.
const FRAMES: usize = 64;

/// Frames of each kind, all their bytes alike: a page is their first bytes.
pub fn all() -> [(&'static str, Vec<[u8; FRAME_SIZE]>); 6] {
    let mut random = Random::new(88_172_645_463_325_252);
    let mut of = |byte: fn(usize, u8) -> u8| {
        let mut frame = || std::array::from_fn(|at| byte(at, random.u8()));
        (0..FRAMES).map(|_| frame()).collect()
    };
    [
        ("random", of(|_, any| any)),
        ("zeros", of(|_, _| 0)),
        ("0xff", of(|_, _| 0xff)),
        (
            "text, then zeros",
            of(|at, any| if at < 1_500 { 32 + any % 90 } else { 0 }),
        ),
        ("0 or 0xff", of(|_, any| if any < 128 { 0 } else { 0xff })),
        (
            // From the fourth of them on the sum is 0xffffffff.
            "0xff at 0, 8, 16 and 24, then zeros",
            of(|at, _| if at < 25 && at % 8 == 0 { 0xff } else { 0 }),
        ),
    ]
}
