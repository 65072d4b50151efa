//! Numbers and texts that the cases are made of.

pub const INTEGERS: [i64; 22] = [
    0,
    1,
    -1,
    i64::MIN,
    i64::MIN + 1,
    i64::MAX,
    i64::MAX - 1,
    127,
    128,
    255,
    256,
    -128,
    -129,
    -256,
    i32::MAX as i64,
    i32::MAX as i64 + 1,
    i32::MIN as i64,
    i32::MIN as i64 - 1,
    u32::MAX as i64,
    1 << 32,
    1 << 53,
    0x0102_0304_0506_0708,
];

/// f64 by their bits.
pub const REALS: [u64; 26] = [
    // zeros
    0x0000_0000_0000_0000,
    0x8000_0000_0000_0000,
    // subnormals: least, greatest, one between
    0x0000_0000_0000_0001,
    0x8000_0000_0000_0001,
    0x000f_ffff_ffff_ffff,
    0x800f_ffff_ffff_ffff,
    0x0008_0000_0000_0000,
    // normal numbers: least, 1, -1.5, pi, greatest
    0x0010_0000_0000_0000,
    0x3ff0_0000_0000_0000,
    0xbff8_0000_0000_0000,
    0x4009_21fb_5444_2d18,
    0x7fef_ffff_ffff_ffff,
    0xffef_ffff_ffff_ffff,
    // infinities
    0x7ff0_0000_0000_0000,
    0xfff0_0000_0000_0000,
    // quiet NaNs
    0x7ff8_0000_0000_0000,
    0xfff8_0000_0000_0000,
    0x7ff8_0000_0000_0001,
    0x7ffc_dead_beef_0001,
    0x7fff_ffff_ffff_ffff,
    0xffff_ffff_ffff_ffff,
    // signalling NaNs
    0x7ff0_0000_0000_0001,
    0xfff0_0000_0000_0001,
    0x7ff4_0000_0000_0000,
    0x7ff7_ffff_ffff_ffff,
    0xfff7_ffff_ffff_ffff,
];

/// f32 by their bits, the same kinds.
pub const FLOATS: [u32; 22] = [
    0x0000_0000,
    0x8000_0000,
    0x0000_0001,
    0x8000_0001,
    0x007f_ffff,
    0x807f_ffff,
    0x0080_0000,
    0x3f80_0000,
    0xbfc0_0000,
    0x4049_0fdb,
    0x7f7f_ffff,
    0xff7f_ffff,
    0x7f80_0000,
    0xff80_0000,
    0x7fc0_0000,
    0xffc0_0000,
    0x7fc0_0001,
    0x7fff_ffff,
    0xffff_ffff,
    0x7f80_0001,
    0xff80_0001,
    0xffbf_ffff,
];

/// What isn't text: document 01's three, sequences broken off, bytes that
/// begin none, and letters around one.
pub const NO_TEXTS: [&[u8]; 11] = [
    b"\xc0\x80",
    b"\xed\xa0\x80",
    b"\xf4\x90\x80\x80",
    b"\xc3",
    b"\xe2\x82",
    b"\xf0\x9f\x98",
    b"\x80",
    b"\xff",
    b"a\x80b",
    b"\xe9t\xe9",
    b"abcdefgh\xc3",
];
