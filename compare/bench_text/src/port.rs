//! The port's side: the check, by the call of its static library. A slice goes
//! over as its address and its length.

use lateenbael_sys as sys;

/// The number of characters comes with the answer.
pub const CHECK: fn(&[u8]) -> u64 = |bytes| {
    // Safety: it reads the slice lent to it, and no more.
    let answer = unsafe { sys::lateenbael_from_utf8(bytes.as_ptr(), bytes.len()) };
    assert_eq!(answer.refusal, 0);
    answer.chars as u64
};
