//! The port's own listing of a log, by the call of its static library. A
//! slice goes over as its address and its length.

use lateenbael_sys as sys;

/// What the proved listing writes for a log; behind that it leaves the
/// buffer as it was.
pub fn listed(log: &[u8]) -> String {
    const BEFORE: u8 = 0xee;
    let mut out = [BEFORE; sys::LISTING_SIZE];
    // Safety: it reads the log, and writes `out` alone.
    let listed =
        unsafe { sys::lateenbael_list_log(log.as_ptr(), log.len(), out.as_mut_ptr(), out.len()) };
    assert_eq!(listed.refusal, 0);
    let (text, behind) = out.split_at(listed.len);
    assert!(behind.iter().all(|byte| *byte == BEFORE));
    String::from_utf8_lossy(text).into_owned()
}
