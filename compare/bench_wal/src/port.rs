//! The port's side: opening a log, by the call of its static library. A slice
//! goes over as its address and its length.

use lateenbael_sys as sys;

use crate::logs;

/// The frame count of a full log, which ends in a commit frame.
pub fn open(log: &[u8]) -> u64 {
    // Safety: it reads the slice lent to it, and no more.
    let opened = unsafe { sys::lateenbael_wal_open(log.as_ptr(), log.len()) };
    assert_eq!(opened.refusal, 0);
    let wal = opened.wal;
    assert_eq!(wal.last_commit_offset, log.len());
    assert_eq!(
        (wal.committed, wal.last_commit_page_count),
        (1, logs::COUNT)
    );
    wal.frame_count as u64
}
