//! What the Rust's own log answers where the port's does otherwise
//! (docs/DIFFERENCES.md).

use crate::common::{log_file, page};
use engine::mvcc::{MVCC_FRAME_MARKER, MvccCommitBatch, MvccLogRecord};
use engine::sql::pager::wal::Wal;
use stand_in::world;

/// A new log with a batch, sealed by the frame of a page behind it.
fn sealed_batch() -> (Wal, MvccCommitBatch) {
    world::reset();
    let batch = MvccCommitBatch {
        commit_ts: 1,
        records: vec![MvccLogRecord::tombstone("t", 1)],
    };
    let mut log = Wal::create(&log_file()).unwrap();
    log.append_mvcc_batch(&batch).unwrap();
    log.append_frame(1, &page(1), Some(2)).unwrap();
    (log, batch)
}

#[test]
fn a_batch_sealed_since_is_not_listed() {
    let (log, _) = sealed_batch();
    assert!(log.recovered_mvcc_commits().is_empty());
}

#[test]
fn a_batch_reads_as_a_page() {
    let (mut log, batch) = sealed_batch();
    let body = log.read_page(MVCC_FRAME_MARKER).unwrap().unwrap();
    assert_eq!(body[..], batch.encode().unwrap()[..]);
}
