use engine::mvcc::{MvccCommitBatch, MvccLogRecord};
use engine::sql::pager::pager::Pager;
use stand_in::world::{self, list};

use crate::common::*;

/// The page numbers in the headings of the log's frames.
fn pages_in_log() -> Vec<u32> {
    bytes_of(&log_file())[LOG_HEADER as usize..]
        .chunks(FRAME as usize)
        .map(|frame| u32::from_le_bytes(frame[..4].try_into().unwrap()))
        .collect()
}

#[test]
fn creation() {
    world::reset();
    let listed = list(|| Pager::create(&main_file()));
    assert!(listed.answer.is_ok());
    assert_eq!(
        listed.stores,
        [
            main_length(0, false),
            main_bytes(0, false),
            main_bytes(PAGE, true),
            log_length(0, false),
            log_header(true),
        ]
    );
}

#[test]
fn opening() {
    drop(new_store());
    assert_eq!(list(|| Pager::open(&main_file()).unwrap()).stores, []);
    world::remove_file(&log_file());
    let reading = list(|| Pager::open_read_only(&main_file()).unwrap());
    assert_eq!(reading.stores, []);
    let writing = list(|| Pager::open(&main_file()).unwrap());
    assert_eq!(writing.stores, [log_length(0, false), log_header(true)]);
}

/// Differing pages ascending, then page 0 as the seal, with the one flush.
#[test]
fn commit() {
    let mut store = new_store();
    let unchanged = *store.read_page(1).unwrap();
    for (number, bytes) in [(3, page(3)), (1, unchanged), (2, page(2))] {
        store.stage_page(number, bytes);
    }
    let listed = list(|| store.commit(header(4)));
    assert_eq!(listed.answer.unwrap(), 2);
    assert_eq!(
        listed.stores,
        [frame(0, false), frame(1, false), frame(2, true)]
    );
    assert_eq!(pages_in_log(), [2, 3, 0]);
}

#[test]
fn batch() {
    let mut store = new_store();
    let batch = MvccCommitBatch {
        commit_ts: 1,
        records: vec![MvccLogRecord::tombstone("t", 1)],
    };
    let listed = list(|| store.append_mvcc_batch(&batch));
    assert!(listed.answer.is_ok());
    assert_eq!(listed.stores, [frame(0, false)]);
    assert_eq!(pages_in_log(), [u32::MAX]);
}

/// Pages ascending and a flush, main header, main length and a flush, log
/// length, log header and a flush.
#[test]
fn fold() {
    let mut store = new_store();
    for number in [3, 1, 2] {
        store.stage_page(number, page(number as u8));
    }
    store.commit(header(4)).unwrap();
    let listed = list(|| store.checkpoint());
    assert_eq!(listed.answer.unwrap(), 3);
    assert_eq!(
        listed.stores,
        [
            main_bytes(PAGE, false),
            main_bytes(2 * PAGE, false),
            main_bytes(3 * PAGE, true),
            main_bytes(0, false),
            main_length(4 * PAGE, true),
            log_length(LOG_HEADER, false),
            log_header(true),
        ]
    );
}

/// No page to write, no first flush; no frame, no store at all.
#[test]
fn fold_with_less_to_do() {
    let mut store = new_store();
    store.commit(header(2)).unwrap();
    let listed = list(|| store.checkpoint());
    assert_eq!(listed.answer.unwrap(), 0);
    assert_eq!(
        listed.stores,
        [
            main_bytes(0, false),
            main_length(2 * PAGE, true),
            log_length(LOG_HEADER, false),
            log_header(true),
        ]
    );
    let listed = list(|| store.checkpoint());
    assert_eq!(listed.answer.unwrap(), 0);
    assert_eq!(listed.stores, []);
}

#[test]
fn the_hundredth_frame_brings_on_a_fold() {
    let mut store = new_store();
    for index in 0..99 {
        let listed = list(|| store.commit(header(2)));
        assert_eq!(listed.stores, [frame(index, true)]);
    }
    let listed = list(|| store.commit(header(2)));
    assert_eq!(
        listed.stores,
        [
            frame(99, true),
            main_bytes(0, false),
            main_length(2 * PAGE, true),
            log_length(LOG_HEADER, false),
            log_header(true),
        ]
    );
}
