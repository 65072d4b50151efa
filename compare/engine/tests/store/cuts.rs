use engine::mvcc::MvccCommitBatch;
use engine::sql::pager::pager::Pager;
use stand_in::path::Path;
use stand_in::world::{self, Cut, Listed, Store, list, list_cut};

use crate::common::*;

/// A store of four pages with 98 frames in its log, and two pages staged:
/// the commit stores three frames and brings on a fold.
fn before_commit() -> Pager {
    let mut store = new_store();
    for number in [2, 3] {
        store.stage_page(number, page(0x22));
    }
    store.commit(header(4)).unwrap();
    while bytes_of(&log_file()).len() < (LOG_HEADER + 98 * FRAME) as usize {
        store.commit(header(4)).unwrap();
    }
    for number in [2, 4] {
        store.stage_page(number, page(0x44));
    }
    store
}

fn commit_cut(stores: usize, bytes: u64) -> Listed<engine::error::Result<usize>> {
    let mut store = before_commit();
    list_cut(Cut { stores, bytes }, || store.commit(header(5)))
}

fn files() -> [Vec<u8>; 2] {
    [main_file(), log_file()].map(|file| bytes_of(&file))
}

#[test]
fn a_cut_inside_a_frame_leaves_exactly_those_bytes() {
    let mut store = new_store();
    store.stage_page(1, page(0xab));
    let old = bytes_of(&log_file());
    store.commit(header(2)).unwrap();
    let new = bytes_of(&log_file());

    for bytes in [0, 1, 16, 17, 4_111] {
        let mut store = new_store();
        store.stage_page(1, page(0xab));
        let listed = list_cut(Cut { stores: 0, bytes }, || store.commit(header(2)));
        assert!(listed.answer.is_err());
        assert_eq!(listed.stores, []);
        let cut = listed.cut.unwrap();
        assert_eq!(cut.store, frame(0, false));
        assert_eq!(cut.bytes, bytes);
        assert!(!cut.is_whole());
        let left = bytes_of(&log_file());
        assert_eq!(left.len(), old.len() + bytes as usize);
        assert_eq!(left, new[..left.len()]);
    }
}

/// The file after a cut: the first bytes of the store new, the rest old.
fn torn(old: &[u8], new: &[u8], store: &Store, bytes: u64) -> Vec<u8> {
    let (first, end) = (store.first as usize, (store.first + bytes) as usize);
    let mut file = old.to_vec();
    file.resize(old.len().max(end), 0);
    file[first..end].copy_from_slice(&new[first..end]);
    file
}

/// Every store of a commit with its fold, cut after several bytes: what is
/// left lies between the files before that store and those after it.
#[test]
fn a_cut_leaves_the_stores_before_it_whole_and_none_behind() {
    let mut store = before_commit();
    let all = list(|| store.commit(header(5))).stores;
    assert_eq!(all.len(), 3 + 3 + 4);

    for (index, store) in all.iter().enumerate() {
        commit_cut(index, 0);
        let old = files();
        commit_cut(index + 1, 0);
        let new = files();
        for bytes in [0, 1, 16, 17, 31, 32, 33, 4_095, 4_096, 4_111, 4_112] {
            let listed = commit_cut(index, bytes);
            assert!(listed.answer.is_err());
            assert_eq!(listed.stores, all[..index]);
            let cut = listed.cut.unwrap();
            for (at, file) in [main_file(), log_file()].iter().enumerate() {
                let wanted = if store.file != *file || cut.bytes == 0 {
                    old[at].clone()
                } else if cut.is_whole() {
                    new[at].clone()
                } else {
                    assert_eq!(cut.bytes, bytes);
                    torn(&old[at], &new[at], store, bytes)
                };
                assert_eq!(bytes_of(file), wanted);
            }
            assert_reopens(listed.stores.len() > 2 || (index == 2 && cut.is_whole()));
        }
    }
}

/// A cut store opens to the state before the commit or after it.
fn assert_reopens(sealed: bool) {
    let store = Pager::open(&main_file()).unwrap();
    let (count, second) = if sealed { (5, 0x44) } else { (4, 0x22) };
    assert_eq!(store.header(), header(count));
    assert_eq!(store.read_page(2), Some(&page(second)));
    assert_eq!(store.read_page(3), Some(&page(0x22)));
    assert_eq!(store.read_page(4), sealed.then(|| page(0x44)).as_ref());
}

#[test]
fn after_a_cut_the_engine_can_only_be_opened_anew() {
    let mut store = before_commit();
    let cut = Cut {
        stores: 1,
        bytes: 100,
    };
    assert!(list_cut(cut, || store.commit(header(5))).answer.is_err());
    let left = files();
    let batch = MvccCommitBatch {
        commit_ts: 1,
        records: Vec::new(),
    };
    assert!(store.commit(header(5)).is_err());
    assert!(store.checkpoint().is_err());
    assert!(store.append_mvcc_batch(&batch).is_err());
    assert_eq!(files(), left);
    assert!(Pager::open(&main_file()).unwrap().checkpoint().is_ok());
}

/// Creation is cut too: the file isn't there before its first store.
#[test]
fn a_cut_creation_may_leave_no_file() {
    let created = |stores, bytes| {
        world::reset();
        let cut = Cut { stores, bytes };
        assert!(
            list_cut(cut, || Pager::create(&main_file()))
                .answer
                .is_err()
        );
        [main_file(), log_file()].map(|file: Path| world::read_file(&file).map(|file| file.len()))
    };
    assert_eq!(created(0, 0), [None, None]);
    assert_eq!(created(0, 1), [Some(0), None]);
    assert_eq!(created(1, 31), [Some(0), None]);
    assert_eq!(created(1, 32), [Some(32), None]);
    assert_eq!(created(2, 5), [Some(4_101), None]);
    assert_eq!(created(3, 0), [Some(8_192), None]);
    assert_eq!(created(3, 1), [Some(8_192), Some(0)]);
    assert_eq!(created(4, 31), [Some(8_192), Some(0)]);
    assert_eq!(created(4, 32), [Some(8_192), Some(32)]);
}
