//! Refused calls alter neither file, and the store goes on.
mod common;
use common::*;
use lateenbael::sys::STAGED_PAGES;
use lateenbael::{BatchBuilder, Disk, Error, Mode, Refusal, Store, wal_path_for};
use std::fs::OpenOptions;
use std::io::Write;

/// Every call that must be refused, each with its refusal.
fn all_refused<D: Disk>(store: &mut Store<D>, header: lateenbael::DbHeader) {
    assert_eq!(refusal(store.stage_page(1024, &page(1))), Some(Refusal::Page));
    assert_eq!(refusal(store.append_mvcc_batch(&[0; 17])), Some(Refusal::Short));
    assert_eq!(refusal(store.append_mvcc_batch(&[0; 18])), Some(Refusal::Magic));
    assert_eq!(refusal(store.append_mvcc_batch(&batch(1).body()[..30])), Some(Refusal::Truncated));
    assert_eq!(refusal(store.commit(with_count(header, 0))), Some(Refusal::NewHeader));
    assert_eq!(refusal(store.commit(with_count(header, 1025))), Some(Refusal::NewHeader));
    assert!(matches!(store.commit(with_count(header, 9)), Err(Error::Joining { page: 3 })));
}

#[test]
fn refused_calls_leave_the_files() {
    let folder = Folder::new();
    let path = folder.store();
    let mut store = Store::create(&path).unwrap();
    commit_pages(&mut store, 2, &[1]);
    let before = bytes_of(&path);
    let header = store.header().unwrap();
    all_refused(&mut store, header);
    assert_eq!(bytes_of(&path), before);
    assert_eq!(commit_pages(&mut store, 1, &[2, 3]), 2);
    assert_ne!(bytes_of(&path), before);
}

#[test]
fn read_only_writes_nothing() {
    let folder = Folder::new();
    let path = folder.store();
    commit_pages(&mut Store::create(&path).unwrap(), 2, &[1]);
    let before = bytes_of(&path);
    let mut store = open(&path, Mode::ReadOnly);
    assert!(store.is_read_only().unwrap());
    let header = store.header().unwrap();
    store.stage_page(1, &page(7)).unwrap();
    assert_eq!(refusal(store.commit(header)), Some(Refusal::ReadOnly));
    assert_eq!(refusal(store.checkpoint()), Some(Refusal::ReadOnly));
    assert_eq!(refusal(store.append_mvcc_batch(batch(1).body())), Some(Refusal::ReadOnly));
    store.observe_clock_high_water(3).unwrap();
    store.clear_staged().unwrap();
    assert_eq!(bytes_of(&path), before);
}

#[test]
fn a_page_more_than_can_be_staged_is_refused() {
    let folder = Folder::new();
    let mut store = Store::create(folder.store()).unwrap();
    let most = STAGED_PAGES as u32;
    for n in 0..most {
        store.stage_page(n, &page(1)).unwrap();
    }
    assert_eq!(refusal(store.stage_page(most, &page(1))), Some(Refusal::Staging));
    assert_eq!(refusal(store.stage_page(1024, &page(1))), Some(Refusal::Page));
    store.stage_page(most - 1, &page(2)).unwrap();
    store.clear_staged().unwrap();
    store.stage_page(most, &page(1)).unwrap();
    let told = Refusal::Staging.to_string();
    assert_eq!(told, format!("refused 12 Staging: {most} other pages are staged"));
}

/// By one page more than can be staged no commit grows.
#[test]
fn a_commit_grows_by_what_can_be_staged() {
    let folder = Folder::new();
    let mut store = Store::create(folder.store()).unwrap();
    let header = store.header().unwrap();
    let end = 2 + STAGED_PAGES as u32;
    for n in 2..end {
        store.stage_page(n, &page(n as u8)).unwrap();
    }
    assert_eq!(refusal(store.stage_page(end, &page(1))), Some(Refusal::Staging));
    assert!(matches!(store.commit(with_count(header, end + 1)), Err(Error::Joining { page }) if page == end as usize));
    assert_eq!(store.commit(with_count(header, end)).unwrap(), STAGED_PAGES);
    assert_eq!(store.read_page(end - 1).unwrap(), Some(&page(end as u8 - 1)));
}

#[test]
fn a_full_log_refuses_and_a_checkpoint_makes_room() {
    let folder = Folder::new();
    let path = folder.store();
    let mut store = Store::create(&path).unwrap();
    let empty = BatchBuilder::new(0);
    for _ in 0..1024 {
        store.append_mvcc_batch(empty.body()).unwrap();
    }
    let before = bytes_of(&path);
    let header = store.header().unwrap();
    assert_eq!(refusal(store.append_mvcc_batch(empty.body())), Some(Refusal::LogFull));
    assert_eq!(refusal(store.commit(header)), Some(Refusal::LogFull));
    assert!(bytes_of(&path) == before);
    assert_eq!(store.checkpoint().unwrap(), 0);
    assert_eq!(store.commit(header).unwrap(), 0);
}

#[test]
fn a_page_that_the_count_leaves_out_is_refused() {
    let folder = Folder::new();
    let path = folder.store();
    seven_pages(&path);
    let mut store = open(&path, Mode::ReadWrite);
    let (header, before) = (store.header().unwrap(), bytes_of(&path));
    for n in [9, 5, 6] {
        store.stage_page(n, &page(1)).unwrap();
    }
    for (count, beyond) in [(7, 9), (6, 6), (1, 5), (9, 9)] {
        let answer = store.commit(with_count(header, count));
        assert!(
            matches!(answer, Err(Error::StagedBeyond { page, page_count }) if (page, page_count) == (beyond, count)),
            "{answer:?}"
        );
    }
    // What the library refuses, it refuses.
    assert_eq!(refusal(store.commit(with_count(header, 0))), Some(Refusal::NewHeader));
    assert!(matches!(store.commit(with_count(header, 10)), Err(Error::Joining { page: 7 })));
    assert_eq!(bytes_of(&path), before);
    store.clear_staged().unwrap();
    store.stage_page(6, &page(1)).unwrap();
    assert_eq!(store.commit(header).unwrap(), 1);
}

/// Bytes at the log's end that are no frame: a commit behind them would be acknowledged, and no opening would find it.
#[test]
fn nothing_is_committed_behind_a_torn_tail() {
    let folder = Folder::new();
    let path = folder.store();
    for torn in [1, 4111, 4112, 5000] {
        seven_pages(&path);
        commit_pages(&mut open(&path, Mode::ReadWrite), 3, &[32]);
        let log = wal_path_for(&path);
        OpenOptions::new()
            .append(true)
            .open(&log)
            .unwrap()
            .write_all(&vec![7; torn])
            .unwrap();
        let before = bytes_of(&path);
        let mut store = open(&path, Mode::Plain);
        store.stage_page(3, &page(33)).unwrap();
        let header = store.header().unwrap();
        assert!(matches!(store.commit(header), Err(Error::TornTail { file, bytes }) if file == log && bytes == torn));
        let appended = store.append_mvcc_batch(batch(1).body());
        assert!(matches!(appended, Err(Error::TornTail { .. })));
        assert_eq!(bytes_of(&path), before);
        store.checkpoint().unwrap();
        assert_eq!(store.commit(header).unwrap(), 1);
        drop(store);
        assert_eq!(open(&path, Mode::ReadWrite).read_page(3).unwrap(), Some(&page(33)));
    }
}
