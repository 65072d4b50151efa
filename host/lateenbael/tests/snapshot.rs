//! A store carried over by its snapshot reads the same: header, clock, every page, every batch.
mod common;

use common::{Folder, batch, bytes_of, commit_pages, open, page, put_back, with_count};
use lateenbael::sys::{DbHeader, LOG_AREA, MVCC_FRAME_MARKER, PAGE_SIZE, STAGED_PAGES};
use lateenbael::{Batch, BatchBuilder, Error, Mode, Refusal, Snapshot, SnapshotError, Store, wal_path_for};
use std::fs;
use std::path::Path;

/// The snapshot of a store, after the store made of it was found to read the same, now and after another opening.
fn carried_over(folder: &Folder, path: &Path) -> Snapshot {
    let snapshot = Snapshot::of(&open(path, Mode::ReadOnly)).unwrap();
    let opened_cleanly = with_sealed_times(&snapshot);
    let other = folder.0.join("other");
    let restored = snapshot.create(&other).unwrap();
    assert!(Snapshot::of(&restored).unwrap() == opened_cleanly);
    drop(restored);
    for mode in [Mode::ReadOnly, Mode::Plain] {
        assert!(Snapshot::of(&open(&other, mode)).unwrap() == snapshot);
    }
    assert!(Snapshot::of(&open(&other, Mode::ReadWrite)).unwrap() == opened_cleanly);
    assert_eq!(open(&other, Mode::ReadOnly).log().unwrap().unwrap().file_len() % 4112, 32);
    fs::remove_file(wal_path_for(&other)).unwrap();
    fs::remove_file(&other).unwrap();
    snapshot
}

/// The same with the clock of a clean opening: a batch's time counts where it is above the log header's.
fn with_sealed_times(snapshot: &Snapshot) -> Snapshot {
    let times = snapshot.batches.iter().map(|body| Batch::decode(&body[..]).unwrap().commit_ts());
    let clock_high_water = times.fold(snapshot.clock_high_water, u64::max);
    Snapshot {
        clock_high_water,
        ..snapshot.clone()
    }
}

/// A log of frames: page number, commit count, body.
fn forged_log(header: &[u8], frames: &[(u32, u32, &[u8])]) -> Vec<u8> {
    let mut log = header[..32].to_vec();
    for (page_num, commit_page_count, body) in frames {
        let mut heading = [page_num.to_le_bytes(), commit_page_count.to_le_bytes()].concat();
        heading.extend_from_slice(&header[16..20]);
        let bytes = heading.iter().chain(*body);
        let sum = bytes.fold(0u32, |sum, b| sum.rotate_left(1).wrapping_add((*b).into()));
        log.extend([&heading, &sum.to_le_bytes()[..], body].concat());
    }
    log
}

fn header_page(header: DbHeader) -> [u8; PAGE_SIZE] {
    let mut page = [0; PAGE_SIZE];
    // SAFETY: a whole slice is lent.
    assert_eq!(
        unsafe { lateenbael::sys::lateenbael_encode_header(header, page.as_mut_ptr(), page.len()) },
        0
    );
    page
}

#[test]
fn a_new_store_is_carried_over() {
    let folder = Folder::new();
    Store::create(folder.store()).unwrap();
    let snapshot = carried_over(&folder, &folder.store());
    assert!(snapshot.pages[0].is_none() && snapshot.pages[1].is_some());
}

#[test]
fn pages_clock_and_batches_are_carried_over() {
    let folder = Folder::new();
    let path = folder.store();
    let mut store = Store::create(&path).unwrap();
    commit_pages(&mut store, 2, &[2, 3, 4, 5, 6]);
    store.observe_clock_high_water(u64::MAX).unwrap();
    store.checkpoint().unwrap();
    drop(store);
    let folded = carried_over(&folder, &path);
    assert!(folded.pages[0].is_none() && folded.clock_high_water == u64::MAX);
    let mut store = open(&path, Mode::ReadWrite);
    store.append_mvcc_batch(batch(1).body()).unwrap();
    commit_pages(&mut store, 3, &[33]);
    store.append_mvcc_batch(batch(2).body()).unwrap();
    let mut header = with_count(store.header().unwrap(), 5);
    (header.schema_root_page, header.format_version, header.freelist_head) = (u32::MAX, 6, 77);
    store.commit(header).unwrap();
    store.append_mvcc_batch(batch(3).body()).unwrap();
    let live = Snapshot::of(&store).unwrap();
    drop(store);
    let snapshot = carried_over(&folder, &path);
    assert!(live == snapshot);
    assert_eq!((snapshot.header, snapshot.pages.len(), snapshot.batches.len()), (header, 5, 2));
    assert!(snapshot.pages[0].as_deref() == Some(&header_page(header)));
    assert!(snapshot.pages[3].as_deref() == Some(&page(33)));
}

#[test]
fn a_store_of_1024_pages_is_carried_over() {
    let folder = Folder::new();
    let mut store = Store::create(folder.store()).unwrap();
    for first in (2..1024).step_by(STAGED_PAGES) {
        let seeds: Vec<u8> = (first..1024.min(first + STAGED_PAGES as u32)).map(|n| (n % 255) as u8).collect();
        commit_pages(&mut store, first, &seeds);
    }
    drop(store);
    assert_eq!(carried_over(&folder, &folder.store()).pages.len(), 1024);
}

#[test]
fn as_many_batches_as_a_log_holds_are_carried_over() {
    let folder = Folder::new();
    let path = folder.store();
    let header = Store::create(&path).unwrap().header().unwrap();
    let [main, log] = bytes_of(&path);
    let log = log.unwrap();
    let bodies: Vec<BatchBuilder> = (0..1024).map(batch).collect();
    let frames = |n: usize| bodies[..n].iter().map(|body| (MVCC_FRAME_MARKER, 0, &body.body()[..]));
    let page_zero = header_page(header);
    let with_page_zero: Vec<_> = frames(1023).chain([(0, 2, &page_zero[..])]).collect();
    let mut by_a_batch: Vec<_> = frames(1024).collect();
    by_a_batch[1023].1 = 2;
    for (frames, count) in [(with_page_zero, 1023), (by_a_batch, 1024)] {
        let log = forged_log(&log, &frames);
        assert_eq!(log.len(), LOG_AREA);
        put_back(&path, &[main.clone(), Some(log)]);
        let snapshot = carried_over(&folder, &path);
        assert_eq!((snapshot.batches.len(), snapshot.clock_high_water), (count, 0));
    }
}

/// Of a store that was opened cleanly: the clock that it took goes to the new log's header.
#[test]
fn a_raised_clock_is_carried_over() {
    let folder = Folder::new();
    let path = folder.store();
    let mut store = Store::create(&path).unwrap();
    store.append_mvcc_batch(batch(9).body()).unwrap();
    commit_pages(&mut store, 1, &[1]);
    drop(store);
    let snapshot = Snapshot::of(&open(&path, Mode::ReadWrite)).unwrap();
    let other = folder.0.join("other");
    assert!(Snapshot::of(&snapshot.create(&other).unwrap()).unwrap() == snapshot);
    let clocks = [&path, &other].map(|path| open(path, Mode::ReadOnly).clock_high_water().unwrap());
    assert_eq!((snapshot.clock_high_water, clocks), (9, [0, 9]));
}

#[test]
fn what_others_wrote_is_carried_over_as_it_is() {
    let folder = Folder::new();
    let path = folder.store();
    drop(Store::create(&path).unwrap());
    let [main, log] = bytes_of(&path);
    let log = log.unwrap();
    let mut odd_batch = *batch(5).body();
    odd_batch[4000..].fill(0xee);
    let mut odd_header = header_page(DbHeader {
        page_count: 3,
        schema_root_page: 9,
        format_version: 5,
        freelist_head: 1,
    });
    odd_header[32..].fill(0x55);
    let table: [&[(u32, u32, &[u8])]; 4] = [
        &[(MVCC_FRAME_MARKER, 0, &odd_batch), (2, 0, &page(2)), (0, 7, &odd_header)],
        &[(MVCC_FRAME_MARKER, 0, &odd_batch), (1, 2, &page(1))],
        &[(MVCC_FRAME_MARKER, 2, &odd_batch)],
        &[(MVCC_FRAME_MARKER, 1, &odd_batch), (MVCC_FRAME_MARKER, 0, &odd_batch)],
    ];
    for frames in table {
        put_back(&path, &[main.clone(), Some(forged_log(&log, frames))]);
        let snapshot = carried_over(&folder, &path);
        assert!(snapshot.batches.len() == 1 && *snapshot.batches[0] == odd_batch);
    }
}

#[test]
fn a_store_without_pages_is_carried_over() {
    let folder = Folder::new();
    let path = folder.store();
    drop(Store::create(&path).unwrap());
    let [main, log] = bytes_of(&path);
    let log = log.unwrap();
    let none = header_page(DbHeader {
        page_count: 0,
        schema_root_page: 1,
        format_version: 4,
        freelist_head: 0,
    });
    put_back(&path, &[Some(none.to_vec()), Some(log.clone())]);
    assert_eq!(carried_over(&folder, &path).pages.len(), 0);
    let log = forged_log(&log, &[(MVCC_FRAME_MARKER, 0, batch(1).body()), (0, 1, &none)]);
    put_back(&path, &[main, Some(log)]);
    let snapshot = carried_over(&folder, &path);
    assert_eq!((snapshot.pages.len(), snapshot.batches.len()), (0, 1));
}

#[test]
fn a_missing_log_is_one_without_frames() {
    let folder = Folder::new();
    let path = folder.store();
    drop(Store::create(&path).unwrap());
    fs::remove_file(wal_path_for(&path)).unwrap();
    assert_eq!(carried_over(&folder, &path).clock_high_water, 0);
    assert!(!wal_path_for(&path).exists());
}

/// Why a snapshot that is edited so is refused. No file is left.
fn refused(edit: impl Fn(&mut Snapshot)) -> SnapshotError {
    let folder = Folder::new();
    let mut store = Store::create(folder.store()).unwrap();
    commit_pages(&mut store, 2, &[2, 3]);
    let mut snapshot = Snapshot::of(&store).unwrap();
    edit(&mut snapshot);
    let error = snapshot.create(folder.0.join("other")).unwrap_err();
    assert_eq!(fs::read_dir(&folder.0).unwrap().count(), 2, "{error}");
    error
}

#[test]
fn pages_that_no_store_has_are_refused() {
    let nowhere = refused(|s| s.pages[2] = None);
    assert!(matches!(nowhere, SnapshotError::PageNowhere { page: 2 }), "{nowhere}");
    let count = refused(|s| s.header.page_count = 5);
    assert!(matches!(count, SnapshotError::PageCount { page_count: 5, pages: 4 }), "{count}");
    let many = refused(|s| {
        s.pages.resize(1025, Some(Box::new([0; PAGE_SIZE])));
        s.header.page_count = 1025;
    });
    assert!(matches!(many, SnapshotError::PageCount { pages: 1025, .. }), "{many}");
    let version = refused(|s| s.header.format_version = 7);
    let refusal = Refusal::Version;
    assert!(matches!(version, SnapshotError::Header { refusal: r } if r == refusal), "{version}");
    let other_header = refused(|s| s.header.schema_root_page = 70);
    assert!(matches!(other_header, SnapshotError::Different), "{other_header}");
}

#[test]
fn batches_that_no_log_has_are_refused() {
    let not_a_batch = refused(|s| s.batches.push(Box::new([0; PAGE_SIZE])));
    let (index, refusal) = (0, Refusal::Magic);
    assert!(
        matches!(not_a_batch, SnapshotError::Batch { index: i, refusal: r } if (i, r) == (index, refusal)),
        "{not_a_batch}"
    );
    let full = refused(|s| s.batches = vec![Box::new(*batch(1).body()); 1024]);
    let (index, refusal) = (1024, Refusal::LogFull);
    assert!(
        matches!(full, SnapshotError::Batch { index: i, refusal: r } if (i, r) == (index, refusal)),
        "{full}"
    );
}

#[test]
fn a_store_that_is_there_is_left_alone() {
    let folder = Folder::new();
    let snapshot = Snapshot::of(&Store::create(folder.store()).unwrap()).unwrap();
    let before = bytes_of(&folder.store());
    let taken = snapshot.create(folder.store()).unwrap_err();
    assert!(matches!(taken, SnapshotError::Store(Error::AlreadyExists { .. })), "{taken}");
    assert!(bytes_of(&folder.store()) == before);
}
