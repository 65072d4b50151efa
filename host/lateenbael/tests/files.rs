//! A store on two real files: creation, commits, checkpoints and openings.
mod common;
use common::*;
use lateenbael::sys::STAGED_PAGES;
use lateenbael::{Area, Disk, Error, Files, Mode, OpenOptions, Refusal, Store, wal_path_for};
use std::fs;
use std::path::Path;
use std::time::{Duration, Instant};

#[test]
fn creation_writes_both_files() {
    let folder = Folder::new();
    let path = folder.store();
    let files = Files::fresh(&path, Duration::ZERO).unwrap();
    let store = Store::create_on(files, counting_salts(6)).unwrap();
    assert_eq!(store.header().unwrap().page_count, 2);
    let [main, log] = bytes_of(&path).map(Option::unwrap);
    assert_eq!(main.len(), 8192);
    assert_eq!(&main[..16], b"SQLRiteFormat\0\0\0");
    assert_eq!(
        log,
        [b"SQLRWAL\0".as_slice(), &[3, 0, 0, 0, 0, 16, 0, 0, 7, 0, 0, 0], &[0; 12]].concat()
    );
}

#[test]
fn a_length_that_a_file_has_takes_no_call() {
    let folder = Folder::new();
    let path = folder.store();
    drop(Store::create(&path).unwrap());
    let mut files = existing(&path);
    let mut length_after = |len: usize, stored: &[u8]| {
        files.write_at(Area::Main, len, stored).unwrap();
        // Emptied behind its back, the file shows whether a call is made.
        fs::write(&path, []).unwrap();
        files.set_len(Area::Main, len + stored.len()).unwrap();
        fs::metadata(&path).unwrap().len()
    };
    assert_eq!(length_after(8192, &[]), 8192);
    assert_eq!(length_after(8192, &[]), 0);
    assert_eq!(length_after(8192, &[7; 3]), 0);
    assert_eq!(length_after(8192, &[]), 8192);
    assert_eq!(files.read(Area::Main, &mut [0; 9000]).unwrap(), Some(8192));
}

#[test]
fn creation_spares_what_is_there() {
    let folder = Folder::new();
    let path = folder.store();
    for there in [path.clone(), wal_path_for(&path)] {
        fs::write(&there, b"precious").unwrap();
        assert!(matches!(Store::create(&path), Err(Error::AlreadyExists { file }) if file == there));
        assert_eq!(fs::read(&there).unwrap(), b"precious");
        assert_eq!(fs::read_dir(&folder.0).unwrap().count(), 1);
        fs::remove_file(&there).unwrap();
    }
    fs::write(&path, [1; 20000]).unwrap();
    fs::write(wal_path_for(&path), [1; 20000]).unwrap();
    drop(Store::create_over(&path).unwrap());
    assert_eq!(bytes_of(&path).map(|bytes| bytes.unwrap().len()), [8192, 32]);
    open(&path, Mode::ReadWrite);
}

#[test]
fn what_was_committed_is_there_after_every_opening() {
    let folder = Folder::new();
    let path = folder.store();
    let mut store = Store::create(&path).unwrap();
    store.append_mvcc_batch(batch(5).body()).unwrap();
    store.append_mvcc_batch(batch(4).body()).unwrap();
    assert_eq!(commit_pages(&mut store, 2, &[1, 2, 3]), 3);
    assert_eq!(commit_pages(&mut store, 2, &[1, 9, 3]), 1);
    let before = contents(&store);
    assert_eq!(times(&store), []);
    drop(store);
    for mode in [Mode::ReadOnly, Mode::Plain, Mode::ReadWrite] {
        let store = open(&path, mode);
        assert_eq!(contents(&store), before);
        assert_eq!(times(&store), [5, 4]);
        assert_eq!(store.frame_count().unwrap(), 8);
    }
    let mut store = open(&path, Mode::ReadWrite);
    store.observe_clock_high_water(40).unwrap();
    assert_eq!(store.checkpoint().unwrap(), 3);
    assert_eq!(times(&store), []);
    assert_eq!(contents(&store), before);
    drop(store);
    let [main, log] = bytes_of(&path).map(Option::unwrap);
    assert_eq!((main.len(), log.len()), (5 * PAGE, 32));
    let store = open(&path, Mode::ReadWrite);
    assert_eq!(contents(&store), before);
    assert_eq!(store.clock_high_water().unwrap(), 40);
}

/// The clock of each opening.
fn clocks<const N: usize>(path: &Path, modes: [Mode; N]) -> [u64; N] {
    modes.map(|mode| open(path, mode).clock_high_water().unwrap())
}

#[test]
fn a_clean_opening_takes_the_greatest_committed_time() {
    let folder = Folder::new();
    let path = folder.store();
    let mut store = Store::create(&path).unwrap();
    for time in [5, 9, 4] {
        store.append_mvcc_batch(batch(time).body()).unwrap();
    }
    commit_pages(&mut store, 1, &[1]);
    store.append_mvcc_batch(batch(12).body()).unwrap();
    assert_eq!(store.clock_high_water().unwrap(), 0);
    drop(store);
    assert_eq!(clocks(&path, [Mode::ReadOnly, Mode::Plain, Mode::ReadWrite]), [0, 0, 9]);
    // The opening has cut the log and stored nothing else.
    let cut = bytes_of(&path);
    assert_eq!(clocks(&path, [Mode::ReadWrite, Mode::Plain, Mode::ReadOnly]), [9, 0, 0]);
    assert_eq!(bytes_of(&path), cut);
    let mut store = open(&path, Mode::ReadWrite);
    assert_eq!(times(&store), [5, 9, 4]);
    store.observe_clock_high_water(8).unwrap();
    store.checkpoint().unwrap();
    drop(store);
    assert_eq!(clocks(&path, [Mode::ReadOnly, Mode::Plain, Mode::ReadWrite]), [9; 3]);
}

/// A time that was not observed is gone with its batch.
#[test]
fn an_appended_batch_leaves_the_clock() {
    for (observed, clock) in [(None, 0), (Some(9), 9)] {
        let folder = Folder::new();
        let path = folder.store();
        let mut store = Store::create(&path).unwrap();
        store.append_mvcc_batch(batch(9).body()).unwrap();
        observed.into_iter().for_each(|time| store.observe_clock_high_water(time).unwrap());
        commit_pages(&mut store, 1, &[1]);
        assert_eq!(store.clock_high_water().unwrap(), clock);
        store.checkpoint().unwrap();
        drop(store);
        assert_eq!(clocks(&path, [Mode::ReadWrite, Mode::Plain]), [clock; 2]);
    }
}

#[test]
fn the_hundredth_frame_brings_a_checkpoint() {
    let folder = Folder::new();
    let mut store = Store::create(folder.store()).unwrap();
    for seed in 0..49 {
        commit_pages(&mut store, 1, &[seed + 1]);
    }
    assert_eq!(store.frame_count().unwrap(), 98);
    assert_eq!(store.frames_before_checkpoint().unwrap(), 1);
    let salt = store.wal_header().unwrap().salt;
    commit_pages(&mut store, 1, &[99]);
    assert_eq!(store.frame_count().unwrap(), 0);
    assert_eq!(store.frames_before_checkpoint().unwrap(), 99);
    assert_ne!(store.wal_header().unwrap().salt, salt);
    drop(store);
    assert_eq!(bytes_of(&folder.store()).map(|bytes| bytes.unwrap().len()), [8192, 32]);
    assert_eq!(contents(&open(&folder.store(), Mode::ReadOnly)).pages, [(1, page(99).to_vec())]);
}

#[test]
fn only_a_clean_opening_drops_uncommitted_frames() {
    let folder = Folder::new();
    let path = folder.store();
    let mut store = Store::create(&path).unwrap();
    commit_pages(&mut store, 1, &[4]);
    store.append_mvcc_batch(batch(8).body()).unwrap();
    drop(store);
    let with_uncommitted = bytes_of(&path);
    for mode in [Mode::ReadOnly, Mode::Plain] {
        assert_eq!(open(&path, mode).frame_count().unwrap(), 3);
        assert_eq!(bytes_of(&path), with_uncommitted);
    }
    let store = open(&path, Mode::default());
    assert_eq!(store.frame_count().unwrap(), 2);
    assert_eq!(fs::metadata(wal_path_for(&path)).unwrap().len(), 32 + 2 * FRAME as u64);
}

#[test]
fn areas_of_an_earlier_store_show_nothing_of_it() {
    let folder = Folder::new();
    let other = folder.0.join("other");
    let mut earlier = Store::create(&other).unwrap();
    commit_pages(&mut earlier, 2, &[7; STAGED_PAGES]);
    earlier.stage_page(1, &page(7)).unwrap();
    let path = folder.store();
    let mut store = Store::create(&path).unwrap();
    commit_pages(&mut store, 1, &[4]);
    let before = contents(&store);
    drop(store);
    let store = Store::open_in(earlier.into_engine(), &path, Mode::default()).unwrap();
    assert_eq!(contents(&store), before);
    open(&other, Mode::default());
}

#[test]
fn a_missing_log_is_made_but_not_read_only() {
    let folder = Folder::new();
    let path = folder.store();
    drop(Store::create(&path).unwrap());
    for mode in [Mode::Plain, Mode::ReadWrite] {
        fs::remove_file(wal_path_for(&path)).unwrap();
        let store = open(&path, Mode::ReadOnly);
        assert!(store.log().unwrap().is_none());
        assert!(!wal_path_for(&path).exists());
        drop(store);
        let mut store = open(&path, mode);
        commit_pages(&mut store, 1, &[6]);
        drop(store);
        assert_eq!(open(&path, Mode::ReadOnly).read_page(1).unwrap(), Some(&page(6)));
    }
}

/// Whether an opening that waits so long finds the store locked.
fn is_locked(path: &Path, mode: Mode, wait: Duration) -> bool {
    match OpenOptions::new().mode(mode).wait(wait).open(path) {
        Err(error @ Error::Locked { .. }) => {
            // This process holds the lock.
            assert!(error.to_string().contains(&format!("process {}", std::process::id())), "{error}");
            true
        }
        opened => opened.map(|_| false).unwrap(),
    }
}

#[test]
fn a_store_in_use_is_not_opened() {
    let folder = Folder::new();
    let path = folder.store();
    let store = Store::create(&path).unwrap();
    assert!(is_locked(&path, Mode::ReadWrite, Duration::ZERO));
    assert!(is_locked(&path, Mode::ReadOnly, Duration::ZERO));
    assert!(matches!(Files::overwriting(&path, Duration::ZERO), Err(Error::Locked { .. })));
    drop(store);
    let reader = open(&path, Mode::ReadOnly);
    open(&path, Mode::ReadOnly);
    assert!(is_locked(&path, Mode::Plain, Duration::ZERO));
    drop(reader);
    open(&path, Mode::Plain);
    let none = folder.0.join("none");
    assert!(matches!(Store::open(&none, Mode::Plain), Err(Error::NotFound { file }) if file == none));
}

#[test]
fn a_lock_is_waited_for() {
    let folder = Folder::new();
    let path = folder.store();
    let writer = Store::create(&path).unwrap();
    let began = Instant::now();
    assert!(is_locked(&path, Mode::ReadOnly, Duration::from_millis(60)));
    assert!(began.elapsed() >= Duration::from_millis(60));
    let closes = std::thread::spawn(move || {
        std::thread::sleep(Duration::from_millis(30));
        drop(writer);
    });
    open(&path, Mode::ReadWrite);
    closes.join().unwrap();
}

/// A page of the main file's or the log's, and what an opening says to it.
type Damage = (
    Option<usize>,
    Option<usize>,
    &'static [(usize, u8)],
    &'static [(usize, u8)],
    Refusal,
);

#[test]
fn refused_openings_report_which_and_write_nothing() {
    let folder = Folder::new();
    let path = folder.store();
    let mut store = Store::create(&path).unwrap();
    commit_pages(&mut store, 2, &[1]);
    drop(store);
    let good = bytes_of(&path);
    let table: &[Damage] = &[
        (Some(4194305), None, &[], &[], Refusal::Area),
        (None, Some(4210721), &[], &[], Refusal::Area),
        (Some(4095), None, &[], &[], Refusal::Short),
        (None, Some(31), &[], &[], Refusal::Short),
        (None, None, &[(0, 0)], &[], Refusal::Magic),
        (None, None, &[], &[(0, 0)], Refusal::Magic),
        (None, None, &[(16, 7)], &[], Refusal::Version),
        (None, None, &[], &[(8, 4)], Refusal::Version),
        (None, None, &[(19, 1)], &[], Refusal::PageSize),
        (None, None, &[], &[(13, 1)], Refusal::PageSize),
        (Some(8191), None, &[], &[], Refusal::MainShort),
    ];
    for (main_len, log_len, main_edits, log_edits, why) in table {
        let mut bytes = good.clone();
        for (file, len, edits) in [(0, main_len, main_edits), (1, log_len, log_edits)] {
            let file = bytes[file].as_mut().unwrap();
            file.resize(len.unwrap_or(file.len()), 0);
            edits.iter().for_each(|(at, byte)| file[*at] = *byte);
        }
        put_back(&path, &bytes);
        for mode in [Mode::ReadWrite, Mode::Plain, Mode::ReadOnly] {
            let opened = Store::open(&path, mode);
            let is_log = log_len.is_some() || !log_edits.is_empty();
            let about = if is_log { wal_path_for(&path) } else { path.clone() };
            assert!(
                matches!(&opened, Err(Error::RefusedFile { file, refusal }) if *file == about && refusal == why),
                "{opened:?}"
            );
            assert!(bytes_of(&path) == bytes);
        }
    }
}
