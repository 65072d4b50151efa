//! One store, one log, whatever name it is opened by; files that are not what a store may be on; files that change behind its back.
mod common;
use common::*;
use lateenbael::{Error, Mode, Store, wal_path_for};
use std::fs;
use std::os::unix::fs::symlink;

#[test]
fn a_symbolic_link_leads_to_the_same_log() {
    let folder = Folder::new();
    let (path, current) = (folder.store(), folder.0.join("current"));
    seven_pages(&path);
    symlink("grips", &current).unwrap();
    commit_pages(&mut open(&current, Mode::ReadWrite), 3, &[33]);
    commit_pages(&mut open(&path, Mode::ReadWrite), 4, &[44]);
    open(&current, Mode::ReadWrite).checkpoint().unwrap();
    let store = open(&path, Mode::ReadOnly);
    assert!(store.read_page(3).unwrap() == Some(&page(33)) && store.read_page(4).unwrap() == Some(&page(44)));
    drop(store);
    drop(Store::create_over(&current).unwrap());
    assert_eq!(open(&path, Mode::ReadOnly).header().unwrap().page_count, 2);
    assert!(!wal_path_for(&current).exists());
    assert!(fs::symlink_metadata(&current).unwrap().is_symlink());
}

#[test]
fn a_link_that_leads_nowhere_is_no_store_and_no_place_for_one() {
    let folder = Folder::new();
    let current = folder.0.join("current");
    symlink("grips", &current).unwrap();
    assert!(matches!(Store::open(&current, Mode::Plain), Err(Error::NotFound { file }) if file == current));
    assert!(matches!(Store::create(&current), Err(Error::AlreadyExists { file }) if file == current));
    assert!(matches!(Store::open_or_create(&current), Err(Error::NotFound { file }) if file == current));
}

#[test]
fn a_file_with_two_names_is_not_opened() {
    let folder = Folder::new();
    let path = folder.store();
    seven_pages(&path);
    for linked in [path.clone(), wal_path_for(&path)] {
        let second = folder.0.join("second");
        fs::hard_link(&linked, &second).unwrap();
        let before = bytes_of(&path);
        for mode in [Mode::ReadWrite, Mode::Plain, Mode::ReadOnly] {
            let opened = Store::open(&path, mode);
            assert!(matches!(opened, Err(Error::Linked { file, links: 2 }) if file == linked));
        }
        assert_eq!(bytes_of(&path), before);
        fs::remove_file(second).unwrap();
        open(&path, Mode::ReadWrite);
    }
}

#[test]
fn what_is_no_regular_file_is_not_opened() {
    let folder = Folder::new();
    let (path, log) = (folder.store(), wal_path_for(&folder.store()));
    let pipe = |path: &std::path::Path| assert!(std::process::Command::new("mkfifo").arg(path).status().unwrap().success());
    pipe(&path);
    for mode in [Mode::ReadOnly, Mode::ReadWrite] {
        assert!(matches!(Store::open(&path, mode), Err(Error::NotAFile { file }) if file == path));
        assert!(matches!(Store::open(&folder.0, mode), Err(Error::NotAFile { .. })));
    }
    fs::remove_file(&path).unwrap();
    seven_pages(&path);
    fs::rename(&log, folder.0.join("elsewhere")).unwrap();
    symlink("elsewhere", &log).unwrap();
    assert!(matches!(Store::open(&path, Mode::ReadWrite), Err(Error::NotAFile { file }) if file == log));
    fs::remove_file(&log).unwrap();
    pipe(&log);
    assert!(matches!(Store::open(&path, Mode::ReadOnly), Err(Error::NotAFile { file }) if file == log));
}

#[test]
fn a_log_that_was_taken_away_stops_the_store() {
    let folder = Folder::new();
    let path = folder.store();
    let log = wal_path_for(&path);
    let alterations: [fn(&std::path::Path); 3] = [
        |log| fs::remove_file(log).unwrap(),
        |log| {
            fs::write(log.with_extension("other"), [0; 40]).unwrap();
            fs::rename(log.with_extension("other"), log).unwrap();
        },
        |log| fs::write(log, []).unwrap(),
    ];
    for (alter, appends) in alterations.into_iter().flat_map(|alter| [(alter, false), (alter, true)]) {
        seven_pages(&path);
        let mut store = open(&path, Mode::ReadWrite);
        commit_pages(&mut store, 3, &[33]);
        alter(&log);
        let left = bytes_of(&path);
        let header = store.header().unwrap();
        store.stage_page(3, &page(34)).unwrap();
        let call = if appends {
            store.append_mvcc_batch(batch(1).body())
        } else {
            store.commit(header).map(drop)
        };
        assert!(matches!(call, Err(Error::Replaced { file }) if file == log));
        assert!(matches!(store.commit(header), Err(Error::Stopped)));
        assert_eq!(bytes_of(&path), left);
        drop(store);
        let _ = fs::remove_file(&log);
    }
}

#[test]
fn a_main_file_that_was_taken_away_stops_a_commit_that_a_checkpoint_would_follow() {
    let folder = Folder::new();
    let path = folder.store();
    seven_pages(&path);
    let mut store = open(&path, Mode::ReadWrite);
    while store.frames_before_checkpoint().unwrap() > 1 {
        let next = store.frame_count().unwrap() as u8;
        commit_pages(&mut store, 3, &[next]);
    }
    fs::remove_file(&path).unwrap();
    let log = bytes_of(&path);
    store.stage_page(3, &page(200)).unwrap();
    let header = store.header().unwrap();
    assert!(matches!(store.commit(header), Err(Error::Replaced { file }) if file == path));
    assert_eq!(bytes_of(&path), log);
}

/// A checkpoint needs no log any more: all of it is in the areas, and goes to the main file.
#[test]
fn a_checkpoint_saves_what_a_lost_log_had() {
    let folder = Folder::new();
    let path = folder.store();
    seven_pages(&path);
    let mut store = open(&path, Mode::ReadWrite);
    commit_pages(&mut store, 3, &[33]);
    fs::remove_file(wal_path_for(&path)).unwrap();
    store.checkpoint().unwrap();
    let shown = contents(&store);
    drop(store);
    assert!(contents(&open(&path, Mode::ReadWrite)) == shown);
}
