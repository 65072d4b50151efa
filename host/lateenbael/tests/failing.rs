//! The disk fails at any of its calls: the store stops, and the files opened anew show the state before or after, never a mix.
mod common;
use common::*;
use lateenbael::{DbHeader, Error, Files, Mode, Store, wal_path_for};
use std::path::Path;
use std::time::Duration;

type Operation = fn(&mut Store<Failing>) -> Result<(), Error>;

fn commit_two_pages(store: &mut Store<Failing>) -> Result<(), Error> {
    let header = store.header()?;
    store.stage_page(1, &page(101))?;
    store.stage_page(6, &page(106))?;
    store.commit(with_count(header, 7)).map(drop)
}

fn append_and_commit(store: &mut Store<Failing>) -> Result<(), Error> {
    store.append_mvcc_batch(batch(77).body())?;
    commit_two_pages(store)
}

fn append_and_checkpoint(store: &mut Store<Failing>) -> Result<(), Error> {
    store.append_mvcc_batch(batch(77).body())?;
    store.checkpoint().map(drop)
}

fn shrink(store: &mut Store<Failing>) -> Result<(), Error> {
    let header = store.header()?;
    store.commit(with_count(header, 3)).map(drop)
}

fn checkpoint(store: &mut Store<Failing>) -> Result<(), Error> {
    store.checkpoint().map(drop)
}

/// A store of 6 pages with a committed batch in a log of at least so many frames.
fn prepared(path: &Path, frames: usize) {
    let mut store = Store::create_over(path).unwrap();
    store.append_mvcc_batch(batch(5).body()).unwrap();
    commit_pages(&mut store, 2, &[2, 3, 4, 5]);
    while store.frame_count().unwrap() < frames {
        let next = store.frame_count().unwrap() as u8;
        commit_pages(&mut store, 3, &[next]);
    }
}

fn stays_stopped(store: &mut Store<Failing>) {
    let header = DbHeader {
        page_count: 2,
        schema_root_page: 1,
        format_version: 4,
        freelist_head: 0,
    };
    assert!(store.is_stopped());
    assert!(matches!(store.header(), Err(Error::Stopped)));
    assert!(matches!(store.read_page(1), Err(Error::Stopped)));
    assert!(matches!(store.stage_page(1, &page(1)), Err(Error::Stopped)));
    assert!(matches!(store.clear_staged(), Err(Error::Stopped)));
    assert!(matches!(store.append_mvcc_batch(batch(1).body()), Err(Error::Stopped)));
    assert!(matches!(store.observe_clock_high_water(9), Err(Error::Stopped)));
    assert!(matches!(store.clock_high_water(), Err(Error::Stopped)));
    assert!(matches!(store.preview(header), Err(Error::Stopped)));
    assert!(matches!(store.commit(header), Err(Error::Stopped)));
    assert!(matches!(store.checkpoint(), Err(Error::Stopped)));
    assert!(store.recovered_mvcc_commits().is_err());
}

/// Header and pages, and the batches' times.
type State = (Contents, Vec<u64>);

/// What a clean opening shows.
fn reopened(path: &Path) -> State {
    let store = open(path, Mode::ReadWrite);
    (contents(&store), times(&store))
}

/// How many bytes a write that fails has stored: stores that adjoin are one write, so it may end in any of them or between two.
const STORED: [usize; 10] = [0, 32, 2056, PAGE, FRAME, FRAME + 1, 2 * PAGE, 2 * FRAME, 3 * PAGE, 3 * FRAME - 1];

/// Lets the work's disk fail at each of its calls in turn: how many there are. `between` tells states, given the last one, that may
/// be met beside the first and the last.
fn fails_everywhere(frames: usize, operation: Operation, between: fn(&State, &State) -> bool) -> usize {
    let folder = Folder::new();
    let path = folder.store();
    prepared(&path, frames);
    let files = bytes_of(&path);
    let before = reopened(&path);
    // Both files flushed; the log's length, and a flush.
    let opening_calls = 4;
    let run = |fails_at: usize, stored: usize| {
        put_back(&path, &files);
        let disk = Failing::new(existing(&path), opening_calls + fails_at, stored);
        let mut store = Store::open_on(disk, Mode::ReadWrite, counting_salts(1000)).unwrap();
        let answer = operation(&mut store);
        (answer, store)
    };
    let (answer, store) = run(usize::MAX - opening_calls, 0);
    answer.unwrap();
    drop(store);
    let after = reopened(&path);
    assert_ne!(before, after);
    for fails_at in 0.. {
        for stored in STORED {
            let (answer, mut store) = run(fails_at, stored);
            if answer.is_ok() {
                return fails_at;
            }
            assert!(matches!(answer, Err(Error::Io { .. })));
            stays_stopped(&mut store);
            let left = bytes_of(&path);
            drop(store);
            assert_eq!(bytes_of(&path), left);
            let found = reopened(&path);
            let known = found == before || found == after || between(&found, &after);
            assert!(known, "call {fails_at} failed, stored: {stored}");
        }
    }
    unreachable!()
}

fn no_other(_: &State, _: &State) -> bool {
    false
}

#[test]
fn in_a_commit() {
    // Two pages and the commit frame, one flush.
    assert_eq!(fails_everywhere(0, commit_two_pages, no_other), 2);
    assert_eq!(fails_everywhere(0, shrink, no_other), 2);
}

#[test]
fn in_an_append_and_its_commit() {
    assert_eq!(fails_everywhere(0, append_and_commit, no_other), 3);
}

/// Committed, and no checkpoint yet: the batches are still there.
fn committed_only(found: &State, after: &State) -> bool {
    found.0 == after.0 && found.1 == [5]
}

#[test]
fn in_a_checkpoint() {
    // Four pages in a row and a flush; header, length and a flush; length, header and a flush.
    assert_eq!(fails_everywhere(0, checkpoint, no_other), 8);
    // The batch's frame, and its file in the first flush.
    assert_eq!(fails_everywhere(0, append_and_checkpoint, no_other), 10);
}

#[test]
fn in_a_commit_with_a_checkpoint() {
    assert_eq!(fails_everywhere(97, commit_two_pages, committed_only), 2 + 8);
}

#[test]
fn in_a_creation() {
    let folder = Folder::new();
    let path = folder.store();
    for fails_at in 0.. {
        let disk = Failing::new(Files::fresh(&path, Duration::ZERO).unwrap(), fails_at, PAGE / 2);
        let answer = Store::create_on(disk, counting_salts(1));
        if answer.is_ok() {
            // Each file made, written and synced; each published.
            assert_eq!(fails_at, 8);
            break;
        }
        assert!(matches!(answer, Err(Error::Io { .. })));
        assert_eq!(std::fs::read_dir(&folder.0).unwrap().count(), 0);
    }
    assert_eq!(open(&path, Mode::ReadWrite).header().unwrap().page_count, 2);
}

#[test]
fn in_a_creation_over_a_store() {
    let folder = Folder::new();
    let path = folder.store();
    prepared(&path, 0);
    let before = bytes_of(&path);
    // Both files made and synced, the log published: until then the old store is whole.
    for fails_at in 0..7 {
        let disk = Failing::new(Files::overwriting(&path, Duration::ZERO).unwrap(), fails_at, PAGE / 2);
        assert!(matches!(Store::create_on(disk, counting_salts(1)), Err(Error::Io { .. })));
        assert_eq!(bytes_of(&path), before);
        assert_eq!(std::fs::read_dir(&folder.0).unwrap().count(), 2);
    }
    let disk = Failing::new(Files::overwriting(&path, Duration::ZERO).unwrap(), 7, 0);
    assert!(Store::create_on(disk, counting_salts(1)).is_err());
    assert_eq!(std::fs::read_dir(&folder.0).unwrap().count(), 0);
    assert_eq!(Store::create(&path).unwrap().header().unwrap().page_count, 2);
}

/// An opening whose disk fails at a call; what a read-only opening finds then.
fn fails_in_opening(path: &Path, fails_at: usize) -> Result<Contents, Error> {
    let disk = Failing::new(existing(path), fails_at, 0);
    let answer = Store::open_on(disk, Mode::ReadWrite, counting_salts(1));
    assert!(matches!(answer, Err(Error::Io { .. })));
    drop(answer);
    Store::open(path, Mode::ReadOnly).map(|store| contents(&store))
}

#[test]
fn in_an_opening() {
    let folder = Folder::new();
    let path = folder.store();
    prepared(&path, 0);
    let before = contents(&open(&path, Mode::ReadOnly));
    for fails_at in 0..4 {
        assert_eq!(fails_in_opening(&path, fails_at).unwrap(), before);
    }
    let disk = Failing::new(existing(&path), 4, 0);
    assert_eq!(contents(&Store::open_on(disk, Mode::ReadWrite, counting_salts(1)).unwrap()), before);
}

#[test]
fn in_an_opening_that_makes_the_log() {
    let folder = Folder::new();
    let path = folder.store();
    prepared(&path, 0);
    open(&path, Mode::ReadWrite).checkpoint().unwrap();
    let before = contents(&open(&path, Mode::ReadOnly));
    // The main file flushed, the log looked for; made, written, synced, published; its length, and a flush.
    for fails_at in 0..8 {
        let _ = std::fs::remove_file(wal_path_for(&path));
        assert_eq!(fails_in_opening(&path, fails_at).unwrap(), before);
        assert_eq!(wal_path_for(&path).exists(), fails_at > 5);
        assert_eq!(std::fs::read_dir(&folder.0).unwrap().count(), 1 + usize::from(fails_at > 5));
    }
}
