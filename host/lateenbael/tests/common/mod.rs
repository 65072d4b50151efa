//! What the tests share: a folder that goes away, pages, a store's state, and a disk that fails.
#![allow(dead_code)]
use lateenbael::sys::PAGES;
use lateenbael::{Area, BatchBuilder, Comparison, DbHeader, Disk, Error, Files, Mode, Refusal, Salts, Store, Value, wal_path_for};
use std::fs;
use std::io;
use std::path::{Path, PathBuf};
use std::sync::atomic::{AtomicU32, Ordering};
use std::time::Duration;

pub const PAGE: usize = 4096;
pub const FRAME: usize = 4112;

/// A folder of its own for a test.
pub struct Folder(pub PathBuf);

impl Folder {
    pub fn new() -> Folder {
        static MADE: AtomicU32 = AtomicU32::new(0);
        let name = format!("lateenbael-{}-{}", std::process::id(), MADE.fetch_add(1, Ordering::Relaxed));
        let path = std::env::temp_dir().join(name);
        fs::create_dir(&path).unwrap();
        Folder(path)
    }

    pub fn store(&self) -> PathBuf {
        self.0.join("grips")
    }
}

impl Drop for Folder {
    fn drop(&mut self) {
        let _ = fs::remove_dir_all(&self.0);
    }
}

/// Both files as they lie; none where there is no such file.
pub fn bytes_of(store: &Path) -> [Option<Vec<u8>>; 2] {
    [fs::read(store).ok(), fs::read(wal_path_for(store)).ok()]
}

pub fn put_back(store: &Path, bytes: &[Option<Vec<u8>>; 2]) {
    for (path, bytes) in [(store.to_path_buf(), &bytes[0]), (wal_path_for(store), &bytes[1])] {
        match bytes {
            Some(bytes) => fs::write(path, bytes).unwrap(),
            None => drop(fs::remove_file(path)),
        }
    }
}

/// A page that tells its seed.
pub fn page(seed: u8) -> [u8; PAGE] {
    std::array::from_fn(|i| seed.wrapping_add((i % 251) as u8))
}

pub fn counting_salts(first: u32) -> Salts {
    let mut next = first;
    Box::new(move || {
        next += 1;
        next
    })
}

pub fn batch(time: u64) -> BatchBuilder {
    let mut batch = BatchBuilder::new(time);
    batch.begin_present("grips", time as i64).unwrap();
    batch.add_column("force", Value::Integer(412)).unwrap();
    batch
}

pub fn with_count(mut header: DbHeader, page_count: u32) -> DbHeader {
    header.page_count = page_count;
    header
}

/// Stages pages from a number on and commits them, with the count behind the last.
pub fn commit_pages<D: Disk>(store: &mut Store<D>, first: u32, seeds: &[u8]) -> usize {
    for (n, seed) in (first..).zip(seeds) {
        store.stage_page(n, &page(*seed)).unwrap();
    }
    let header = store.header().unwrap();
    let count = header.page_count.max(first + seeds.len() as u32);
    store.commit(with_count(header, count)).unwrap()
}

/// A store of 7 pages, its log empty after a checkpoint.
pub fn seven_pages(path: &Path) {
    let mut store = Store::create_over(path).unwrap();
    commit_pages(&mut store, 2, &[2, 3, 4, 5, 6]);
    store.checkpoint().unwrap();
}

pub fn refusal<T>(answer: Result<T, Error>) -> Option<Refusal> {
    answer.err().and_then(|error| error.refusal())
}

/// What a store shows: its header and its pages from 1 on.
#[derive(Debug, PartialEq)]
pub struct Contents {
    pub header: DbHeader,
    pub pages: Vec<(u32, Vec<u8>)>,
}

pub fn contents<D: Disk>(store: &Store<D>) -> Contents {
    let read = |n| store.read_page(n).unwrap().map(|bytes| (n, bytes.to_vec()));
    Contents {
        header: store.header().unwrap(),
        pages: (1..PAGES as u32).filter_map(read).collect(),
    }
}

/// The commit times of the recovered batches.
pub fn times<D: Disk>(store: &Store<D>) -> Vec<u64> {
    store.recovered_mvcc_commits().unwrap().map(|batch| batch.commit_ts()).collect()
}

pub fn open(path: &Path, mode: Mode) -> Store {
    Store::open(path, mode).unwrap()
}

/// A store's files, for writing.
pub fn existing(path: &Path) -> Files {
    Files::existing(path, false, Duration::ZERO).unwrap()
}

/// A disk whose call of a given number fails, and all behind it. If that one is a write of more than `stored` bytes, it has stored
/// so many of them.
pub struct Failing {
    pub files: Files,
    pub calls: usize,
    pub fails_at: usize,
    pub stored: usize,
}

impl Failing {
    pub fn new(files: Files, fails_at: usize, stored: usize) -> Failing {
        let calls = 0;
        Failing {
            files,
            calls,
            fails_at,
            stored,
        }
    }

    /// Whether this call is done at all.
    fn works(&mut self) -> bool {
        self.calls += 1;
        self.calls <= self.fails_at
    }
}

fn failed() -> io::Result<()> {
    Err(io::Error::other("made to fail"))
}

impl Disk for Failing {
    fn read(&mut self, area: Area, buffer: &mut [u8]) -> io::Result<Option<usize>> {
        self.files.read(area, buffer)
    }

    fn drop_cached(&mut self, area: Area) -> io::Result<()> {
        self.files.drop_cached(area)
    }

    fn compare_with_medium(&mut self, area: Area, bytes: &[u8]) -> io::Result<Comparison> {
        self.files.compare_with_medium(area, bytes)
    }

    fn publish(&mut self, area: Area) -> io::Result<()> {
        if self.works() { self.files.publish(area) } else { failed() }
    }

    fn create(&mut self, area: Area) -> io::Result<()> {
        if self.works() { self.files.create(area) } else { failed() }
    }

    fn write_at(&mut self, area: Area, at: usize, bytes: &[u8]) -> io::Result<()> {
        if self.works() {
            return self.files.write_at(area, at, bytes);
        }
        if self.calls == self.fails_at + 1 && bytes.len() > self.stored {
            self.files.write_at(area, at, &bytes[..self.stored])?;
        }
        failed()
    }

    fn set_len(&mut self, area: Area, len: usize) -> io::Result<()> {
        if self.works() { self.files.set_len(area, len) } else { failed() }
    }

    fn sync(&mut self, area: Area) -> io::Result<()> {
        if self.works() { self.files.sync(area) } else { failed() }
    }
}
