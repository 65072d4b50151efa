//! A disk behind a cache that, as systems do, forgets what was to be written once a flush has failed: the cache shows it, a later flush
//! finds nothing to do, and after a power cut it is gone. What is written again into such a block does not reach the medium either, until
//! the cache has let go of it. What a store shows and acknowledges after such a failure must outlast the cut.
mod common;
use common::*;
use lateenbael::{Area, Comparison, Disk, Error, Mode, Store};
use std::collections::BTreeSet;
use std::io;
use std::sync::{Arc, Mutex};

const BLOCK: usize = 4096;
const ALL: u32 = u32::MAX;

#[derive(Clone, Default)]
struct CachedFile {
    cache: Vec<u8>,
    medium: Vec<u8>,
    dirty: BTreeSet<usize>,
    /// Blocks that a failed flush has forgotten.
    stale: BTreeSet<usize>,
    /// The least length that it was cut to since its last flush.
    cut: Option<usize>,
}

impl CachedFile {
    fn resize(&mut self, len: usize) {
        if len < self.cache.len() {
            self.cut = Some(self.cut.map_or(len, |cut| cut.min(len)));
        }
        self.cache.resize(len, 0);
    }

    fn write(&mut self, at: usize, bytes: &[u8]) {
        self.resize(self.cache.len().max(at + bytes.len()));
        self.cache[at..][..bytes.len()].copy_from_slice(bytes);
        self.dirty.extend(at / BLOCK..=(at + bytes.len() - 1) / BLOCK);
    }

    /// Takes a new length that is shorter to the medium, and those dirty blocks that the bits of a number name; forgets the others.
    fn write_back(&mut self, which: u32) {
        if let Some(cut) = self.cut.take() {
            self.medium.truncate(cut);
        }
        let len = self.cache.len();
        for (n, block) in std::mem::take(&mut self.dirty).into_iter().enumerate() {
            let range = block * BLOCK..len.min((block + 1) * BLOCK);
            if which >> (n % 32) & 1 == 0 {
                self.stale.insert(block);
            } else if !self.stale.contains(&block) && !range.is_empty() {
                self.medium.resize(self.medium.len().max(range.end), 0);
                self.medium[range.clone()].copy_from_slice(&self.cache[range]);
            }
        }
    }

    /// A new length that is longer is no block: it gets to the medium with a flush that works, as a journal sees to it.
    fn flush(&mut self) {
        self.write_back(ALL);
        self.medium.resize(self.cache.len(), 0);
    }

    fn power_cut(&mut self) {
        *self = CachedFile {
            cache: self.medium.clone(),
            medium: self.medium.clone(),
            ..CachedFile::default()
        };
    }

    /// Lets go of the blocks that are not dirty: they show the medium again.
    fn drop_cached(&mut self) {
        let len = self.cache.len();
        for block in (0..len.div_ceil(BLOCK)).filter(|block| !self.dirty.contains(block)) {
            for at in block * BLOCK..len.min((block + 1) * BLOCK) {
                self.cache[at] = self.medium.get(at).copied().unwrap_or(0);
            }
        }
        self.stale.clear();
    }
}

/// What happens in a flush that does not work.
#[derive(Clone, Copy)]
enum Failure {
    /// Some of the dirty blocks get to the medium, and the others are forgotten.
    Forgets(u32),
    /// The program is killed before it; the blocks stay dirty.
    Killed,
}

#[derive(Clone, Default)]
struct Machine {
    files: [Option<CachedFile>; 2],
    /// How many flushes work before one does not.
    fails: Option<(usize, Failure)>,
    /// Whether the cache lets go of nothing.
    is_mapped: bool,
}

impl Machine {
    fn next_flush(&mut self) -> Option<Failure> {
        match self.fails {
            Some((0, failure)) => {
                self.fails = None;
                Some(failure)
            }
            fails => {
                self.fails = fails.map(|(left, failure)| (left - 1, failure));
                None
            }
        }
    }
}

/// The disk of a machine; others open the same files later.
#[derive(Clone, Default)]
struct Forgetting(Arc<Mutex<Machine>>);

impl Forgetting {
    /// The same files on a machine of their own.
    fn copied(&self) -> Forgetting {
        Forgetting(Arc::new(Mutex::new(self.0.lock().unwrap().clone())))
    }

    fn fail_after(&self, flushes: usize, failure: Failure) {
        self.0.lock().unwrap().fails = Some((flushes, failure));
    }

    fn power_cut(&self) {
        for area in [Area::Main, Area::Log] {
            self.with(area, CachedFile::power_cut).unwrap();
        }
    }

    fn with<T>(&self, area: Area, work: impl FnOnce(&mut CachedFile) -> T) -> io::Result<T> {
        let file = &mut self.0.lock().unwrap().files[area as usize];
        file.as_mut().map(work).ok_or(io::ErrorKind::NotFound.into())
    }

    fn open(&self, mode: Mode) -> Store<Forgetting> {
        // Each log has a salt of its own.
        let salts = counting_salts(self.with(Area::Log, |log| log.cache.len() as u32 * 1000).unwrap());
        Store::open_on(self.clone(), mode, salts).unwrap()
    }
}

impl Disk for Forgetting {
    fn read(&mut self, area: Area, buffer: &mut [u8]) -> io::Result<Option<usize>> {
        let read = |file: &mut CachedFile| {
            buffer[..file.cache.len()].copy_from_slice(&file.cache);
            file.cache.len()
        };
        Ok(self.with(area, read).ok())
    }

    fn drop_cached(&mut self, area: Area) -> io::Result<()> {
        let is_mapped = self.0.lock().unwrap().is_mapped;
        self.with(area, |file| {
            if !is_mapped {
                file.drop_cached()
            }
        })
    }

    fn compare_with_medium(&mut self, area: Area, bytes: &[u8]) -> io::Result<Comparison> {
        self.with(area, |file| {
            let medium = file.medium.iter().chain(std::iter::repeat(&0));
            match bytes.iter().zip(medium).all(|(byte, there)| byte == there) {
                true => Comparison::Same,
                false => Comparison::Different,
            }
        })
    }

    fn create(&mut self, area: Area) -> io::Result<()> {
        self.0.lock().unwrap().files[area as usize] = Some(CachedFile::default());
        Ok(())
    }

    fn publish(&mut self, _: Area) -> io::Result<()> {
        Ok(())
    }

    fn write_at(&mut self, area: Area, at: usize, bytes: &[u8]) -> io::Result<()> {
        self.with(area, |file| file.write(at, bytes))
    }

    fn set_len(&mut self, area: Area, len: usize) -> io::Result<()> {
        self.with(area, |file| file.resize(len))
    }

    fn sync(&mut self, area: Area) -> io::Result<()> {
        let failure = self.0.lock().unwrap().next_flush();
        match failure {
            None => return self.with(area, CachedFile::flush),
            Some(Failure::Forgets(which)) => self.with(area, |file| file.write_back(which))?,
            Some(Failure::Killed) => {}
        }
        Err(io::Error::other("made to fail"))
    }
}

/// A store of 7 pages whose log has at least so many frames, all of it on the medium.
fn prepared(frames: usize) -> Forgetting {
    let disk = Forgetting::default();
    let mut store = Store::create_on(disk.clone(), counting_salts(1)).unwrap();
    commit_pages(&mut store, 2, &[2, 3, 4, 5, 6]);
    store.checkpoint().unwrap();
    commit_pages(&mut store, 1, &[1]);
    while store.frame_count().unwrap() < frames {
        let next = store.frame_count().unwrap() as u8;
        commit_pages(&mut store, 2, &[next]);
    }
    disk
}

type Operation = fn(&mut Store<Forgetting>) -> Result<(), Error>;

/// Pages 1 and 6, and a new page 7.
fn commit(store: &mut Store<Forgetting>) -> Result<(), Error> {
    for n in [1, 6, 7] {
        store.stage_page(n, &page(100 + n as u8))?;
    }
    let header = store.header()?;
    store.commit(with_count(header, 8)).map(drop)
}

fn checkpoint(store: &mut Store<Forgetting>) -> Result<(), Error> {
    store.checkpoint().map(drop)
}

/// What a clean opening after a power cut shows.
fn after_a_power_cut(disk: &Forgetting) -> Contents {
    disk.power_cut();
    contents(&disk.open(Mode::ReadWrite))
}

/// What an opening shows outlasts a power cut.
fn shows_what_lasts(disk: &Forgetting, mode: Mode, known: &[Contents; 2]) {
    let shown = contents(&disk.open(mode));
    assert!(known.contains(&shown));
    assert!(after_a_power_cut(disk) == shown);
}

/// A flush of the operation failed, and what it wrote in part stands in the cache. The machine goes on: the operation is done again, or
/// another commit is.
fn goes_on(disk: &Forgetting, operation: Operation, known: &[Contents; 2]) {
    let again = disk.copied();
    operation(&mut again.open(Mode::ReadWrite)).unwrap();
    assert!(after_a_power_cut(&again) == known[1]);

    let mut store = disk.open(Mode::ReadWrite);
    commit_pages(&mut store, 3, &[99]);
    let acknowledged = contents(&store);
    drop(store);
    assert!(after_a_power_cut(disk) == acknowledged);
}

/// Lets each flush of the operation fail in turn, with some blocks on the medium or none: how many flushes there are.
fn fails_in_every_flush(before: &Forgetting, operation: Operation) -> usize {
    let after = before.copied();
    operation(&mut after.open(Mode::ReadWrite)).unwrap();
    let known = [before, &after].map(|disk| contents(&disk.copied().open(Mode::ReadWrite)));
    for flushes in 0.. {
        for which in [0, 1, 2, 0b101, 0b1011, !1, ALL] {
            let disk = before.copied();
            let mut store = disk.open(Mode::ReadWrite);
            disk.fail_after(flushes, Failure::Forgets(which));
            if operation(&mut store).is_ok() {
                return flushes;
            }
            drop(store);
            shows_what_lasts(&disk.copied(), Mode::ReadWrite, &known);
            shows_what_lasts(&disk.copied(), Mode::Plain, &known);
            goes_on(&disk, operation, &known);
        }
    }
    unreachable!()
}

#[test]
fn what_a_failed_flush_left_in_the_cache_is_not_built_on() {
    assert_eq!(fails_in_every_flush(&prepared(0), commit), 1);
    assert_eq!(fails_in_every_flush(&prepared(0), checkpoint), 3);
    assert_eq!(fails_in_every_flush(&prepared(97), commit), 4);
}

#[test]
fn what_the_cache_does_not_let_go_of_is_not_opened_for_writing() {
    let disk = prepared(0);
    let before = contents(&disk.copied().open(Mode::ReadWrite));
    let mut store = disk.open(Mode::ReadWrite);
    disk.fail_after(0, Failure::Forgets(0));
    commit(&mut store).unwrap_err();
    drop(store);
    disk.0.lock().unwrap().is_mapped = true;
    for mode in [Mode::ReadWrite, Mode::Plain] {
        let opened = Store::open_on(disk.clone(), mode, counting_salts(1));
        assert!(matches!(opened, Err(Error::Io { file, .. }) if file.ends_with("the log")));
    }
    disk.0.lock().unwrap().is_mapped = false;
    assert!(contents(&disk.open(Mode::ReadWrite)) == before);
}

#[test]
fn a_plain_opening_folds_only_what_is_on_the_medium() {
    let disk = prepared(0);
    let before = contents(&disk.copied().open(Mode::ReadWrite));
    let mut store = disk.open(Mode::ReadWrite);
    disk.fail_after(0, Failure::Killed);
    commit(&mut store).unwrap_err();
    drop(store);
    let mut store = disk.open(Mode::Plain);
    let shown = contents(&store);
    assert!(shown != before);
    // The fold's pages reach the medium, and of the log nothing more does.
    disk.fail_after(0, Failure::Killed);
    store.checkpoint().unwrap_err();
    drop(store);
    disk.with(Area::Main, |main| main.write_back(ALL)).unwrap();
    assert!(after_a_power_cut(&disk) == shown);
}
