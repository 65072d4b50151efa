//! Every byte reaches the disk in the order of the stores that the engine names, and every flush stands where the engine names one,
//! although stores that adjoin are one write.
mod common;
use common::*;
use lateenbael::sys::STAGED_PAGES;
use lateenbael::{Area, Comparison, Disk, Engine, Step, Store, Write};
use std::io;

/// What a disk is asked for, byte by byte.
#[derive(Clone, Copy, Debug, PartialEq)]
enum Event {
    Byte(Area, usize, u8),
    Length(Area, usize),
    Sync(Area),
}

fn bytes_at(area: Area, at: usize, bytes: &[u8]) -> impl Iterator<Item = Event> {
    (at..).zip(bytes).map(move |(at, byte)| Event::Byte(area, at, *byte))
}

/// A disk that keeps nothing but what it was asked for, and the place and length of every write.
#[derive(Default)]
struct Recording {
    events: Vec<Event>,
    writes: Vec<(Area, usize, usize)>,
}

impl Disk for Recording {
    fn read(&mut self, _: Area, _: &mut [u8]) -> io::Result<Option<usize>> {
        Ok(None)
    }

    fn drop_cached(&mut self, _: Area) -> io::Result<()> {
        Ok(())
    }

    fn compare_with_medium(&mut self, _: Area, _: &[u8]) -> io::Result<Comparison> {
        Ok(Comparison::Unknown)
    }

    fn create(&mut self, area: Area) -> io::Result<()> {
        self.set_len(area, 0)
    }

    fn publish(&mut self, _: Area) -> io::Result<()> {
        Ok(())
    }

    fn write_at(&mut self, area: Area, at: usize, bytes: &[u8]) -> io::Result<()> {
        self.writes.push((area, at, bytes.len()));
        self.events.extend(bytes_at(area, at, bytes));
        Ok(())
    }

    fn set_len(&mut self, area: Area, len: usize) -> io::Result<()> {
        self.events.push(Event::Length(area, len));
        Ok(())
    }

    fn sync(&mut self, area: Area) -> io::Result<()> {
        self.events.push(Event::Sync(area));
        Ok(())
    }
}

/// Every log's, on both sides.
const SALT: u32 = 9;

/// The engine by itself, each store as it names it.
struct Alone {
    engine: Engine,
    unflushed: [bool; 2],
    events: Vec<Event>,
    stores: usize,
}

impl Alone {
    fn created() -> Alone {
        let mut engine = Engine::new();
        engine.create(SALT).unwrap();
        Alone {
            engine,
            unflushed: [false; 2],
            events: Vec::new(),
            stores: 0,
        }
    }

    fn write(&mut self, write: Write) {
        let area = match write.area {
            Area::Log => &self.engine.log,
            Area::Main => &self.engine.main,
        };
        match write.is_length() {
            true => self.events.push(Event::Length(write.area, write.at)),
            false => self.events.extend(bytes_at(write.area, write.at, &area[write.at..][..write.len])),
        }
        self.stores += usize::from(!write.is_length());
        self.unflushed[write.area as usize] = true;
        for area in [Area::Log, Area::Main] {
            if write.flush && std::mem::take(&mut self.unflushed[area as usize]) {
                self.events.push(Event::Sync(area));
            }
        }
    }

    fn run(&mut self) -> usize {
        loop {
            match self.engine.next_step().unwrap() {
                Step::Idle => return 0,
                Step::Stored(write) => self.write(write),
                Step::Last(write, answer) => {
                    self.write(write);
                    return answer;
                }
            }
        }
    }
}

/// The same calls on a store with a recording disk and on the engine by itself.
struct Both {
    store: Store<Recording>,
    alone: Alone,
    seed: u32,
}

impl Both {
    fn created() -> Both {
        let store = Store::create_on(Recording::default(), Box::new(|| SALT)).unwrap();
        let alone = Alone::created();
        let mut both = Both { store, alone, seed: 1 };
        both.forget();
        both
    }

    fn forget(&mut self) {
        *self.store.disk_mut() = Recording::default();
        self.alone.events.clear();
        self.alone.stores = 0;
    }

    fn below(&mut self, end: u32) -> u32 {
        self.seed = self.seed.wrapping_mul(1_664_525).wrapping_add(1_013_904_223);
        (self.seed >> 8) % end
    }

    /// When a call has returned, all of it is on the disk, in order: how many writes and stores that took.
    fn agreed(&mut self) -> (usize, usize) {
        let (disk, alone) = (self.store.disk_mut(), &self.alone);
        assert_eq!(disk.events.len(), alone.events.len());
        assert!(disk.events == alone.events, "other bytes, or in another order");
        let counts = (disk.writes.len(), alone.stores);
        self.forget();
        counts
    }

    fn stage(&mut self, n: u32) {
        let seed = self.below(256) as u8;
        self.store.stage_page(n, &page(seed)).unwrap();
        self.alone.engine.stage_page(n, &page(seed)).unwrap();
    }

    fn append(&mut self) -> (usize, usize) {
        self.store.append_mvcc_batch(batch(3).body()).unwrap();
        let write = self.alone.engine.append_mvcc_batch(batch(3).body()).unwrap();
        self.alone.write(write);
        self.agreed()
    }

    fn commit(&mut self, page_count: u32) -> (usize, usize) {
        let header = with_count(self.store.header().unwrap(), page_count);
        self.alone.engine.begin_commit(header, SALT).unwrap();
        assert_eq!(self.store.commit(header).unwrap(), self.alone.run());
        self.agreed()
    }

    fn checkpoint(&mut self) -> (usize, usize) {
        let begun = self.alone.engine.begin_checkpoint(SALT).unwrap();
        let answer = if begun { self.alone.run() } else { 0 };
        assert_eq!(self.store.checkpoint().unwrap(), answer);
        self.agreed()
    }

    /// A commit at random: pages in a row or scattered, and a count that grows, stays or shrinks.
    fn any_commit(&mut self) -> (usize, usize) {
        let old = self.store.header().unwrap().page_count;
        let new = 1 + self.below(70);
        let half = STAGED_PAGES as u32 / 2;
        let joining = old..new.max(old).min(old + half);
        let count = if new < old { new } else { joining.end };
        joining.for_each(|n| self.stage(n));
        let (first, step) = (1 + self.below(40), 1 + self.below(3));
        let scattered = (0..self.below(half + 1)).map(|k| first + k * step);
        scattered.filter(|n| *n < count).for_each(|n| self.stage(n));
        self.commit(count)
    }
}

#[test]
fn joined_writes_have_the_stores_bytes_in_their_order() {
    let mut both = Both::created();
    let (mut writes, mut stores) = (0, 0);
    for _ in 0..120 {
        let (written, stored) = match both.below(8) {
            0 | 1 => both.append(),
            2 => both.checkpoint(),
            _ => both.any_commit(),
        };
        assert!(written <= stored);
        writes += written;
        stores += stored;
    }
    assert!(writes * 2 < stores, "{writes} writes, {stores} stores");
}

#[test]
fn stores_that_adjoin_are_one_write() {
    let mut both = Both::created();
    (2..20).for_each(|n| both.stage(n));
    assert_eq!(both.commit(20), (1, 19));
    assert_eq!(both.append(), (1, 1));
    assert_eq!(both.checkpoint(), (3, 20));
    for n in [2, 3, 5, 9, 10] {
        both.stage(n);
    }
    let header = both.store.header().unwrap();
    both.store.commit(header).unwrap();
    both.store.checkpoint().unwrap();
    let main = |first: usize, pages: usize| (Area::Main, first * PAGE, pages * PAGE);
    let (frames, log_header) = ((Area::Log, 32, 6 * FRAME), (Area::Log, 0, 32));
    let writes = [frames, main(2, 2), main(5, 1), main(9, 2), main(0, 1), log_header];
    assert_eq!(both.store.disk_mut().writes, writes);
}

#[test]
fn a_new_length_where_the_header_ends_is_set() {
    let mut both = Both::created();
    assert_eq!(both.commit(1), (1, 1));
    // No page lies below the count: the main header and its file's length, then the log's length and header.
    assert_eq!(both.checkpoint(), (2, 2));
}
