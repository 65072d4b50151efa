//! The areas and structs that calls are made with, and what every call is
//! held to: the guards stand, and a refused call leaves all as it was.

use std::ops::Range;

use lateenbael_sys as sys;
use splitmix::Random;
use sys::{Answered, Building, Store, Wal};

use crate::area::{Area, SliceArg};
use crate::closed::{CLOSED, NO_BUILDING, NO_WAL, normalized};
use crate::edges;
use crate::forge;
use crate::tally::Tally;

/// After so many calls, and at the end, the areas are compared whole: a byte
/// altered anywhere stays altered until then.
const COMPARED: usize = 64;

/// An export's name, and what calls it.
pub type Call = (&'static str, fn(&mut World, &'static str));

/// The parts of the areas that a call may write if it is not refused.
#[derive(Default)]
pub struct Writes {
    pub table: bool,
    pub log: Vec<Range<usize>>,
    pub main: Option<Range<usize>>,
    pub staging: bool,
}

pub struct World {
    pub random: Random,
    pub guard: usize,
    pub table: Area<u32>,
    pub log: Area<u8>,
    pub main: Area<u8>,
    pub staging: Area<u8>,
    /// As the last call left it that was not refused.
    pub store: Store,
    pub wal: Wal,
    /// A batch being built.
    pub body: Area<u8>,
    pub building: Building,
    /// Where records, columns and values of it begin.
    pub begins: [usize; 16],
    /// Where record, column and value of the last body begin, if it is a row.
    pub row: Option<[usize; 3]>,
    pub tally: Tally,
}

impl World {
    pub fn new(seed: u64, guard: usize) -> Self {
        Self {
            random: Random::new(seed),
            guard,
            table: Area::new(sys::PAGES, guard),
            log: Area::new(sys::LOG_AREA, guard),
            main: Area::new(sys::MAIN_AREA, guard),
            staging: Area::new(sys::STAGING_AREA, guard),
            store: CLOSED,
            wal: NO_WAL,
            body: Area::new(sys::PAGE_SIZE, guard),
            building: NO_BUILDING,
            begins: [18; 16],
            row: None,
            tally: Tally::default(),
        }
    }

    /// The store or a forged one, and whether it is forged. The table is part
    /// of it.
    pub fn any_store(&mut self) -> (Store, bool) {
        if self.random.percent(3) {
            let pages = self.random.pick(&[4, 40, sys::PAGES]);
            let at = self.random.below(pages);
            let entry = edges::number(&mut self.random) as u32;
            self.table.put(at, &[entry]);
        }
        let mut store = self.store;
        for _ in 0..forge::alterations(&mut self.random) {
            forge::alter_store(&mut self.random, &mut store);
        }
        (store, store != self.store)
    }

    /// An open log or a forged one.
    pub fn any_wal(&mut self) -> Wal {
        let mut wal = if self.random.percent(50) {
            self.wal
        } else {
            self.store.wal
        };
        for _ in 0..forge::alterations(&mut self.random) {
            forge::alter_wal(&mut self.random, &mut wal);
        }
        wal
    }

    /// A slice of its own with these bytes.
    pub fn slice(&self, bytes: &[u8]) -> Area<u8> {
        let mut area = Area::new(bytes.len(), self.guard);
        area.put(0, bytes);
        area
    }

    /// Before a call: what it may write is as it must be.
    pub fn begin(&mut self, export: &str, writes: &Writes) {
        if !self.parts_hold(writes) {
            self.tally.fault(export, "an earlier call altered an area");
            self.adopt(writes);
        }
    }

    /// After a call: its answer is counted, the guards are looked at, and what
    /// it may have written is compared or taken over.
    pub fn end(&mut self, export: &'static str, refusal: u32, right: bool, writes: &Writes) {
        self.tally.count(export, refusal);
        if !right && refusal != 1 {
            self.tally
                .fault(export, "a wrong length was not refused with 1");
        }
        if !self.guards_intact() {
            self.tally.fault(export, "a byte outside was altered");
            std::process::exit(1);
        }
        if refusal == 0 {
            self.adopt(writes);
        } else if !self.parts_hold(writes) {
            self.tally.fault(export, "a refused call altered an area");
            self.adopt(writes);
        }
        if self.tally.calls.is_multiple_of(COMPARED) {
            self.compare(export);
        }
    }

    /// The areas as a whole.
    pub fn compare(&mut self, export: &str) {
        let everything = Writes {
            table: true,
            log: vec![self.log.all()],
            main: Some(self.main.all()),
            staging: true,
        };
        if !self.parts_hold(&everything) {
            self.tally
                .fault(export, "this or an earlier call altered an area");
            self.adopt(&everything);
        }
    }

    fn guards_intact(&self) -> bool {
        let bytes = [&self.log, &self.main, &self.staging, &self.body];
        self.table.guards_intact() && bytes.iter().all(|area| area.guards_intact())
    }

    fn parts_hold(&self, writes: &Writes) -> bool {
        self.table.holds(&self.table.all())
            && writes.log.iter().all(|part| self.log.holds(part))
            && writes.main.iter().all(|part| self.main.holds(part))
            && (!writes.staging || self.staging.holds(&self.staging.all()))
    }

    fn adopt(&mut self, writes: &Writes) {
        if writes.table {
            self.table.adopt(&self.table.all());
        }
        for part in &writes.log {
            self.log.adopt(part);
        }
        if let Some(part) = &writes.main {
            self.main.adopt(part);
        }
        if writes.staging {
            self.staging.adopt(&self.staging.all());
        }
    }

    /// Takes over the store of an answer; beside a refusal it is the one given.
    pub fn take(&mut self, export: &str, given: (Store, bool), answered: &Answered) {
        let (store, forged) = given;
        if answered.refusal != 0 {
            if answered.store != normalized(store) {
                self.tally.fault(export, "refused with another store");
            }
        } else if !forged || self.random.percent(30) {
            self.store = answered.store;
        }
    }

    /// The same of a creation or opening.
    pub fn take_opened(&mut self, export: &str, answered: &Answered) {
        if answered.refusal == 0 {
            self.store = answered.store;
        } else if answered.store != CLOSED {
            self.tally
                .fault(export, "refused with another store than the closed one");
        }
    }

    /// The same of a commit or checkpoint in one call: it ends, whatever the
    /// store, with nothing part done.
    pub fn take_ended(&mut self, export: &str, given: (Store, bool), answered: &Answered) {
        if answered.refusal == 0 && answered.store.job.kind != 0 {
            self.tally.fault(export, "answered while part done");
        }
        self.take(export, given, answered);
    }

    /// What a call may only read, or was refused, is as it was.
    pub fn unaltered(&mut self, export: &str, slice: &Area<u8>) {
        if !slice.guards_intact() || !slice.holds(&slice.all()) {
            self.tally
                .fault(export, "a slice or what is around it was altered");
        }
    }

    /// A place that an answer tells must be inside its area.
    pub fn inside(&mut self, export: &str, at: usize, len: usize, size: usize) {
        if is_outside(at, len, size) {
            let what = format!("place {at}, {len} outside {size}");
            self.tally.fault(export, &what);
        }
    }
}

fn is_outside(at: usize, len: usize, size: usize) -> bool {
    at.checked_add(len).is_none_or(|end| end > size)
}

/// All four areas, each with a length.
pub type Four = (
    SliceArg<*mut u32>,
    SliceArg<*mut u8>,
    SliceArg<*mut u8>,
    SliceArg<*mut u8>,
);

impl World {
    pub fn lend(&mut self) -> (Four, bool) {
        let table = self.table.lend(&mut self.random);
        let log = self.log.lend(&mut self.random);
        let main = self.main.lend(&mut self.random);
        let staging = self.staging.lend(&mut self.random);
        let right = table.right && log.right && main.right && staging.right;
        ((table, log, main, staging), right)
    }
}
