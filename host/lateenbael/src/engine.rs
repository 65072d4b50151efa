//! The proved store with the areas it works in, all in memory. Nothing here touches a file.
use crate::Refusal;
use lateenbael_sys as sys;
use std::fmt;
use sys::{DbHeader, FRAME_SIZE, LOG_AREA, MAIN_AREA, PAGE_SIZE, PAGES, STAGING_AREA};

/// One of the two files.
#[derive(Clone, Copy, Debug, PartialEq, Eq, Hash)]
pub enum Area {
    /// The log.
    Log,
    /// The main file.
    Main,
}

/// A write to a file that the host carries out (document 01's store): `len` bytes from `at` on, or with `len` 0 the new length `at`;
/// then a flush or none.
#[derive(Clone, Copy, Debug, PartialEq, Eq, Hash)]
pub struct Write {
    /// Which file.
    pub area: Area,
    /// The first byte's place, or the new length.
    pub at: usize,
    /// How many bytes.
    pub len: usize,
    /// Whether a flush follows.
    pub flush: bool,
}

impl Write {
    /// A write.
    pub const fn new(area: Area, at: usize, len: usize, flush: bool) -> Write {
        Write { area, at, len, flush }
    }

    /// Whether it sets a length.
    pub fn is_length(self) -> bool {
        self.len == 0
    }
}

/// What a next step did.
#[derive(Clone, Copy, Debug, PartialEq, Eq)]
pub enum Step {
    /// Nothing was part done.
    Idle,
    /// A write, and more are to come.
    Stored(Write),
    /// The last write, and the answer of the commit or checkpoint.
    Last(Write, usize),
}

/// What a commit would answer and leave.
#[derive(Clone, Copy, Debug, PartialEq, Eq, Hash)]
pub struct Preview {
    /// Its answer, the number of pages that differ.
    pub answer: usize,
    /// How many frames the log has then; with a checkpoint 0.
    pub frame_count: usize,
    /// The log file's length then; with a checkpoint that of its header, 32.
    pub log_len: usize,
    /// The main file's length then, which only a checkpoint changes.
    pub main_len: usize,
    /// Whether a checkpoint follows it, with which the log's batches are gone.
    pub checkpointed: bool,
}

/// A recovered batch: its index among the log's frames, and the place of its body.
#[derive(Clone, Copy, Debug, PartialEq, Eq)]
pub struct RecoveredBatch {
    /// Its frame's index.
    pub index: usize,
    /// Where its body begins in the log.
    pub body: usize,
}

/// The store and its four areas.
#[derive(Clone)]
pub struct Engine {
    store: sys::Store,
    /// What a reading is refused with; 0: nothing.
    unreadable: u32,
    /// No page is found from there on; 0 where readings are refused.
    read_end: usize,
    /// Where each page stands.
    pub table: Box<[u32]>,
    /// The log's bytes, and room behind them.
    pub log: Box<[u8]>,
    /// The main file's bytes, and room behind them.
    pub main: Box<[u8]>,
    /// The staged pages.
    pub staging: Box<[u8]>,
}

fn area<T: Clone + Default>(len: usize) -> Box<[T]> {
    vec![T::default(); len].into_boxed_slice()
}

/// A store in which nothing is open: read-only and without pages.
const CLOSED: sys::Store = sys::Store {
    current_header: NO_HEADER,
    wal: sys::Wal {
        header: sys::WalHeader {
            version: 0,
            salt: 0,
            checkpoint_seq: 0,
            clock_high_water: 0,
        },
        len: 0,
        good_end: 0,
        last_commit_offset: 0,
        frame_count: 0,
        committed: 0,
        last_commit_page_count: 0,
    },
    recovered: 0,
    storage: sys::FileStorage { len: 0, header: NO_HEADER },
    staged: sys::Staged {
        count: 0,
        pages: [0; sys::STAGED_PAGES],
    },
    job: sys::Job {
        kind: 0,
        salt: 0,
        page: 0,
        answer: 0,
        header: NO_HEADER,
    },
    opening: NO_LOG,
};

/// Opened read-only.
const READ_ONLY: u32 = 2;
/// Opened read-only, and there was no log.
const NO_LOG: u32 = 3;

const NO_HEADER: DbHeader = DbHeader {
    page_count: 0,
    schema_root_page: 0,
    format_version: 0,
    freelist_head: 0,
};

impl fmt::Debug for Engine {
    fn fmt(&self, f: &mut fmt::Formatter<'_>) -> fmt::Result {
        f.debug_struct("Engine").field("store", &self.store).finish_non_exhaustive()
    }
}

impl Default for Engine {
    fn default() -> Self {
        Self::new()
    }
}

/// A call over the four areas: what it takes before them, and what behind. The areas are lent whole, and no call keeps one.
macro_rules! over_areas {
    ($engine:ident, $address:ident, $call:expr, [$($before:expr),*], [$($behind:expr),*]) => {
        // SAFETY: the areas are lent whole, and no call keeps one. Every call is total, whatever their lengths and the store are.
        unsafe {
            $call(
                $($before,)*
                $engine.table.$address(),
                $engine.table.len(),
                $engine.log.$address(),
                $engine.log.len(),
                $engine.main.$address(),
                $engine.main.len(),
                $engine.staging.$address(),
                $engine.staging.len(),
                $($behind,)*
            )
        }
    };
}

impl Engine {
    /// Areas of zeros, and nothing open.
    ///
    /// # Panics
    ///
    /// If the static library that was linked is of another version than this crate: then no call on it means anything.
    pub fn new() -> Engine {
        assert_eq!(sys::lateenbael_version(), sys::VERSION, "the static library is not this crate's");
        let mut engine = Engine {
            store: CLOSED,
            unreadable: 0,
            read_end: 0,
            table: area(PAGES),
            log: area(LOG_AREA),
            main: area(MAIN_AREA),
            staging: area(STAGING_AREA),
        };
        engine.check_readable();
        engine
    }

    /// The store as the last call gave it.
    pub fn store(&self) -> &sys::Store {
        &self.store
    }

    /// Puts another store over the areas.
    pub fn set_store(&mut self, store: sys::Store) {
        self.store = store;
        self.check_readable();
    }

    /// Checks whether pages may be read, which no reading does anew. A caller that puts an area of another length in the place of
    /// one calls it too.
    pub fn check_readable(&mut self) {
        let store = &self.store;
        let (count, job) = (store.current_header.page_count, store.job.kind);
        let (log_len, main_len) = (store.wal.len, store.storage.len);
        let may_read = sys::lateenbael_may_read;
        self.unreadable = over_areas!(self, as_ptr, may_read, [count, job, log_len, main_len], []);
        self.set_read_end();
    }

    /// Sets from where on no page is found.
    fn set_read_end(&mut self) {
        let store = &self.store;
        self.read_end = match self.unreadable {
            // SAFETY: numbers alone go over.
            0 => unsafe { sys::lateenbael_read_end(store.current_header.page_count, store.staged.count) },
            _ => 0,
        };
    }

    /// Whether the store was opened for writing.
    pub fn is_writable(&self) -> bool {
        self.store.opening < READ_ONLY
    }

    /// Whether there is a log file: a store open read-only may have none.
    pub fn has_log(&self) -> bool {
        self.store.opening < NO_LOG
    }

    /// The log file's bytes.
    pub fn log_file(&self) -> &[u8] {
        &self.log[..self.store.wal.len.min(LOG_AREA)]
    }

    /// The main file's bytes.
    pub fn main_file(&self) -> &[u8] {
        &self.main[..self.store.storage.len.min(MAIN_AREA)]
    }

    /// The store after a call that was not refused. It is copied once, where it is kept.
    fn take(&mut self, answered: &sys::Answered) -> Result<(), Refusal> {
        Refusal::check(answered.refusal)?;
        self.store = answered.store;
        self.check_readable();
        Ok(())
    }

    /// Makes a new store.
    pub fn create(&mut self, salt: u32) -> Result<(), Refusal> {
        let answered = over_areas!(self, as_mut_ptr, sys::lateenbael_create, [], [salt]);
        self.take(&answered)
    }

    /// Puts the files' bytes into the areas (too long: refusal 1). A log that there is not is `None`.
    fn lend(&mut self, main: &[u8], log: Option<&[u8]>) -> Result<(), Refusal> {
        let log = log.unwrap_or(&[]);
        if main.len() > MAIN_AREA || log.len() > LOG_AREA {
            return Err(Refusal::Area);
        }
        self.main[..main.len()].copy_from_slice(main);
        self.log[..log.len()].copy_from_slice(log);
        Ok(())
    }

    /// Plain opening of two files: the clock is the log header's. Where it is refused, nothing is open: the areas may have these bytes
    /// then.
    pub fn open_with_mode(&mut self, main: &[u8], log: Option<&[u8]>, read_only: bool, salt: u32) -> Result<(), Refusal> {
        self.open_files(false, main, log, read_only, salt)
    }

    /// Clean opening of two files: the clock is the larger of the log header's and the greatest time among the recovered batches. Where
    /// it is refused, nothing is open: the areas may have these bytes then.
    pub fn open_clean(&mut self, main: &[u8], log: Option<&[u8]>, read_only: bool, salt: u32) -> Result<(), Refusal> {
        self.open_files(true, main, log, read_only, salt)
    }

    fn open_files(&mut self, clean: bool, main: &[u8], log: Option<&[u8]>, read_only: bool, salt: u32) -> Result<(), Refusal> {
        self.set_store(CLOSED);
        self.lend(main, log)?;
        self.reopen(clean, main.len(), log.map(<[u8]>::len), read_only, salt)
    }

    /// Opening of what lies in the areas already: files of these lengths. Where it is refused, the store is as it was.
    pub fn reopen(&mut self, clean: bool, main_len: usize, log_len: Option<usize>, read_only: bool, salt: u32) -> Result<(), Refusal> {
        let open = if clean {
            sys::lateenbael_open_clean
        } else {
            sys::lateenbael_open_with_mode
        };
        let answered = over_areas!(
            self,
            as_mut_ptr,
            open,
            [],
            [main_len, log_len.unwrap_or(0), read_only.into(), log_len.is_some().into(), salt]
        );
        self.take(&answered)
    }

    /// The header that counts.
    pub fn header(&self) -> Result<DbHeader, Refusal> {
        // SAFETY: numbers alone go over.
        let answer = unsafe { sys::lateenbael_header(self.store) };
        Refusal::check(answer.refusal)?;
        Ok(answer.header)
    }

    /// Whether it was opened for reading only.
    pub fn is_read_only(&self) -> Result<bool, Refusal> {
        // SAFETY: numbers alone go over.
        let answer = unsafe { sys::lateenbael_access_mode(self.store) };
        Refusal::check(answer.refusal)?;
        Ok(answer.number != 0)
    }

    /// The clock.
    pub fn clock_high_water(&self) -> Result<u64, Refusal> {
        // SAFETY: numbers alone go over.
        let answer = unsafe { sys::lateenbael_clock_high_water(self.store) };
        Refusal::check(answer.refusal)?;
        Ok(answer.number)
    }

    /// Raises the clock; a lower value is ignored, and a batch that is appended leaves it.
    pub fn observe_clock_high_water(&mut self, value: u64) -> Result<(), Refusal> {
        // SAFETY: numbers alone go over.
        let answered = unsafe { sys::lateenbael_observe_clock_high_water(self.store, value) };
        self.take(&answered)
    }

    /// A page's own bytes, or none.
    #[inline]
    pub fn read_page(&self, page_num: u32) -> Result<Option<&[u8; PAGE_SIZE]>, Refusal> {
        if page_num as usize >= self.read_end {
            return Refusal::check(self.unreadable).map(|()| None);
        }
        let (count, staged) = (self.store.current_header.page_count, &self.store.staged);
        // SAFETY: numbers and the table go over, which is lent whole and not kept.
        let answer =
            unsafe { sys::lateenbael_place_page(count, page_num, staged.count, &staged.pages, self.table.as_ptr(), self.table.len()) };
        let area = match answer.area {
            // A refusal names no area.
            0 => return Refusal::check(answer.refusal).map(|()| None),
            1 => &self.log,
            2 => &self.main,
            _ => &self.staging,
        };
        Ok(area[answer.at..].first_chunk())
    }

    /// The first batch that the opening recovered, at an index of the log or behind it.
    pub fn recovered(&self, index: usize) -> Result<Option<RecoveredBatch>, Refusal> {
        // SAFETY: the log is lent whole, and not kept.
        let place = unsafe { sys::lateenbael_recovered_mvcc_commits(self.store, self.log.as_ptr(), self.log.len(), index) };
        Refusal::check(place.refusal)?;
        if place.found == 0 {
            return Ok(None);
        }
        Ok(Some(RecoveredBatch {
            index: place.index,
            body: place.offset + (FRAME_SIZE - PAGE_SIZE),
        }))
    }

    /// Stages a page's bytes. The numbers of the staged pages are stored where they lie: the store is not handed over.
    pub fn stage_page(&mut self, page_num: u32, bytes: &[u8]) -> Result<(), Refusal> {
        let staged = &mut self.store.staged;
        // SAFETY: the numbers and both slices are lent whole, and not kept.
        let done = unsafe {
            sys::lateenbael_stage_in(
                self.store.job.kind,
                page_num,
                staged.count,
                &mut staged.pages,
                self.staging.as_mut_ptr(),
                self.staging.len(),
                bytes.as_ptr(),
                bytes.len(),
            )
        };
        Refusal::check(done.refusal)?;
        if staged.count != done.count {
            staged.count = done.count;
            self.set_read_end();
        }
        Ok(())
    }

    /// Drops what is staged.
    pub fn clear_staged(&mut self) -> Result<(), Refusal> {
        // SAFETY: numbers alone go over.
        let answered = unsafe { sys::lateenbael_clear_staged(self.store) };
        self.take(&answered)
    }

    /// Appends a batch: the write of its frame.
    pub fn append_mvcc_batch(&mut self, body: &[u8]) -> Result<Write, Refusal> {
        let at = self.store.wal.len;
        // SAFETY: the log and the body are lent whole, and not kept.
        let answered =
            unsafe { sys::lateenbael_append_mvcc_batch(self.store, self.log.as_mut_ptr(), self.log.len(), body.as_ptr(), body.len()) };
        self.take(&answered)?;
        Ok(Write::new(Area::Log, at, FRAME_SIZE, false))
    }

    /// What a commit with this header would answer and leave now, or be refused with; nothing is altered. Beside refusal 14 stands the
    /// lowest page that is missing.
    pub fn preview_commit(&self, header: DbHeader) -> Result<Preview, (Refusal, usize)> {
        let shown = over_areas!(self, as_ptr, sys::lateenbael_preview_commit, [self.store], [header]);
        Refusal::check(shown.refusal).map_err(|refusal| (refusal, shown.answer))?;
        Ok(Preview {
            answer: shown.answer,
            frame_count: shown.frame_count,
            log_len: shown.log_len,
            main_len: shown.main_len,
            checkpointed: shown.checkpointed != 0,
        })
    }

    /// Begins a commit. Beside refusal 14 stands the lowest page that is missing.
    pub fn begin_commit(&mut self, header: DbHeader, salt: u32) -> Result<(), (Refusal, usize)> {
        let answered = over_areas!(self, as_mut_ptr, sys::lateenbael_begin_commit, [self.store], [header, salt]);
        self.take(&answered).map_err(|refusal| (refusal, answered.answer))
    }

    /// Begins a checkpoint, document 01's fold; false if there is nothing to write, and its answer is 0.
    pub fn begin_checkpoint(&mut self, salt: u32) -> Result<bool, Refusal> {
        let answered = over_areas!(self, as_mut_ptr, sys::lateenbael_begin_checkpoint, [self.store], [salt]);
        self.take(&answered).map(|()| answered.begun != 0)
    }

    /// Does the next write of what is part done in its area. While more are to come, readings are refused (9) as they were before.
    pub fn next_step(&mut self) -> Result<Step, Refusal> {
        let step = over_areas!(self, as_mut_ptr, sys::lateenbael_next_step, [self.store], []);
        Refusal::check(step.refusal)?;
        self.store = step.store;
        let area = if step.area == 1 { Area::Log } else { Area::Main };
        let write = Write::new(area, step.at, step.len, step.flush != 0);
        if step.kind == 1 {
            return Ok(Step::Stored(write));
        }
        self.check_readable();
        Ok(match step.kind {
            0 => Step::Idle,
            _ => Step::Last(write, step.answer),
        })
    }

    /// A commit in one call: the number of differing pages.
    pub fn commit(&mut self, header: DbHeader, salt: u32) -> Result<usize, (Refusal, usize)> {
        let answered = over_areas!(self, as_mut_ptr, sys::lateenbael_commit, [self.store], [header, salt]);
        match self.take(&answered) {
            Ok(()) => Ok(answered.answer),
            Err(refusal) => Err((refusal, answered.answer)),
        }
    }

    /// A checkpoint in one call: the number of pages written.
    pub fn checkpoint(&mut self, salt: u32) -> Result<usize, Refusal> {
        let answered = over_areas!(self, as_mut_ptr, sys::lateenbael_checkpoint, [self.store], [salt]);
        self.take(&answered).map(|()| answered.answer)
    }
}

/// A main header's page, decoded. Refusals 2 to 5.
pub fn decode_header(page: &[u8]) -> Result<DbHeader, Refusal> {
    // SAFETY: a whole slice is lent, which the call reads and does not keep.
    let answer = unsafe { sys::lateenbael_decode_header(page.as_ptr(), page.len()) };
    Refusal::check(answer.refusal)?;
    Ok(answer.header)
}
