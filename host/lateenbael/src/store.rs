//! The store on two real files: the proved engine, and every write that it names done on the disk in order, those that adjoin
//! as one.
use crate::creation::{make_file, make_files, publish};
use crate::disk::{failed, sync};
use crate::engine::decode_header;
use crate::settle::{read_cached, read_settled};
use crate::{
    Area, Batch, DEFAULT_WAIT, Disk, Engine, Error, Files, Log, Mode, OpenOptions, Preview, Refusal, Salts, Step, Write, salts_of_the_clock,
};
use lateenbael_sys as sys;
use std::fmt;
use std::path::Path;
use sys::{CHECKPOINT_FRAMES, DbHeader, PAGE_SIZE, WalHeader};

/// An open store. After the disk has failed once, or a call that writes has found a file replaced, every call answers [`Error::Stopped`].
pub struct Store<D: Disk = Files> {
    engine: Engine,
    disk: D,
    salts: Salts,
    /// Which files, the log and the main one, have writes that no flush has followed yet.
    unflushed: [bool; 2],
    stopped: bool,
}

impl Store<Files> {
    /// A new store in two new files; files that are there already are left alone. A creation that is cut has left no store, and can be
    /// done again.
    pub fn create(path: impl AsRef<Path>) -> Result<Store, Error> {
        Store::create_on(Files::fresh(path.as_ref(), DEFAULT_WAIT)?, salts_of_the_clock())
    }

    /// A new store in place of whatever the two files hold, which is lost once the new ones are whole.
    pub fn create_over(path: impl AsRef<Path>) -> Result<Store, Error> {
        Store::create_on(Files::overwriting(path.as_ref(), DEFAULT_WAIT)?, salts_of_the_clock())
    }

    /// Opens a store; [`OpenOptions`] can say more.
    pub fn open(path: impl AsRef<Path>, mode: Mode) -> Result<Store, Error> {
        OpenOptions::new().mode(mode).open(path)
    }

    /// Opens a store for reading and writing, and makes it first if it isn't there: for a controller that nobody attends to.
    pub fn open_or_create(path: impl AsRef<Path>) -> Result<Store, Error> {
        OpenOptions::new().create(true).open(path)
    }

    /// Opens a store in the areas of an earlier one, as [`OpenOptions::open_in`] does.
    pub fn open_in(engine: Engine, path: impl AsRef<Path>, mode: Mode) -> Result<Store, Error> {
        OpenOptions::new().mode(mode).open_in(engine, path)
    }
}

impl<D: Disk> fmt::Debug for Store<D> {
    fn fmt(&self, f: &mut fmt::Formatter<'_>) -> fmt::Result {
        f.debug_struct("Store")
            .field("file", &self.disk.name(Area::Main))
            .field("engine", &self.engine)
            .field("stopped", &self.stopped)
            .finish_non_exhaustive()
    }
}

impl<D: Disk> Store<D> {
    fn with_engine(engine: Engine, disk: D, salts: Salts) -> Store<D> {
        Store {
            engine,
            disk,
            salts,
            unflushed: [false; 2],
            stopped: false,
        }
    }

    /// A new store on a disk.
    pub fn create_on(disk: D, mut salts: Salts) -> Result<Store<D>, Error> {
        let mut engine = Engine::new();
        engine.create(salts())?;
        Store::made_on(engine, disk, salts)
    }

    /// The store that an engine has open, in new files on a disk.
    pub(crate) fn made_on(engine: Engine, disk: D, salts: Salts) -> Result<Store<D>, Error> {
        let mut store = Store::with_engine(engine, disk, salts);
        make_files(&mut store.disk, store.engine.main_file(), store.engine.log_file())?;
        Ok(store)
    }

    /// Opens what lies on a disk. A log that is missing is made, but not read-only; a clean opening stores the log's length.
    pub fn open_on(disk: D, mode: Mode, salts: Salts) -> Result<Store<D>, Error> {
        Store::open_on_in(Engine::new(), disk, mode, salts)
    }

    pub(crate) fn open_on_in(engine: Engine, disk: D, mode: Mode, salts: Salts) -> Result<Store<D>, Error> {
        let mut store = Store::with_engine(engine, disk, salts);
        let read = match mode {
            Mode::ReadOnly => read_cached,
            Mode::ReadWrite | Mode::Plain => read_settled,
        };
        let main = read(&mut store.disk, Area::Main, &mut store.engine.main)?;
        let main = main.ok_or_else(|| Error::NotFound {
            file: store.disk.name(Area::Main),
        })?;
        let log = read(&mut store.disk, Area::Log, &mut store.engine.log)?;
        let salt = (store.salts)();
        let opened = store
            .engine
            .reopen(mode == Mode::ReadWrite, main, log, mode == Mode::ReadOnly, salt);
        opened.map_err(|refusal| store.refused_opening(refusal, main, log))?;
        if mode != Mode::ReadOnly {
            store.disk.remove_left();
        }
        if mode != Mode::ReadOnly && log.is_none() {
            make_file(&mut store.disk, Area::Log, store.engine.log_file())?;
            publish(&mut store.disk, Area::Log)?;
        }
        if mode == Mode::ReadWrite {
            store.write_out(Write::new(Area::Log, store.engine.store().wal.len, 0, true))?;
        }
        Ok(store)
    }

    /// An opening's refusal, with the file that it is about.
    fn refused_opening(&self, refusal: Refusal, main: usize, log: Option<usize>) -> Error {
        let area = match refusal {
            Refusal::Area if main > self.engine.main.len() => Area::Main,
            Refusal::Area | Refusal::PageZero => Area::Log,
            Refusal::MainShort => Area::Main,
            Refusal::Limit => match log.and_then(|len| Log::open(self.engine.log.get(..len)?).ok()) {
                Some(log) if log.last_commit_page_count().is_some() => Area::Log,
                _ => Area::Main,
            },
            Refusal::Short | Refusal::Magic | Refusal::Version | Refusal::PageSize => {
                match self.engine.main.get(..main.min(PAGE_SIZE)).map(decode_header) {
                    Some(Err(_)) => Area::Main,
                    _ => Area::Log,
                }
            }
            other => return Error::Refused(other),
        };
        let file = self.disk.name(area);
        Error::RefusedFile { file, refusal }
    }

    /// Closes the store, and gives its areas for another opening.
    pub fn into_engine(self) -> Engine {
        self.engine
    }

    /// Stops the store for good where something failed behind which it may not go on.
    fn or_stop<T, E>(&mut self, done: Result<T, E>) -> Result<T, E> {
        self.stopped |= done.is_err();
        done
    }

    /// Does a write of the engine's on the disk.
    fn write_out(&mut self, write: Write) -> Result<(), Error> {
        let done = self.write_to_disk(write);
        self.or_stop(done)
    }

    fn write_to_disk(&mut self, write: Write) -> Result<(), Error> {
        let bytes = match write.area {
            Area::Log => &self.engine.log,
            Area::Main => &self.engine.main,
        };
        self.unflushed[write.area as usize] = true;
        let written = match write.is_length() {
            true => self.disk.set_len(write.area, write.at),
            false => self.disk.write_at(write.area, write.at, &bytes[write.at..][..write.len]),
        };
        written.map_err(|source| failed(&self.disk, write.area, source))?;
        match write.flush {
            true => self.flush(),
            false => Ok(()),
        }
    }

    /// Everything written so far goes to the disk.
    fn flush(&mut self) -> Result<(), Error> {
        for area in [Area::Log, Area::Main] {
            if self.unflushed[area as usize] {
                sync(&mut self.disk, area)?;
                self.unflushed[area as usize] = false;
            }
        }
        Ok(())
    }

    fn running(&self) -> Result<(), Error> {
        match self.stopped {
            true => Err(Error::Stopped),
            false => Ok(()),
        }
    }

    /// Whether the disk has failed.
    pub fn is_stopped(&self) -> bool {
        self.stopped
    }

    /// The header that counts.
    pub fn header(&self) -> Result<DbHeader, Error> {
        self.running()?;
        Ok(self.engine.header()?)
    }

    /// Whether it was opened for reading only.
    pub fn is_read_only(&self) -> Result<bool, Error> {
        self.running()?;
        Ok(self.engine.is_read_only()?)
    }

    /// The clock. A program that issues times goes on above it: after [`Mode::ReadWrite`] it is at or above the time of every batch that
    /// the opening found.
    pub fn clock_high_water(&self) -> Result<u64, Error> {
        self.running()?;
        Ok(self.engine.clock_high_water()?)
    }

    /// Raises the clock; a lower value is ignored. It reaches the log's header with the next checkpoint. A batch that is appended does
    /// not raise it: without this call its time is forgotten when a checkpoint drops the batch.
    pub fn observe_clock_high_water(&mut self, value: u64) -> Result<(), Error> {
        self.running()?;
        Ok(self.engine.observe_clock_high_water(value)?)
    }

    /// A page's own bytes: staged, else as committed, else none.
    pub fn read_page(&self, page_num: u32) -> Result<Option<&[u8; PAGE_SIZE]>, Error> {
        self.running()?;
        Ok(self.engine.read_page(page_num)?)
    }

    /// Stages a page for the next commit.
    pub fn stage_page(&mut self, page_num: u32, bytes: &[u8; PAGE_SIZE]) -> Result<(), Error> {
        self.running()?;
        Ok(self.engine.stage_page(page_num, bytes)?)
    }

    /// Drops what is staged.
    pub fn clear_staged(&mut self) -> Result<(), Error> {
        self.running()?;
        Ok(self.engine.clear_staged()?)
    }

    /// Appends a batch to the log. It counts once a commit follows it (which seals it, in document 01's words), and no flush comes until
    /// then.
    pub fn append_mvcc_batch(&mut self, body: &[u8]) -> Result<(), Error> {
        self.running()?;
        self.check_tail()?;
        let intact = self.check_intact(Area::Log);
        self.or_stop(intact)?;
        let write = self.engine.append_mvcc_batch(body)?;
        self.write_out(write)
    }

    /// Commits what is staged and the appended batches: the number of pages that differed. When it returns, all of it is on the disk.
    ///
    /// A commit that brings the log to 100 frames is followed by a checkpoint, and the log's batches are gone then; before that
    /// [`frames_before_checkpoint`](Store::frames_before_checkpoint) tells how near it is, and [`preview`](Store::preview) whether it follows
    /// this commit. A staged page at or above the header's page count is refused ([`Error::StagedBeyond`]), and so is a commit behind bytes
    /// that are no frame ([`Error::TornTail`]).
    pub fn commit(&mut self, header: DbHeader) -> Result<usize, Error> {
        self.check_commit(header)?;
        let intact = self.check_files();
        self.or_stop(intact)?;
        if !self.may_checkpoint() {
            return self.commit_at_once(header);
        }
        let salt = (self.salts)();
        self.engine.begin_commit(header, salt)?;
        self.run_steps()
    }

    /// Shows a commit before it is made: what [`commit`](Store::commit) with this header would answer and leave now, or why it would be
    /// refused. Nothing is altered: what is staged stays staged, no salt is drawn, and a file that was replaced, which would stop the store,
    /// is only told. Whether the disk would fail in the commit's writes is not known before.
    ///
    /// It takes `&mut self` since the disk is asked whether its files are intact, and every call on a [`Disk`] but its names is `&mut`.
    ///
    /// ```
    /// use lateenbael::Store;
    ///
    /// # fn main() -> Result<(), Box<dyn std::error::Error>> {
    /// # let folder = std::env::temp_dir().join(format!("lateenbael-preview-{}", std::process::id()));
    /// # std::fs::create_dir_all(&folder)?;
    /// let mut store = Store::create(folder.join("grips"))?;
    /// store.stage_page(1, &[7; 4096])?;
    /// let header = store.header()?;
    /// let shown = store.preview(header)?;
    /// assert_eq!((shown.answer, shown.frame_count, shown.checkpointed), (1, 2, false));
    /// assert_eq!((shown.log_len, shown.main_len), (32 + 2 * 4112, 2 * 4096));
    /// assert_eq!(store.commit(header)?, shown.answer);
    /// # drop(store);
    /// # std::fs::remove_dir_all(&folder)?;
    /// # Ok(())
    /// # }
    /// ```
    pub fn preview(&mut self, header: DbHeader) -> Result<Preview, Error> {
        self.check_commit(header)?;
        self.check_files()?;
        Ok(self.engine.preview_commit(header)?)
    }

    /// Whether a checkpoint may follow the next commit: surely not if every staged page's frame and the commit frame leave the log below
    /// its 100 frames.
    fn may_checkpoint(&self) -> bool {
        self.engine.store().staged.count >= self.frames_left()
    }

    /// Refuses a commit for what the store knows by itself.
    fn check_commit(&self, header: DbHeader) -> Result<(), Error> {
        self.running()?;
        self.check_staged(header.page_count)?;
        self.check_tail()
    }

    /// Refuses a commit for what became of the files: of the log, and of the main file where a checkpoint may follow, which empties the log.
    fn check_files(&mut self) -> Result<(), Error> {
        self.check_intact(Area::Log)?;
        match self.may_checkpoint() {
            true => self.check_intact(Area::Main),
            false => Ok(()),
        }
    }

    /// A commit that no checkpoint can follow, whose frames thus stand in a row at the log's end: one write, one flush. Their bytes
    /// reach the file in the order of the steps' writes. The salt would be the next log's.
    fn commit_at_once(&mut self, header: DbHeader) -> Result<usize, Error> {
        let at = self.engine.store().wal.len;
        let answer = self.engine.commit(header, 0)?;
        let len = self.engine.store().wal.len - at;
        self.write_out(Write::new(Area::Log, at, len, true))?;
        Ok(answer)
    }

    /// Refuses a staged page that the new count would leave out. What the library refuses anyway is left to it.
    fn check_staged(&self, page_count: u32) -> Result<(), Error> {
        let store = self.engine.store();
        let beyond = |page: &u32| *page >= page_count && page_count != 0 && self.engine.is_writable();
        let staged = store.staged.pages.iter().take(store.staged.count).map(|page| u32::from(*page));
        match staged.filter(beyond).min() {
            Some(page) => Err(Error::StagedBeyond { page, page_count }),
            None => Ok(()),
        }
    }

    /// Refuses what would be written behind bytes that are no frame: reading a log stops there.
    fn check_tail(&self) -> Result<(), Error> {
        let wal = &self.engine.store().wal;
        match wal.good_end < wal.len && self.engine.is_writable() {
            true => Err(Error::TornTail {
                file: self.disk.name(Area::Log),
                bytes: wal.len - wal.good_end,
            }),
            false => Ok(()),
        }
    }

    /// Refuses to go on with a file that was removed, replaced or given another length behind the store's back.
    fn check_intact(&mut self, area: Area) -> Result<(), Error> {
        if !self.engine.is_writable() {
            return Ok(());
        }
        match self.disk.is_intact(area) {
            Ok(true) => Ok(()),
            Ok(false) => Err(Error::Replaced {
                file: self.disk.name(area),
            }),
            Err(source) => Err(failed(&self.disk, area, source)),
        }
    }

    /// Writes the log's pages to the main file and empties the log, document 01's fold: the number of pages written. The log's batches,
    /// committed or not, are gone then.
    pub fn checkpoint(&mut self) -> Result<usize, Error> {
        self.running()?;
        let salt = (self.salts)();
        match self.engine.begin_checkpoint(salt)? {
            true => self.run_steps(),
            false => Ok(0),
        }
    }

    /// Does the writes of what has begun; the answer comes when all of them are on the disk.
    ///
    /// Writes that adjoin go to the file as one. They still reach the disk in order: its bytes are those of the first write, then
    /// those of the next, so what a cut leaves of it is the first writes whole, the first bytes of one and nothing of the others, as if
    /// each were done by itself. What is pending is still in its area as it was when it is written: between two flushes the writes
    /// stand at ascending places, and a new length lies behind what is pending.
    fn run_steps(&mut self) -> Result<usize, Error> {
        let mut pending = None;
        let answer = loop {
            let step = self.engine.next_step();
            match self.or_stop(step)? {
                Step::Idle => break 0,
                Step::Stored(write) => pending = self.join_or_write(pending, write)?,
                Step::Last(write, answer) => {
                    pending = self.join_or_write(pending, write)?;
                    break answer;
                }
            }
        };
        pending.map_or(Ok(()), |pending| self.write_out(pending))?;
        Ok(answer)
    }

    /// Adds a write to the pending one, which is done first if they don't adjoin: what is pending then. A length is never pending, nor
    /// what a flush follows.
    fn join_or_write(&mut self, pending: Option<Write>, write: Write) -> Result<Option<Write>, Error> {
        let joined = pending.and_then(|pending| join(pending, write));
        if let (Some(pending), None) = (pending, joined) {
            self.write_out(pending)?;
        }
        let write = joined.unwrap_or(write);
        if write.flush || write.is_length() {
            self.write_out(write)?;
            return Ok(None);
        }
        Ok(Some(write))
    }

    /// The batches that the opening found committed, in the log's order, until a checkpoint drops them.
    pub fn recovered_mvcc_commits(&self) -> Result<impl Iterator<Item = Batch<'_>>, Error> {
        self.running()?;
        let mut index = 0;
        Ok(std::iter::from_fn(move || {
            let found = self.engine.recovered(index).ok()??;
            index = found.index + 1;
            Batch::decode(&self.engine.log[found.body..][..PAGE_SIZE]).ok()
        }))
    }

    /// The log file as it lies, for listing; none if there is no such file.
    pub fn log(&self) -> Result<Option<Log<'_>>, Error> {
        self.running()?;
        match self.engine.has_log() {
            true => Ok(Some(Log::open(self.engine.log_file())?)),
            false => Ok(None),
        }
    }

    /// The log's header as the store has it; the clock may be ahead of the file's.
    pub fn wal_header(&self) -> Result<WalHeader, Error> {
        self.running()?;
        Ok(self.engine.store().wal.header)
    }

    /// How many frames the log has.
    pub fn frame_count(&self) -> Result<usize, Error> {
        self.running()?;
        Ok(self.engine.store().wal.frame_count)
    }

    /// How many frames can still be added before a commit is followed by a checkpoint, with which the log's batches are gone. A batch
    /// is one frame; a commit adds one for each page that differs, and one for itself.
    pub fn frames_before_checkpoint(&self) -> Result<usize, Error> {
        self.running()?;
        Ok(self.frames_left())
    }

    fn frames_left(&self) -> usize {
        (CHECKPOINT_FRAMES - 1).saturating_sub(self.engine.store().wal.frame_count)
    }

    /// How many batches the log has, committed or waiting for a commit. They are counted in the log.
    pub fn batch_count(&self) -> Result<usize, Error> {
        let log = self.log()?;
        Ok(log.map_or(0, |log| log.frames().filter(|frame| frame.batch().is_some()).count()))
    }

    /// Copies both files as they lie to a new store, which lets nobody do more than this one's main file does.
    pub fn copy_to(&self, path: impl AsRef<Path>) -> Result<(), Error> {
        self.running()?;
        let mut files = Files::fresh(path.as_ref(), DEFAULT_WAIT)?;
        files.restrict_as(&self.disk.name(Area::Main));
        match self.engine.has_log() {
            true => make_files(&mut files, self.engine.main_file(), self.engine.log_file()),
            false => {
                make_file(&mut files, Area::Main, self.engine.main_file())?;
                publish(&mut files, Area::Main)
            }
        }
    }

    /// The main file's bytes.
    pub fn main_file(&self) -> Result<&[u8], Error> {
        self.running()?;
        Ok(self.engine.main_file())
    }

    /// The disk, for what only it can do.
    pub fn disk_mut(&mut self) -> &mut D {
        &mut self.disk
    }
}

/// Two writes as one, if the second's bytes begin where the first's end. The first has no flush behind it.
fn join(first: Write, second: Write) -> Option<Write> {
    let adjoin = first.area == second.area && first.at + first.len == second.at;
    (adjoin && !second.is_length()).then(|| Write::new(first.area, first.at, first.len + second.len, second.flush))
}
