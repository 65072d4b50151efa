//! A whole store apart from its files: taken from one, carried anywhere, and made into another that reads the same.
use crate::{Batch, DEFAULT_WAIT, Disk, Engine, Error, Files, Log, Refusal, Store, salts_of_the_clock};
use lateenbael_sys as sys;
use std::fmt;
use std::io;
use std::path::Path;
use sys::{DbHeader, LOG_AREA, MVCC_FRAME_MARKER, PAGE_SIZE, PAGES, Wal};

/// A page's bytes, or a batch's.
pub type Page = Box<[u8; PAGE_SIZE]>;

/// What a store holds: its header and clock, every page below the page count, and the committed batches.
///
/// ```
/// use lateenbael::{Mode, Snapshot, Store};
///
/// # fn main() -> Result<(), Box<dyn std::error::Error>> {
/// # let folder = std::env::temp_dir().join(format!("lateenbael-snapshot-{}", std::process::id()));
/// # std::fs::create_dir_all(&folder)?;
/// # let (path, other) = (folder.join("grips"), folder.join("other"));
/// # drop(Store::create(&path)?);
/// let snapshot = Snapshot::of(&Store::open(&path, Mode::ReadOnly)?)?;
/// let restored = snapshot.create(&other)?;
/// assert_eq!(Snapshot::of(&restored)?, snapshot);
/// # drop(restored);
/// # std::fs::remove_dir_all(&folder)?;
/// # Ok(())
/// # }
/// ```
#[derive(Clone, PartialEq, Eq)]
pub struct Snapshot {
    /// The header that counts.
    pub header: DbHeader,
    /// The clock: of a store that was opened read-only or plainly and not raised since, the log header's. A new store's log header
    /// gets it.
    pub clock_high_water: u64,
    /// The pages from 0 to below the page count, as they read; none where a page is nowhere. Page 0 is in the log or nowhere.
    pub pages: Vec<Option<Page>>,
    /// The committed batches' bodies, in the log's order.
    pub batches: Vec<Page>,
}

/// Why a snapshot was not made into a store. No file was left behind.
#[derive(Debug)]
#[non_exhaustive]
pub enum SnapshotError {
    /// A page below the page count is nowhere: no log and main file say that and open.
    PageNowhere {
        /// The page.
        page: u32,
    },
    /// The header's page count is another than the number of pages, or above 1,024.
    PageCount {
        /// The header's.
        page_count: u32,
        /// How many pages there are.
        pages: usize,
    },
    /// A batch is none, or is one more than a log has room for.
    Batch {
        /// Which one, counted from 0.
        index: usize,
        /// Why.
        refusal: Refusal,
    },
    /// No store opens with that header, or that page 0.
    Header {
        /// Why.
        refusal: Refusal,
    },
    /// Page 0 and the header are not of one store, so that what was made would read otherwise.
    Different,
    /// The new files could not be made.
    Store(Error),
}

impl fmt::Display for SnapshotError {
    fn fmt(&self, f: &mut fmt::Formatter<'_>) -> fmt::Result {
        match self {
            SnapshotError::PageNowhere { page } => write!(f, "page {page} is nowhere, and no new store can say so"),
            SnapshotError::PageCount { page_count, pages } => {
                write!(
                    f,
                    "the header has a page count of {page_count}, of at most {PAGES}, and there are {pages} pages"
                )
            }
            SnapshotError::Batch { index, refusal } => write!(f, "batch {} is {refusal}", index + 1),
            SnapshotError::Header { refusal } => write!(f, "the header is {refusal}"),
            SnapshotError::Different => write!(f, "page 0 and the header are not of one store"),
            SnapshotError::Store(error) => error.fmt(f),
        }
    }
}

impl std::error::Error for SnapshotError {
    fn source(&self) -> Option<&(dyn std::error::Error + 'static)> {
        match self {
            SnapshotError::Batch { refusal, .. } | SnapshotError::Header { refusal } => Some(refusal),
            SnapshotError::Store(error) => Some(error),
            _ => None,
        }
    }
}

/// For functions that answer the system's errors: the error itself is inside.
impl From<SnapshotError> for io::Error {
    fn from(error: SnapshotError) -> io::Error {
        match error {
            SnapshotError::Store(error) => error.into(),
            other => io::Error::other(other),
        }
    }
}

impl From<Error> for SnapshotError {
    fn from(error: Error) -> SnapshotError {
        SnapshotError::Store(error)
    }
}

/// The numbers; the bytes are too many to show.
impl fmt::Debug for Snapshot {
    fn fmt(&self, f: &mut fmt::Formatter<'_>) -> fmt::Result {
        f.debug_struct("Snapshot")
            .field("header", &self.header)
            .field("clock_high_water", &self.clock_high_water)
            .field("pages", &self.pages.len())
            .field("batches", &self.batches.len())
            .finish_non_exhaustive()
    }
}

impl Snapshot {
    /// What a store reads as now: a page that is staged counts as it is staged, a batch that no commit follows yet does not count.
    pub fn of<D: Disk>(store: &Store<D>) -> Result<Snapshot, Error> {
        let (header, clock) = (store.header()?, store.clock_high_water()?);
        Snapshot::gathered(header, clock, |page| store.read_page(page), store.log()?)
    }

    fn of_engine(engine: &Engine) -> Result<Snapshot, Refusal> {
        let (header, clock) = (engine.header()?, engine.clock_high_water()?);
        let log = Log::open(engine.log_file())?;
        Snapshot::gathered(header, clock, |page| engine.read_page(page), Some(log))
    }

    fn gathered<'a, E>(
        header: DbHeader,
        clock_high_water: u64,
        read_page: impl Fn(u32) -> Result<Option<&'a [u8; PAGE_SIZE]>, E>,
        log: Option<Log<'_>>,
    ) -> Result<Snapshot, E> {
        let pages = (0..header.page_count).map(|page| Ok(read_page(page)?.map(|bytes| Box::new(*bytes))));
        Ok(Snapshot {
            header,
            clock_high_water,
            pages: pages.collect::<Result<_, E>>()?,
            batches: log.iter().flat_map(committed_batches).collect(),
        })
    }

    /// Makes a new store that reads the same, page for page and batch for batch, and opens it for writing. Its main file has the pages;
    /// its log has the batches, however many there are, and one commit frame. Its log header has the clock; the store that is given back
    /// has a higher one where a batch's time is above it, as every [`Mode::ReadWrite`](crate::Mode::ReadWrite) has.
    pub fn create(&self, path: impl AsRef<Path>) -> Result<Store, SnapshotError> {
        let mut salts = salts_of_the_clock();
        let (main, log) = (self.main_file()?, self.log_file(salts())?);
        let mut engine = Engine::new();
        // Read-only, since a clean opening may raise the clock that the header has.
        let opened = engine.open_with_mode(&main, Some(&log), true, 0);
        let made = opened.and_then(|()| Snapshot::of_engine(&engine));
        let refused = |refusal| SnapshotError::Header { refusal };
        if made.map_err(refused)? != *self {
            return Err(SnapshotError::Different);
        }
        engine.open_clean(&main, Some(&log), false, 0).map_err(refused)?;
        let files = Files::fresh(path.as_ref(), DEFAULT_WAIT)?;
        Ok(Store::made_on(engine, files, salts)?)
    }

    /// The header and the pages behind it.
    fn main_file(&self) -> Result<Vec<u8>, SnapshotError> {
        let (page_count, pages) = (self.header.page_count, self.pages.len());
        if page_count as usize != pages || pages > PAGES {
            return Err(SnapshotError::PageCount { page_count, pages });
        }
        let mut main = header_page(self.header).to_vec();
        for (page, bytes) in (0..).zip(&self.pages).skip(1) {
            let bytes = bytes.as_ref().ok_or(SnapshotError::PageNowhere { page })?;
            main.extend_from_slice(&bytes[..]);
        }
        Ok(main)
    }

    /// The batches as they are, and what commits them: page 0 if it reads as anything, else the last batch's own frame. A page count of
    /// 0 can be told by page 0 alone, which then does not read.
    fn log_file(&self, salt: u32) -> Result<Vec<u8>, SnapshotError> {
        let hidden = (self.header.page_count == 0 && !self.batches.is_empty()).then(|| header_page(self.header));
        let page_zero = self.pages.first().and_then(Option::as_ref).or(hidden.as_ref());
        let last = self.batches.len().saturating_sub(1);
        let mut log = NewLog::new(salt, self.clock_high_water);
        for (index, body) in self.batches.iter().enumerate() {
            let commits = page_zero.is_none() && index == last;
            let commit_page_count = if commits { self.header.page_count } else { 0 };
            let decoded = Batch::decode(&body[..]).map(|_| ());
            let appended = decoded.and_then(|()| log.append(MVCC_FRAME_MARKER, body, commit_page_count));
            appended.map_err(|refusal| SnapshotError::Batch { index, refusal })?;
        }
        if let Some(bytes) = page_zero {
            let index = self.batches.len();
            let appended = log.append(0, bytes, self.header.page_count.max(1));
            appended.map_err(|refusal| SnapshotError::Batch { index, refusal })?;
        }
        Ok(log.into_file())
    }
}

fn committed_batches(log: &Log<'_>) -> Vec<Page> {
    let commit_point = log.commit_point();
    let frames = log.frames().take_while(|frame| frame.offset < commit_point);
    let batches = frames.filter(|frame| frame.batch().is_some());
    batches
        .filter_map(|frame| frame.body.first_chunk().map(|body| Box::new(*body)))
        .collect()
}

/// A header's page.
fn header_page(header: DbHeader) -> Page {
    let mut page = Box::new([0; PAGE_SIZE]);
    // SAFETY: a whole slice is lent, which the call writes and does not keep. Of its length there is no refusal.
    unsafe { sys::lateenbael_encode_header(header, page.as_mut_ptr(), page.len()) };
    page
}

/// A log being written in memory.
struct NewLog {
    area: Vec<u8>,
    wal: Wal,
}

impl NewLog {
    fn new(salt: u32, clock_high_water: u64) -> NewLog {
        let mut area = vec![0; LOG_AREA];
        // SAFETY: a whole slice is lent, which the call writes and does not keep. Of its length there is no refusal.
        let mut wal = unsafe { sys::lateenbael_wal_create(area.as_mut_ptr(), area.len(), salt) }.wal;
        wal.header.clock_high_water = clock_high_water;
        // SAFETY: as above.
        unsafe { sys::lateenbael_encode_wal_header(wal.header, area.as_mut_ptr(), area.len()) };
        NewLog { area, wal }
    }

    /// Adds a frame. Refusal 15.
    fn append(&mut self, page_num: u32, bytes: &[u8; PAGE_SIZE], commit_page_count: u32) -> Result<(), Refusal> {
        let (area, len) = (self.area.as_mut_ptr(), self.area.len());
        // SAFETY: whole slices are lent, which the call reads and writes and does not keep.
        let answer =
            unsafe { sys::lateenbael_wal_append_frame(area, len, self.wal, page_num, bytes.as_ptr(), bytes.len(), commit_page_count) };
        Refusal::check(answer.refusal)?;
        self.wal = answer.wal;
        Ok(())
    }

    fn into_file(mut self) -> Vec<u8> {
        self.area.truncate(self.wal.len);
        self.area
    }
}
