//! What a list of calls asks of the port and of the Rust alike.

use std::fmt::{self, Display, Formatter};

use engine::sql::pager::header::DbHeader;

use crate::call::{Edit, Opening};

pub use stand_in::world::Cut;

/// One of the two files.
#[derive(Debug, Clone, Copy, PartialEq, Eq)]
pub enum Area {
    Main,
    Log,
}

impl Area {
    pub fn name(self) -> &'static str {
        match self {
            Self::Main => "main",
            Self::Log => "log",
        }
    }

    pub fn from_name(name: &str) -> Option<Self> {
        [Self::Main, Self::Log]
            .into_iter()
            .find(|area| area.name() == name)
    }

    /// The file's name in its folder.
    pub fn file(self) -> &'static str {
        match self {
            Self::Main => "db.sqlrite",
            Self::Log => "db.sqlrite-wal",
        }
    }
}

/// A write (document 01's store): `length` bytes from `first` on or, with
/// `length` 0, the new length `first`.
#[derive(Debug, Clone, Copy, PartialEq, Eq)]
pub struct Write {
    pub area: Area,
    pub first: usize,
    pub length: usize,
    pub flush: bool,
}

impl Write {
    pub fn is_length(&self) -> bool {
        self.length == 0
    }

    fn kind(&self) -> &'static str {
        if self.is_length() { "length" } else { "store" }
    }
}

impl Display for Write {
    fn fmt(&self, f: &mut Formatter<'_>) -> fmt::Result {
        let flush = if self.flush { "flush" } else { "-" };
        let (kind, area) = (self.kind(), self.area.name());
        write!(f, "{kind} {area} {} {} {flush}", self.first, self.length)
    }
}

/// The write that a cut fell on (no flush followed), and how much of it was
/// stored; of a length 1 (new) or 0 (old).
#[derive(Debug, Clone, Copy, PartialEq, Eq)]
pub struct CutWrite {
    pub write: Write,
    pub bytes: usize,
    /// The file's length afterwards.
    pub file: usize,
}

impl Display for CutWrite {
    fn fmt(&self, f: &mut Formatter<'_>) -> fmt::Result {
        let Self { write, bytes, file } = self;
        let (kind, area) = (write.kind(), write.area.name());
        write!(
            f,
            "cut {kind} {area} {} bytes {bytes} file {file}",
            write.first
        )
    }
}

/// A refusal's number, with the lowest page that is missing beside 14.
#[derive(Debug, Clone, Copy, PartialEq, Eq)]
pub struct Refused {
    pub number: u32,
    pub page: Option<u32>,
}

impl Refused {
    pub fn by(number: u32) -> Self {
        Self { number, page: None }
    }
}

impl Display for Refused {
    fn fmt(&self, f: &mut Formatter<'_>) -> fmt::Result {
        write!(f, "refused {}", self.number)?;
        match self.page {
            Some(page) => write!(f, " {page}"),
            None => Ok(()),
        }
    }
}

pub type Answer<T> = Result<T, Refused>;

/// A call that may write to the files.
#[derive(Debug, Clone, PartialEq, Eq)]
pub enum Act {
    Create,
    Open(Opening),
    Batch(Vec<u8>),
    Commit(DbHeader),
    Checkpoint,
}

/// Its answer (a batch's records, a commit's or checkpoint's pages, else 0) and
/// its writes: of one that was cut, the whole ones before.
#[derive(Debug)]
pub struct Performed {
    pub answer: Answer<usize>,
    pub writes: Vec<Write>,
    pub cut: Option<CutWrite>,
}

impl Performed {
    /// Whether a commit brought on a checkpoint: of its own writes none is a
    /// length.
    pub fn has_checkpointed(&self) -> bool {
        self.writes.iter().any(Write::is_length)
    }
}

/// How a commit ends, in document 01's words.
pub fn ending(checkpointed: bool) -> &'static str {
    match checkpointed {
        true => "folded",
        false => "kept",
    }
}

/// What a commit would answer and leave: frames and lengths of the files are
/// those afterwards.
#[derive(Debug, Clone, Copy, PartialEq, Eq)]
pub struct Preview {
    pub answer: usize,
    pub frames: usize,
    pub log: usize,
    pub main: usize,
    pub checkpointed: bool,
}

impl Display for Preview {
    fn fmt(&self, f: &mut Formatter<'_>) -> fmt::Result {
        let Self {
            answer,
            frames,
            log,
            main,
            checkpointed,
        } = self;
        let ending = ending(*checkpointed);
        write!(
            f,
            "ok {answer} frames {frames} log {log} main {main} {ending}"
        )
    }
}

/// The numbers of an open store.
#[derive(Debug, Clone, Copy, PartialEq, Eq, Default)]
pub struct State {
    pub frames: usize,
    pub log_pages: usize,
    pub main_pages: usize,
    pub staged: usize,
    pub clock: u64,
}

impl Display for State {
    fn fmt(&self, f: &mut Formatter<'_>) -> fmt::Result {
        let Self {
            frames,
            log_pages,
            main_pages,
            staged,
            clock,
        } = self;
        write!(
            f,
            "frames {frames} logpages {log_pages} mainpages {main_pages} staged {staged} clock {clock}"
        )
    }
}

/// A recovered batch: its time, its number of records, its printed form in
/// lines and the body that encoding writes for it.
#[derive(Debug, PartialEq, Eq)]
pub struct Recovered {
    pub time: u64,
    pub records: usize,
    pub lines: Vec<String>,
    pub encoded: Vec<u8>,
}

/// The port or the Rust with two files. Calls other than the first five
/// groups are made of an open store only.
pub trait Side {
    /// No file, no salt queued, none drawn, nothing open.
    fn reset(&mut self);
    fn queue_salt(&mut self, salt: u32);
    fn look_at<T>(&self, area: Area, look: impl FnOnce(Option<&[u8]>) -> T) -> T;
    fn edit(&mut self, edit: &Edit);
    /// The log file's listing; a log that isn't there has no byte.
    fn list_log(&self) -> String;

    fn is_open(&self) -> bool;
    fn close(&mut self);
    /// Creation and openings find no store open. Once an act has been cut,
    /// nothing is asked of the store but to be closed.
    fn perform(&mut self, act: &Act, cut: Option<Cut>) -> Performed;
    /// What a commit would come to now. Files, store and salts stay as they
    /// are.
    fn preview(&mut self, header: DbHeader) -> Answer<Preview>;

    fn stage(&mut self, page: u32, bytes: &[u8]) -> Answer<()>;
    fn clear(&mut self);
    /// Answers the clock afterwards.
    fn observe_clock(&mut self, value: u64) -> u64;
    fn read(&self, page: u32) -> Option<&[u8]>;
    fn header(&self) -> DbHeader;
    fn state(&self) -> State;
    fn recovered(&self) -> Vec<Recovered>;
}
