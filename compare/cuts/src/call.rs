//! A call of the history, with all its arguments, and how it is printed.
use crate::model::{Header, PAGE, Page};
use splitmix::Random;
use std::fmt;

/// An area that a call is lent one entry too short.
#[derive(Clone, Copy, Debug, PartialEq, Eq)]
pub enum AreaName {
    Table,
    Log,
    Main,
    Staging,
}

/// Why an opening is refused. The files are as they were: only the areas' bytes, lent lengths or
/// mode are wrong.
#[derive(Clone, Copy, Debug, PartialEq, Eq)]
pub enum Fault {
    /// Nothing but the mode.
    ReadOnly,
    MainAboveArea,
    LogAboveArea,
    MainUnderPage,
    LogUnderHeader,
    /// A byte of the main file's or the log's header, and the refusal it brings.
    MainByte(usize, u32),
    LogByte(usize, u32),
    MainBelowCount,
    /// A committed page 0 in the log that is no header, or has so many pages.
    PageZeroBad,
    PageZeroCount(u32),
}

#[derive(Clone, Debug)]
pub enum Call {
    /// Page number, seed of its bytes, their number.
    Stage(u32, u64, usize),
    DropStaging,
    Read(u32),
    Query,
    Clock(u64),
    Append(Vec<u8>),
    Preview(Header),
    BeginCommit(Header, u32),
    BeginCheckpoint(u32),
    Step,
    Commit(Header, u32),
    Checkpoint(u32),
    /// A clean opening where the areas stand.
    Open,
    /// An opening that is refused, in vain read-only or not.
    BadOpen(Fault, bool),
    /// A call with an area too short.
    Short(AreaName, Box<Call>),
    /// The call's writes cut: so many whole, so many bytes of the next; then a clean opening in
    /// other areas. Of `Step`: of all the steps that are left.
    Cut(Box<Call>, Place),
}

/// Where a call is cut, and what follows.
#[derive(Clone, Copy, Debug, PartialEq, Eq)]
pub struct Place {
    pub whole_writes: usize,
    pub bytes: usize,
    /// Seed of what lies in the fresh areas.
    pub stale: u64,
    /// The clean opening is cut too, its log length not stored or stored, and comes again.
    pub again: Option<bool>,
}

/// A page's bytes from a seed; seed 0 is zeros.
pub fn page_bytes(seed: u64, len: usize) -> Page {
    let mut bytes = vec![0; len];
    if seed != 0 {
        Random::new(seed).fill(&mut bytes);
    }
    bytes.into()
}

impl Call {
    /// What kind of call, for counting.
    pub fn kind(&self) -> &'static str {
        match self {
            Call::Stage(..) => "stage",
            Call::DropStaging => "clear",
            Call::Read(..) => "read",
            Call::Query => "query",
            Call::Clock(..) => "clock",
            Call::Append(..) => "batch",
            Call::Preview(..) => "preview",
            Call::BeginCommit(..) => "begin commit",
            Call::BeginCheckpoint(..) => "begin fold",
            Call::Step => "step",
            Call::Commit(..) => "commit",
            Call::Checkpoint(..) => "fold",
            Call::Open => "open",
            Call::BadOpen(..) => "bad opening",
            Call::Short(..) => "short area",
            Call::Cut(..) => "cut",
        }
    }
}

impl fmt::Display for Header {
    fn fmt(&self, f: &mut fmt::Formatter<'_>) -> fmt::Result {
        let Header {
            page_count: count,
            schema_root: root,
            version,
            freelist_head: free,
        } = self;
        write!(
            f,
            "count {count} root {root} version {version} freelist {free}"
        )
    }
}

impl fmt::Display for Place {
    fn fmt(&self, f: &mut fmt::Formatter<'_>) -> fmt::Result {
        let Place {
            whole_writes,
            bytes,
            stale,
            again,
        } = self;
        write!(
            f,
            "after {whole_writes} stores and {bytes} bytes, stale {stale}"
        )?;
        match again {
            None => Ok(()),
            Some(true) => write!(f, ", opening cut behind its length"),
            Some(false) => write!(f, ", opening cut before its length"),
        }
    }
}

fn hex(bytes: &[u8]) -> String {
    bytes.iter().map(|byte| format!("{byte:02x}")).collect()
}

impl fmt::Display for Call {
    fn fmt(&self, f: &mut fmt::Formatter<'_>) -> fmt::Result {
        write!(f, "{}", self.kind())?;
        match self {
            Call::Stage(page, seed, PAGE) => write!(f, " {page} seed {seed}"),
            Call::Stage(page, seed, len) => write!(f, " {page} seed {seed}, {len} bytes"),
            Call::Read(page) => write!(f, " {page}"),
            Call::Clock(value) => write!(f, " {value}"),
            Call::Append(body) => {
                let shown = body.len().min(40);
                write!(f, " of {} bytes {} ..", body.len(), hex(&body[..shown]))
            }
            Call::Preview(header) => write!(f, " {header}"),
            Call::BeginCommit(header, salt) | Call::Commit(header, salt) => {
                write!(f, " {header} salt {salt:08x}")
            }
            Call::BeginCheckpoint(salt) | Call::Checkpoint(salt) => write!(f, " salt {salt:08x}"),
            Call::BadOpen(fault, read_only) => write!(f, " {fault:?} read-only {read_only}"),
            Call::Short(area, call) => write!(f, " {area:?}: {call}"),
            Call::Cut(call, place) => write!(f, " [{call}] {place}"),
            _ => Ok(()),
        }
    }
}
