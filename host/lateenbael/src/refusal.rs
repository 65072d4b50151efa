//! The refusals, by name.
use std::fmt;

/// Why a call was refused; its number is [`Refusal::number`].
#[derive(Clone, Copy, Debug, PartialEq, Eq, PartialOrd, Ord, Hash)]
#[allow(missing_docs, reason = "each is told in `ALL`, which `Display` prints")]
pub enum Refusal {
    Area = 1,
    Short = 2,
    Magic = 3,
    Version = 4,
    PageSize = 5,
    Limit = 6,
    MainShort = 7,
    PageZero = 8,
    Busy = 9,
    ReadOnly = 10,
    Page = 11,
    Staging = 12,
    NewHeader = 13,
    Joining = 14,
    LogFull = 15,
    Clock = 16,
    Truncated = 17,
    Tag = 18,
    Text = 19,
    Fit = 20,
    NoRecord = 21,
}

use Refusal::*;

const ALL: [(Refusal, &str, &str); 21] = [
    (Area, "Area", "a wrong area length, or a file length above its area"),
    (
        Short,
        "Short",
        "main under 4,096 bytes, log under 32, batch body under 18, or a header buffer not 4,096",
    ),
    (Magic, "Magic", "wrong leading bytes"),
    (Version, "Version", "version not 4 to 6 (main file) or 1 to 3 (log)"),
    (PageSize, "PageSize", "page size not 4,096"),
    (Limit, "Limit", "a page count above 1,024"),
    (MainShort, "MainShort", "the main file is shorter than its page count"),
    (PageZero, "PageZero", "the log's page 0 is no header"),
    (Busy, "Busy", "a commit or fold is part done"),
    (ReadOnly, "ReadOnly", "the store is open read-only"),
    (Page, "Page", "a page number above 1,023"),
    (Staging, "Staging", "24 other pages are staged"),
    (NewHeader, "NewHeader", "page count 0 or above 1,024, or version not 4 to 6"),
    (Joining, "Joining", "a page that the new count brings in isn't staged"),
    (LogFull, "LogFull", "no room in the log"),
    (Clock, "Clock", "set below the present clock"),
    (Truncated, "Truncated", "a batch field runs past the body"),
    (Tag, "Tag", "unknown op or value tag"),
    (Text, "Text", "not UTF-8"),
    (Fit, "Fit", "the batch would pass 4,096 bytes"),
    (NoRecord, "NoRecord", "a column with no present record before it"),
];

impl Refusal {
    /// `Err` with the refusal of that number; 0 is none.
    #[inline]
    pub fn check(number: u32) -> Result<(), Refusal> {
        match number.checked_sub(1) {
            None => Ok(()),
            Some(k) => Err(Refusal::at(k)),
        }
    }

    /// Out of line, so that calls which are not refused stay short.
    #[cold]
    #[inline(never)]
    fn at(k: u32) -> Refusal {
        ALL[k as usize].0
    }

    /// Document 01's number.
    pub fn number(self) -> u32 {
        self as u32
    }

    /// Its name.
    pub fn name(self) -> &'static str {
        ALL[self as usize - 1].1
    }
}

impl fmt::Display for Refusal {
    fn fmt(&self, f: &mut fmt::Formatter<'_>) -> fmt::Result {
        let (_, name, why) = ALL[*self as usize - 1];
        write!(f, "refused {} {name}: {why}", self.number())
    }
}

impl std::error::Error for Refusal {}

impl From<Refusal> for u32 {
    fn from(refusal: Refusal) -> u32 {
        refusal.number()
    }
}

/// The refusal of a number; the number itself if there is none.
impl TryFrom<u32> for Refusal {
    type Error = u32;

    fn try_from(number: u32) -> Result<Refusal, u32> {
        ALL.iter().map(|row| row.0).find(|refusal| refusal.number() == number).ok_or(number)
    }
}
