//! A log's bytes, read alone: its header, its good frames, its commit point, its batches, and its listing.
use crate::named::{open_regular, resolved, wal_path_for};
use crate::{Batch, Error, Refusal};
use lateenbael_sys as sys;
use std::fmt::{self, Write};
use std::io::Read;
use std::path::{Path, PathBuf};
use sys::{FRAME_SIZE, LOG_AREA, MVCC_FRAME_MARKER, PAGE_SIZE, Wal, WalHeader};

/// A store's log file as it lies, read without a lock: to look at a store that another program has open.
#[derive(Clone, Debug, PartialEq, Eq)]
pub struct LogFile {
    path: PathBuf,
    bytes: Vec<u8>,
}

impl LogFile {
    /// The log of the store of that name; the main file may be missing. Of a file that is too long one byte more than a log has is read,
    /// which is then refused.
    pub fn read(store: impl AsRef<Path>) -> Result<LogFile, Error> {
        let store = store.as_ref();
        let path = wal_path_for(&resolved(store).unwrap_or_else(|_| store.to_path_buf()));
        let mut bytes = Vec::new();
        let read = open_regular(&path, true)?.take(LOG_AREA as u64 + 1).read_to_end(&mut bytes);
        read.map_err(|source| Error::of_file(&path, source))?;
        Ok(LogFile { path, bytes })
    }

    /// The log in it. Refusals 1 to 5.
    pub fn log(&self) -> Result<Log<'_>, Error> {
        let file = self.path.clone();
        Log::open(&self.bytes).map_err(|refusal| Error::RefusedFile { file, refusal })
    }
}

/// A log that opens.
#[derive(Clone, Copy, PartialEq, Eq)]
pub struct Log<'a> {
    bytes: &'a [u8],
    wal: Wal,
}

/// A good frame.
#[derive(Clone, Copy, PartialEq, Eq)]
pub struct Frame<'a> {
    /// Which of the log's frames it is.
    pub index: usize,
    /// The frame's first byte.
    pub offset: usize,
    /// The page's number, or a batch's mark.
    pub page_num: u32,
    /// The page count that it commits. 0: no commit frame (document 01's seal).
    pub commit_page_count: u32,
    /// The page's bytes, or the batch's.
    pub body: &'a [u8],
}

impl fmt::Debug for Frame<'_> {
    fn fmt(&self, f: &mut fmt::Formatter<'_>) -> fmt::Result {
        f.debug_struct("Frame")
            .field("index", &self.index)
            .field("offset", &self.offset)
            .field("page_num", &self.page_num)
            .field("commit_page_count", &self.commit_page_count)
            .finish_non_exhaustive()
    }
}

impl fmt::Debug for Log<'_> {
    fn fmt(&self, f: &mut fmt::Formatter<'_>) -> fmt::Result {
        f.debug_struct("Log").field("wal", &self.wal).finish_non_exhaustive()
    }
}

impl<'a> Frame<'a> {
    /// The batch, if the frame holds one.
    pub fn batch(&self) -> Option<Batch<'a>> {
        match self.page_num {
            MVCC_FRAME_MARKER => Batch::decode(self.body).ok(),
            _ => None,
        }
    }
}

impl<'a> Log<'a> {
    /// Opens a log's bytes. Refusals 1 to 5.
    pub fn open(bytes: &'a [u8]) -> Result<Log<'a>, Refusal> {
        // SAFETY: a whole slice is lent, which the call reads and does not keep.
        let answer = unsafe { sys::lateenbael_wal_open(bytes.as_ptr(), bytes.len()) };
        Refusal::check(answer.refusal)?;
        Ok(Log { bytes, wal: answer.wal })
    }

    /// Its header.
    pub fn header(&self) -> WalHeader {
        self.wal.header
    }

    /// The file's length.
    pub fn file_len(&self) -> usize {
        self.bytes.len()
    }

    /// Where the good frames end.
    pub fn good_end(&self) -> usize {
        self.wal.good_end
    }

    /// The commit point: the end of the last commit frame.
    pub fn commit_point(&self) -> usize {
        self.wal.last_commit_offset
    }

    /// Good frames, committed or not, and a last batch frame that does not decode.
    pub fn frame_count(&self) -> usize {
        self.wal.frame_count
    }

    /// The last commit frame's page count.
    pub fn last_commit_page_count(&self) -> Option<u32> {
        (self.wal.committed != 0).then_some(self.wal.last_commit_page_count)
    }

    /// The good frames.
    pub fn frames(&self) -> impl Iterator<Item = Frame<'a>> + use<'a> {
        let log = *self;
        (0..)
            .map_while(move |index| log.frame(index))
            .take_while(move |frame| frame.offset < log.wal.good_end)
    }

    fn frame(&self, index: usize) -> Option<Frame<'a>> {
        // SAFETY: a whole slice is lent, which the call reads and does not keep.
        let answer = unsafe { sys::lateenbael_wal_frame_at(self.bytes.as_ptr(), self.bytes.len(), index) };
        (answer.found != 0).then(|| Frame {
            index,
            offset: answer.offset,
            page_num: answer.header.page_num,
            commit_page_count: answer.header.commit_page_count,
            body: &self.bytes[answer.offset..][..FRAME_SIZE][FRAME_SIZE - PAGE_SIZE..],
        })
    }

    /// The lines of document 01's `loglist`, for a log of any length.
    pub fn listing(&self) -> String {
        let h = self.wal.header;
        let mut lines = format!("log {} {:08x} {} {}\n", h.version, h.salt, h.checkpoint_seq, h.clock_high_water);
        for frame in self.frames() {
            let what = match frame.batch() {
                Some(batch) => format!("batch {}", batch.record_count()),
                None => format!("page {}", frame.page_num),
            };
            let _ = writeln!(lines, "{} {what} {}", frame.index, frame.commit_page_count);
        }
        let last = self.last_commit_page_count().map_or("-".to_string(), |count| count.to_string());
        let _ = writeln!(lines, "end {} {} {last}", self.frame_count(), self.commit_point());
        lines
    }
}
