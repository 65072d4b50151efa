//! The writes that document 01 (which calls them stores) gives a call, and those of a checkpoint,
//! its fold.
use crate::batch::Batch;
use crate::model::{PAGE, Page};
use lateenbael::{Area, Write};
use std::collections::BTreeMap;
use std::rc::Rc;

pub const LOG_HEADER: usize = 32;
pub const FRAME: usize = 4112;

#[derive(Clone, Debug)]
pub enum WriteKind {
    BatchFrame(Rc<Batch>),
    PageFrame,
    /// Document 01's seal.
    CommitFrame,
    MainPage(u32),
    MainHeader,
    MainLength,
    LogLength,
    LogHeader,
    /// A clean opening "cuts the log at the commit point".
    OpeningLength,
}

impl WriteKind {
    /// For counting.
    pub fn name(&self) -> &'static str {
        match self {
            WriteKind::BatchFrame(_) => "batch frame",
            WriteKind::PageFrame => "page frame",
            WriteKind::CommitFrame => "seal",
            WriteKind::MainPage(_) => "main page",
            WriteKind::MainHeader => "main header",
            WriteKind::MainLength => "main length",
            WriteKind::LogLength => "log length",
            WriteKind::LogHeader => "log header",
            WriteKind::OpeningLength => "opening's log length",
        }
    }
}

/// A write as its call must name it, and what it is.
#[derive(Clone, Debug)]
pub struct PlannedWrite {
    pub kind: WriteKind,
    pub write: Write,
}

pub fn planned_write(
    kind: WriteKind,
    area: Area,
    at: usize,
    len: usize,
    flush: bool,
) -> PlannedWrite {
    let write = Write {
        area,
        at,
        len,
        flush,
    };
    PlannedWrite { kind, write }
}

/// "Log pages from 1 below the page count, ascending; flush if there were any; main header; main
/// length; flush; log length 32; log header with the next sequence and the given salt; flush."
pub fn checkpoint_writes(log_pages: &BTreeMap<u32, Page>, count: u32) -> Vec<PlannedWrite> {
    let pages: Vec<u32> = log_pages
        .keys()
        .copied()
        .filter(|page| (1..count).contains(page))
        .collect();
    let last = pages.last().copied();
    let main_page = |page: &u32| {
        let at = *page as usize * PAGE;
        planned_write(
            WriteKind::MainPage(*page),
            Area::Main,
            at,
            PAGE,
            Some(*page) == last,
        )
    };
    let mut writes: Vec<PlannedWrite> = pages.iter().map(main_page).collect();
    writes.push(planned_write(
        WriteKind::MainHeader,
        Area::Main,
        0,
        PAGE,
        false,
    ));
    writes.push(planned_write(
        WriteKind::MainLength,
        Area::Main,
        count as usize * PAGE,
        0,
        true,
    ));
    writes.push(planned_write(
        WriteKind::LogLength,
        Area::Log,
        LOG_HEADER,
        0,
        false,
    ));
    writes.push(planned_write(
        WriteKind::LogHeader,
        Area::Log,
        0,
        LOG_HEADER,
        true,
    ));
    writes
}
