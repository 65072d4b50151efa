//! The model, and beside it what refusals and writes depend on by document 01: the log's
//! frames, the pages of log and main file, the clock. From the document alone. All openings are
//! clean, so behind the commit point the log has nothing but uncommitted good frames. (`judge.rs`
//! judges calls by it.)
use crate::call::{Call, page_bytes};
use crate::judge::Plan;
use crate::model::{Entry, Header, Model, PAGE, Page};
use crate::writes::{FRAME, LOG_HEADER, PlannedWrite, WriteKind};
use crate::wrong::Wrong;
use std::collections::{BTreeMap, VecDeque};

/// What refusals and writes depend on beside the model.
#[derive(Clone, Debug)]
pub struct DiskState {
    pub frames: usize,
    pub committed_frames: usize,
    pub log_pages: BTreeMap<u32, Page>,
    main_pages: BTreeMap<u32, Page>,
    pub main_count: u32,
    /// The main file's, which a checkpoint that was cut leaves anywhere.
    pub main_len: usize,
    clock: u64,
}

#[derive(Clone, Debug)]
pub struct Expected {
    pub model: Model,
    pub disk: DiskState,
    /// The writes still to do: a commit or checkpoint is part done while there are any.
    pub todo: VecDeque<PlannedWrite>,
    /// What the commit or checkpoint under way answers at its end.
    pub number: usize,
    pub clock: u64,
    pub wrong: Wrong,
}

/// "Bytes 0..16 `SQLRiteFormat` and three zeros; 16..18 version; 18..20 page size; 20..24 page
/// count; 24..28 schema root; 28..32 freelist head; the rest is written zero".
pub fn encode_header(header: &Header) -> Page {
    let mut page = b"SQLRiteFormat\0\0\0".to_vec();
    page.extend(header.version.to_le_bytes());
    page.extend((PAGE as u16).to_le_bytes());
    page.extend(
        [header.page_count, header.schema_root, header.freelist_head]
            .map(u32::to_le_bytes)
            .concat(),
    );
    page.resize(PAGE, 0);
    page.into()
}

impl DiskState {
    pub fn log_len(&self) -> usize {
        LOG_HEADER + FRAME * self.frames
    }

    /// "The commit point is the end of the last seal, else 32."
    pub fn commit_point(&self) -> usize {
        LOG_HEADER + FRAME * self.committed_frames
    }

    /// "A byte stored past a file's end lengthens it."
    fn lengthen_main(&mut self, page: u32, bytes: usize) {
        if bytes > 0 {
            self.main_len = self.main_len.max(page as usize * PAGE + bytes);
        }
    }

    /// "The main file's pages from 1 to below its own header's count".
    fn main_page(&self, page: u32) -> Option<&Page> {
        self.main_pages
            .get(&page)
            .filter(|_| 1 <= page && page < self.main_count)
    }
}

impl Expected {
    pub fn created(wrong: Wrong) -> Expected {
        let model = Model::created();
        let disk = DiskState {
            frames: 0,
            committed_frames: 0,
            log_pages: BTreeMap::new(),
            main_pages: model.pages.clone(),
            main_count: model.header.page_count,
            main_len: model.header.page_count as usize * PAGE,
            clock: 0,
        };
        Expected {
            model,
            disk,
            todo: VecDeque::new(),
            number: 0,
            clock: 0,
            wrong,
        }
    }

    /// "9: a commit or fold is part done and a call other than the next step or an opening comes".
    pub fn busy(&self) -> bool {
        !self.todo.is_empty()
    }

    /// "Staged pages whose bytes differ from the log's, else the main file's (where page 0 never
    /// is), even at or above the page count, or that are in neither, ascending".
    pub fn differing(&self) -> BTreeMap<u32, Page> {
        let there = |page: &u32| {
            self.disk
                .log_pages
                .get(page)
                .or_else(|| self.disk.main_page(*page))
        };
        let staged = self
            .model
            .staged
            .iter()
            .filter(|(page, bytes)| there(page) != Some(bytes));
        staged.map(|(page, bytes)| (*page, bytes.clone())).collect()
    }

    /// As the model says. It has pages from 1 only: page 0 reads as "staged; .. else log", and in
    /// the main file it "never is".
    pub fn read(&self, page: u32) -> Option<&Page> {
        let log = self.disk.log_pages.get(&page).filter(|_| page == 0);
        self.model.read(page).or(log)
    }

    fn enter(&mut self, entry: Entry) {
        self.wrong.enter(&mut self.model, entry);
    }

    /// A call that wasn't refused: its writes are still to do.
    pub fn start(&mut self, call: &Call, plan: Plan) {
        match call {
            Call::Stage(page, seed, len) => {
                self.enter(Entry::Stage(*page, page_bytes(*seed, *len)));
            }
            Call::DropStaging => self.enter(Entry::DropStaging),
            Call::Preview(_) => self.wrong.previewed(&mut self.model),
            // "A lower one is .. ignored by the pager."
            Call::Clock(value) => self.clock = self.clock.max(*value),
            Call::Commit(header, _) | Call::BeginCommit(header, _) => {
                self.enter(Entry::Commit(*header))
            }
            _ => (),
        }
        if !plan.writes.is_empty() {
            self.todo = plan.writes.into();
            self.number = plan.number;
        }
    }

    /// "Refused .. : no change."
    pub fn refused(&mut self, call: &Call) {
        self.wrong.refused(call, &mut self.model);
    }

    /// The next of the writes still to do is whole.
    pub fn whole(&mut self) {
        let Some(planned) = self.todo.pop_front() else {
            return;
        };
        match planned.kind {
            WriteKind::BatchFrame(batch) => {
                self.disk.frames += 1;
                self.enter(Entry::BatchFrame(batch));
            }
            WriteKind::PageFrame => self.disk.frames += 1,
            WriteKind::CommitFrame => self.commit(),
            WriteKind::MainPage(page) => {
                let bytes = self.disk.log_pages.get(&page).cloned();
                self.disk
                    .main_pages
                    .extend(bytes.map(|bytes| (page, bytes)));
                self.disk.lengthen_main(page, PAGE);
            }
            WriteKind::MainHeader => self.disk.main_count = self.model.header.page_count,
            WriteKind::MainLength => {
                let count = self.model.header.page_count;
                self.disk.main_pages.retain(|page, _| *page < count);
                self.disk.main_len = count as usize * PAGE;
            }
            WriteKind::LogLength => {
                self.disk.frames = 0;
                self.disk.committed_frames = 0;
                self.disk.log_pages.clear();
                self.enter(Entry::CheckpointLogLength);
            }
            // "A raised clock reaches the log header only at a fold".
            WriteKind::LogHeader => self.disk.clock = self.clock,
            WriteKind::OpeningLength => self.open(),
        }
    }

    /// The log's pages are "this session's own commits" too, page 0 as the commit frame has it.
    fn commit(&mut self) {
        self.disk.frames += 1;
        self.disk.committed_frames = self.disk.frames;
        let differing = self.differing();
        self.disk.log_pages.extend(differing);
        if let Some(header) = self.model.given {
            self.disk.log_pages.insert(0, encode_header(&header));
        }
        self.enter(Entry::CommitFrame);
    }

    /// "A clean opening cuts the log at the commit point; its frame count is the frames kept".
    pub fn open(&mut self) {
        self.todo.clear();
        self.disk.frames = self.disk.committed_frames;
        self.clock = self.opening_clock();
        if self.wrong == Wrong::ClockStored {
            self.disk.clock = self.clock;
        }
        self.enter(Entry::CleanOpening);
    }

    /// Whether the clock is above the log header's.
    pub fn clock_raised(&self) -> bool {
        self.clock > self.disk.clock
    }

    /// Document 02, P4: "A clean opening therefore takes the larger of the log header's clock and
    /// the greatest commit time among the recovered batches." These are the model's sealed ones.
    fn opening_clock(&self) -> u64 {
        let header = self.disk.clock;
        let times = self.wrong.recovered(&self.model);
        let greatest = times.iter().map(|batch| batch.commit_time).max();
        match (self.wrong, greatest) {
            (Wrong::ClockKept, _) | (_, None) => header,
            (Wrong::SmallerClock, Some(greatest)) => header.min(greatest),
            (_, Some(greatest)) => header.max(greatest),
        }
    }

    /// A clean opening after a cut inside the next write: a main header of which more than its
    /// first 32 bytes are new counts for the main file's own pages.
    pub fn opened_after(&self, bytes: usize) -> Expected {
        let mut expected = self.clone();
        match self.todo.front().map(|planned| &planned.kind) {
            Some(WriteKind::MainHeader) if bytes >= LOG_HEADER => {
                expected.disk.main_count = expected.model.header.page_count;
            }
            Some(WriteKind::MainPage(page)) => expected.disk.lengthen_main(*page, bytes),
            _ => (),
        }
        expected.open();
        expected
    }
}
