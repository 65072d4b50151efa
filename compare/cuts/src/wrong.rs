//! Wrong models, wrong orders of writes, a wrong opening, wrong clocks, countings and previews, each
//! of which the comparison must find: `cuts SEED COUNT --wrong NAME`.
use crate::batch::Batch;
use crate::call::Call;
use crate::expected::Expected;
use crate::judge::{AUTO_CHECKPOINT_THRESHOLD_FRAMES, Preview, Refused};
use crate::model::{Entry, Header, Model, PAGE};
use crate::writes::{FRAME, WriteKind};
use std::rc::Rc;

#[derive(Clone, Copy, Debug, PartialEq, Eq)]
pub enum Wrong {
    /// Nothing is.
    Not,
    /// The opening after a cut is plain.
    PlainOpening,
    /// The log's length is stored before the main header.
    HeaderLate,
    /// The log's length is stored before the main pages.
    LogFirst,
    /// The commit frame is written before the pages.
    CommitFrameFirst,
    /// A file's first 32 bytes are cut anywhere.
    TornHeader,
    /// A frame lengthens the log at once, and is then filled from its front.
    LengthFirst,
    /// The model takes a refused commit for a good one.
    RefusedEnters,
    /// The model drops no batches at a checkpoint.
    BatchesStay,
    /// The model keeps batches waiting over an opening.
    WaitingStays,
    /// The model keeps the staging over an opening.
    StagingStays,
    /// The model enters a commit at its beginning.
    EarlyCommit,
    /// The model takes no batch.
    BatchesNever,
    /// The model keeps pages at or above the new count.
    PagesStay,
    /// A text's bytes are taken for its characters.
    BytesCounted,
    /// A batch's records are taken for its items, without their columns.
    RecordsCounted,
    /// An opening's clock is the log header's, whatever the batches' times.
    ClockKept,
    /// The smaller of the two is taken.
    SmallerClock,
    /// The time of the last batch is taken for the greatest.
    LastTime,
    /// A batch that waited counts for the opening's clock.
    WaitingCounts,
    /// The opening stores the clock that it takes.
    ClockStored,
    /// A preview shows a checkpoint from 101 frames on.
    PreviewAt101,
    /// It leaves out the commit frame.
    PreviewWithoutCommitFrame,
    /// It takes every staged page for one that differs.
    PreviewOfAllStaged,
    /// The main length behind a checkpoint is that of the old page count.
    PreviewOldCount,
    /// It is the present one.
    PreviewMainKept,
    /// Without a checkpoint it is that of the new page count.
    PreviewMainOfCount,
    /// It shows the log before the checkpoint.
    PreviewBeforeCheckpoint,
    /// 13 is judged before 9.
    PreviewHeaderFirst,
    /// 14 is judged before 13.
    PreviewJoiningFirst,
    /// It empties the staging, as the commit would.
    PreviewClears,
}

pub const ALL: [(&str, Wrong); 30] = [
    ("plain-opening", Wrong::PlainOpening),
    ("header-late", Wrong::HeaderLate),
    ("log-first", Wrong::LogFirst),
    ("seal-first", Wrong::CommitFrameFirst),
    ("torn-header", Wrong::TornHeader),
    ("length-first", Wrong::LengthFirst),
    ("refused-enters", Wrong::RefusedEnters),
    ("batches-stay", Wrong::BatchesStay),
    ("waiting-stays", Wrong::WaitingStays),
    ("staging-stays", Wrong::StagingStays),
    ("early-seal", Wrong::EarlyCommit),
    ("batches-never", Wrong::BatchesNever),
    ("pages-stay", Wrong::PagesStay),
    ("bytes-counted", Wrong::BytesCounted),
    ("records-counted", Wrong::RecordsCounted),
    ("clock-kept", Wrong::ClockKept),
    ("smaller-clock", Wrong::SmallerClock),
    ("last-time", Wrong::LastTime),
    ("waiting-counts", Wrong::WaitingCounts),
    ("clock-stored", Wrong::ClockStored),
    ("preview-at-101", Wrong::PreviewAt101),
    ("preview-no-seal", Wrong::PreviewWithoutCommitFrame),
    ("preview-all-staged", Wrong::PreviewOfAllStaged),
    ("preview-old-count", Wrong::PreviewOldCount),
    ("preview-main-kept", Wrong::PreviewMainKept),
    ("preview-main-of-count", Wrong::PreviewMainOfCount),
    ("preview-before-fold", Wrong::PreviewBeforeCheckpoint),
    ("preview-13-before-9", Wrong::PreviewHeaderFirst),
    ("preview-14-before-13", Wrong::PreviewJoiningFirst),
    ("preview-clears", Wrong::PreviewClears),
];

impl Wrong {
    pub fn from_name(name: &str) -> Option<Wrong> {
        ALL.iter()
            .find(|(known, _)| *known == name)
            .map(|(_, wrong)| *wrong)
    }

    /// Gives the model what it is to be given, or something wrong.
    pub fn enter(self, model: &mut Model, entry: Entry) {
        match (self, &entry) {
            (Wrong::BatchesStay, Entry::CheckpointLogLength)
            | (Wrong::BatchesNever, Entry::BatchFrame(_)) => (),
            (Wrong::WaitingStays, Entry::CleanOpening) => {
                let waiting = std::mem::take(&mut model.waiting);
                model.enter(entry);
                model.waiting = waiting;
            }
            (Wrong::StagingStays, Entry::CleanOpening) => {
                let staged = std::mem::take(&mut model.staged);
                model.enter(entry);
                model.staged = staged;
            }
            (Wrong::PagesStay, Entry::CommitFrame) => {
                let pages = model.pages.clone();
                model.enter(entry);
                model.pages = pages
                    .into_iter()
                    .chain(std::mem::take(&mut model.pages))
                    .collect();
            }
            (Wrong::EarlyCommit, Entry::Commit(_)) => {
                model.enter(entry);
                model.enter(Entry::CommitFrame);
            }
            _ => model.enter(entry),
        }
    }

    /// The batches whose times count for an opening's clock: the sealed ones.
    pub fn recovered(self, model: &Model) -> Vec<Rc<Batch>> {
        match self {
            Wrong::LastTime => model.committed.last().into_iter().cloned().collect(),
            Wrong::WaitingCounts => [&model.committed[..], &model.waiting].concat(),
            _ => model.committed.clone(),
        }
    }

    /// What a preview shows of a commit that isn't refused, or something wrong.
    pub fn preview(self, right: Preview, before: &Expected, header: &Header) -> Preview {
        let frames = before.disk.frames + right.answer + 1;
        let log_len = before.disk.log_len() + FRAME * (right.answer + 1);
        let main_len = before.disk.main_len;
        let of_count = |count: u32| Preview {
            main_len: count as usize * PAGE,
            ..right
        };
        match (self, right.checkpoints) {
            (Wrong::PreviewAt101, true) if frames == AUTO_CHECKPOINT_THRESHOLD_FRAMES => Preview {
                frames,
                log_len,
                main_len,
                checkpoints: false,
                ..right
            },
            (Wrong::PreviewWithoutCommitFrame, false) => Preview {
                frames: frames - 1,
                log_len: log_len - FRAME,
                ..right
            },
            (Wrong::PreviewOfAllStaged, _) => Preview {
                answer: before.model.staged.len(),
                ..right
            },
            (Wrong::PreviewOldCount, true) => of_count(before.model.header.page_count),
            (Wrong::PreviewMainKept, true) => Preview { main_len, ..right },
            (Wrong::PreviewMainOfCount, false) => of_count(header.page_count),
            (Wrong::PreviewBeforeCheckpoint, true) => Preview {
                frames,
                log_len,
                ..right
            },
            _ => right,
        }
    }

    /// What a preview judges before all else: nothing.
    pub fn judge_preview(self, before: &Expected, header: &Header) -> Result<(), Refused> {
        match (self, before.missing(header)) {
            (Wrong::PreviewHeaderFirst, _) if header.is_bad() => Err((13, 0)),
            (Wrong::PreviewJoiningFirst, Some(page)) if !before.busy() => Err((14, page as usize)),
            _ => Ok(()),
        }
    }

    /// What a preview does to the model: nothing.
    pub fn previewed(self, model: &mut Model) {
        if self == Wrong::PreviewClears {
            model.enter(Entry::DropStaging);
        }
    }

    /// What a refused call does to the model.
    pub fn refused(self, call: &Call, model: &mut Model) {
        if let (Wrong::RefusedEnters, Call::Commit(header, _)) = (self, call) {
            model.enter(Entry::Commit(*header));
            model.enter(Entry::CommitFrame);
        }
    }

    /// The place of a write of that kind among others in the order in which they reach the files:
    /// lower ones first, equal ones as they came.
    pub fn rank(self, kind: &WriteKind) -> u32 {
        match (self, kind) {
            (Wrong::HeaderLate, WriteKind::MainHeader) => 1,
            (
                Wrong::LogFirst,
                WriteKind::MainPage(_) | WriteKind::MainHeader | WriteKind::MainLength,
            ) => 1,
            (Wrong::CommitFrameFirst, WriteKind::CommitFrame) => 0,
            (Wrong::CommitFrameFirst, WriteKind::PageFrame) => 1,
            (Wrong::CommitFrameFirst, _) => 2,
            _ => 0,
        }
    }
}
