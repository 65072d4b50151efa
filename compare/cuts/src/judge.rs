//! What document 01 says of a call: whether it is refused, what it answers, and the writes it
//! gives the call, in order. From the document alone.
use crate::batch;
use crate::call::{Call, Fault};
use crate::expected::Expected;
use crate::model::{Header, PAGE, Page};
use crate::writes::{FRAME, PlannedWrite, WriteKind, checkpoint_writes, planned_write};
use lateenbael::{Area, Write};
use std::collections::BTreeMap;
use std::rc::Rc;

/// A refusal's number.
pub type Number = u32;

/// A refusal; beside 14 the lowest page.
pub type Refused = (Number, usize);

const LOG_AREA: usize = 4_210_720;
const PAGES: u32 = 1024;
/// Document 02, P9: "refusal 12 when 24 other pages are staged".
pub const STAGED: usize = 24;
/// "Log area 4,210,720 bytes (1,024 frames)".
pub const LOG_FRAMES: usize = 1024;
/// "At 100 frames or more it then folds."
pub const AUTO_CHECKPOINT_THRESHOLD_FRAMES: usize = 100;

/// What a call that isn't refused answers.
#[derive(Clone, Debug, PartialEq, Eq)]
pub enum Answer {
    Nothing,
    Number(usize),
    Begun(bool),
    Stored(Write, Option<usize>),
    Idle,
    Page(Option<Page>),
    /// Header, clock, whether read-only.
    Status(Header, u64, bool),
    Preview(Preview),
}

/// Document 02, P5: "the answer the call would give, the frame count, the log and main lengths
/// afterwards and whether it would fold".
#[derive(Clone, Copy, Debug, PartialEq, Eq)]
pub struct Preview {
    pub answer: usize,
    pub frames: usize,
    pub log_len: usize,
    pub main_len: usize,
    pub checkpoints: bool,
}

/// The answer, and the writes that the call does or begins.
pub struct Plan {
    pub answer: Answer,
    pub writes: Vec<PlannedWrite>,
    /// What a commit or checkpoint answers at its end.
    pub number: usize,
}

fn plan(answer: Answer, writes: Vec<PlannedWrite>, number: usize) -> Plan {
    Plan {
        answer,
        writes,
        number,
    }
}

/// "Lowest number first".
fn lowest(conditions: &[(bool, Number)]) -> Result<(), Refused> {
    let holding = conditions.iter().filter(|(holds, _)| *holds);
    holding
        .map(|(_, number)| *number)
        .min()
        .map_or(Ok(()), |number| Err((number, 0)))
}

impl Header {
    /// "13: commit count 0 or above 1,024, version not 4..6"
    pub fn is_bad(&self) -> bool {
        let count = self.page_count;
        count == 0 || count > PAGES || !(4..=6).contains(&self.version)
    }
}

impl Expected {
    pub fn judge(&self, call: &Call) -> Result<Plan, Refused> {
        match call {
            Call::Append(body) => self.judge_append(body),
            Call::Preview(header) => self
                .judge_preview(header)
                .map(|preview| plan(Answer::Preview(preview), Vec::new(), 0)),
            Call::Commit(header, _) => self.judge_commit(header),
            Call::BeginCommit(header, _) => Ok(Plan {
                answer: Answer::Begun(true),
                ..self.judge_commit(header)?
            }),
            Call::Checkpoint(_) => self.judge_checkpoint(),
            Call::BeginCheckpoint(_) => self.judge_checkpoint().map(|plan| Plan {
                answer: Answer::Begun(!plan.writes.is_empty()),
                ..plan
            }),
            Call::Open => {
                let at = self.disk.commit_point();
                let length = planned_write(WriteKind::OpeningLength, Area::Log, at, 0, true);
                Ok(plan(Answer::Nothing, vec![length], 0))
            }
            Call::BadOpen(fault, read_only) => Err((judge_opening(*fault, *read_only), 0)),
            Call::Short(..) => Err((1, 0)),
            Call::Cut(call, _) => self.judge(call),
            _ => self
                .judge_plain(call)
                .map(|answer| plan(answer, Vec::new(), 0)),
        }
    }

    /// A call that has no writes of its own.
    fn judge_plain(&self, call: &Call) -> Result<Answer, Refused> {
        let busy = (self.busy(), 9);
        match call {
            Call::Step => return Ok(self.step()),
            Call::Stage(page, _, len) => {
                let staged = &self.model.staged;
                let others = staged.len() - usize::from(staged.contains_key(page));
                lowest(&[
                    (*len != PAGE, 1),
                    busy,
                    (*page >= PAGES, 11),
                    (others >= STAGED, 12),
                ])?;
            }
            _ => lowest(&[busy])?,
        }
        Ok(match call {
            Call::Read(page) => Answer::Page(self.read(*page).cloned()),
            Call::Query => Answer::Status(self.model.header, self.clock, false),
            _ => Answer::Nothing,
        })
    }

    /// "Each next-step call does the next store and no other, and names its area, first byte,
    /// length and whether a flush follows; the last also gives the answer."
    fn step(&self) -> Answer {
        let last = (self.todo.len() == 1).then_some(self.number);
        self.todo
            .front()
            .map_or(Answer::Idle, |planned| Answer::Stored(planned.write, last))
    }

    /// "A batch is appended as `encode` writes it, unsealed and with no flush; a body lent for it
    /// is decoded first, with decoding's refusals." A body longer than a page is no batch's area.
    fn judge_append(&self, body: &[u8]) -> Result<Plan, Refused> {
        let head = batch::judge_head(body).err();
        let room = self.disk.log_len() + FRAME <= LOG_AREA;
        lowest(&[
            (body.len() > batch::BODY, 1),
            (head.is_some(), head.unwrap_or(0)),
            (self.busy(), 9),
            (!room, 15),
        ])?;
        let batch = batch::decode(body).map_err(|number| (number, 0))?;
        let frame = planned_write(
            WriteKind::BatchFrame(Rc::new(batch)),
            Area::Log,
            self.disk.log_len(),
            FRAME,
            false,
        );
        Ok(plan(Answer::Stored(frame.write, None), vec![frame], 0))
    }

    /// "14: a page, 1 or higher, from old count to below new count isn't staged": the lowest.
    pub fn missing(&self, header: &Header) -> Option<u32> {
        let mut joining = self.model.header.page_count.max(1)..header.page_count;
        joining.find(|page| !self.model.staged.contains_key(page))
    }

    fn judge_commit(&self, header: &Header) -> Result<Plan, Refused> {
        lowest(&[(self.busy(), 9), (header.is_bad(), 13)])?;
        if let Some(page) = self.missing(header) {
            return Err((14, page as usize));
        }
        let differing = self.differing();
        // "15: length + 4,112 × frames to add is above 4,210,720"
        lowest(&[(
            self.disk.log_len() + FRAME * (differing.len() + 1) > LOG_AREA,
            15,
        )])?;
        let writes = self.commit_writes(&differing, header.page_count);
        Ok(plan(
            Answer::Number(differing.len()),
            writes,
            differing.len(),
        ))
    }

    /// P5: "The preview must equal committing on a copy of all areas, refusals included, and alter
    /// nothing."
    fn judge_preview(&self, header: &Header) -> Result<Preview, Refused> {
        self.wrong.judge_preview(self, header)?;
        let mut copy = self.clone();
        let plan = copy.judge_commit(header)?;
        let of_checkpoint = |planned: &PlannedWrite| matches!(planned.kind, WriteKind::LogLength);
        let checkpoints = plan.writes.iter().any(of_checkpoint);
        copy.start(&Call::Commit(*header, 0), plan);
        while copy.busy() {
            copy.whole();
        }
        let preview = Preview {
            answer: copy.number,
            frames: copy.disk.frames,
            log_len: copy.disk.log_len(),
            main_len: copy.disk.main_len,
            checkpoints,
        };
        Ok(self.wrong.preview(preview, self, header))
    }

    /// "Commit: [differing pages], then page 0 as seal, flush". "At 100 frames or more it then
    /// folds." "The fold that a commit brings on belongs to the commit's stores."
    fn commit_writes(&self, differing: &BTreeMap<u32, Page>, count: u32) -> Vec<PlannedWrite> {
        let last = differing.len();
        let frame = |i: usize| {
            let kind = if i == last {
                WriteKind::CommitFrame
            } else {
                WriteKind::PageFrame
            };
            planned_write(
                kind,
                Area::Log,
                self.disk.log_len() + FRAME * i,
                FRAME,
                i == last,
            )
        };
        let mut writes: Vec<PlannedWrite> = (0..=last).map(frame).collect();
        if self.disk.frames + writes.len() >= AUTO_CHECKPOINT_THRESHOLD_FRAMES {
            let mut pages = self.disk.log_pages.clone();
            pages.extend(differing.clone());
            writes.extend(checkpoint_writes(&pages, count));
        }
        writes
    }

    /// "Fold: with 0 frames and no log pages, 0 and no store." "It answers the pages written."
    fn judge_checkpoint(&self) -> Result<Plan, Refused> {
        lowest(&[(self.busy(), 9)])?;
        if self.disk.frames == 0 && self.disk.log_pages.is_empty() {
            return Ok(plan(Answer::Number(0), Vec::new(), 0));
        }
        let writes = checkpoint_writes(&self.disk.log_pages, self.model.header.page_count);
        let number = writes
            .iter()
            .filter(|planned| matches!(planned.kind, WriteKind::MainPage(_)))
            .count();
        Ok(plan(Answer::Number(number), writes, number))
    }
}

/// "Opening, after 1, judges the main file (2 to 5, then 7), then the log (2 to 5), then 8, then 6
/// for the final count, then 10".
fn judge_opening(fault: Fault, read_only: bool) -> Number {
    match fault {
        Fault::MainAboveArea | Fault::LogAboveArea => 1,
        Fault::MainUnderPage | Fault::LogUnderHeader => 2,
        Fault::MainByte(_, number) | Fault::LogByte(_, number) => number,
        Fault::MainBelowCount => 7,
        Fault::PageZeroBad => 8,
        Fault::PageZeroCount(_) => 6,
        Fault::ReadOnly if read_only => 10,
        Fault::ReadOnly => 0,
    }
}
