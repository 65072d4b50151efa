//! The port, the two files, and beside them the state that the document expects, with its model. A
//! call is given to the port and judged by that state. (`cutting.rs` cuts.)
use crate::call::Call;
use crate::compare::{Check, Untouched, compare_answers, compare_header, compare_pages, ensure};
use crate::expected::Expected;
use crate::files::{DoneWrite, MemoryFiles};
use crate::judge::{Answer, Plan, Preview, Refused};
use crate::model::Header;
use crate::port;
use crate::tally::Tally;
use crate::writes::{LOG_HEADER, PlannedWrite, WriteKind};
use crate::wrong::Wrong;
use lateenbael::Engine;
use splitmix::Random;

pub struct World {
    pub(crate) live: Engine,
    /// Where a cut is opened.
    pub(crate) probe: Engine,
    pub(crate) files: MemoryFiles,
    pub expected: Expected,
    /// "Sealed log bytes: from 32 to the last whole seal's end, until a fold's log length 32."
    pub(crate) committed: Vec<u8>,
    /// What the last call showed, if it was a preview.
    previewed: Option<(Header, Preview)>,
    /// What was shown of the commit under way, or of the one just made.
    pub(crate) promised: Option<Preview>,
    /// All calls since the creation.
    pub history: Vec<Call>,
    pub tally: Tally,
}

/// Areas full of garbage.
fn spoiled_engine(seed: u64) -> Engine {
    let mut engine = Engine::new();
    let mut random = Random::new(seed);
    random.fill(&mut engine.log);
    random.fill(&mut engine.main);
    random.fill(&mut engine.staging);
    engine
}

/// How many of the writes to do a call does itself.
fn writes_in(call: &Call, todo: usize) -> usize {
    match call {
        Call::Step => todo.min(1),
        Call::Append(_) | Call::Commit(..) | Call::Checkpoint(_) | Call::Open => todo,
        _ => 0,
    }
}

impl World {
    pub fn new(wrong: Wrong) -> World {
        let mut world = World {
            live: spoiled_engine(1),
            probe: spoiled_engine(2),
            files: MemoryFiles::default(),
            expected: Expected::created(wrong),
            committed: Vec::new(),
            previewed: None,
            promised: None,
            history: Vec::new(),
            tally: Tally::default(),
        };
        world.create();
        world
    }

    /// A newly created store, in the same areas.
    pub fn create(&mut self) {
        let salt = self.history.len() as u32;
        self.live
            .create(salt)
            .expect("creation refuses wrong areas only");
        self.files.main = self.live.main_file().to_vec();
        self.files.log = self.live.log_file().to_vec();
        self.expected = Expected::created(self.expected.wrong);
        self.committed.clear();
        self.previewed = None;
        self.promised = None;
        self.history.clear();
        self.tally.histories += 1;
    }

    /// Gives the call to the port and compares.
    pub fn call(&mut self, call: &Call) -> Check {
        self.history.push(call.clone());
        self.tally.call(call);
        match call {
            Call::Cut(call, place) => self.cut_at(call, place),
            _ => self.one_call(call),
        }?;
        self.compare_live()
    }

    /// Gives the call to the port, whose answer must be the one wanted. A preview alters nothing.
    pub(crate) fn ask(&mut self, call: &Call, wanted: &Result<Answer, Refused>) -> Check {
        let untouched = matches!(call, Call::Preview(_)).then(|| Untouched::new(&self.live));
        compare_answers(&port::run(&mut self.live, call), wanted)?;
        let holds = untouched.is_none_or(|before| before == Untouched::new(&self.live));
        ensure(holds, || "the preview alters store or areas".into())
    }

    pub(crate) fn one_call(&mut self, call: &Call) -> Check {
        let plan = match self.expected.judge(call) {
            Err(refused) => {
                self.ask(call, &Err(refused))?;
                self.tally.refused(refused.0);
                self.expected.refused(call);
                return Ok(());
            }
            Ok(plan) => plan,
        };
        self.ask(call, &Ok(plan.answer.clone()))?;
        self.start(call, plan);
        for _ in 0..writes_in(call, self.expected.todo.len()) {
            let done = self.in_areas(0);
            self.write_whole(&done);
        }
        Ok(())
    }

    pub(crate) fn start(&mut self, call: &Call, plan: Plan) {
        self.promise(call, &plan.answer);
        if matches!(call, Call::Commit(..) | Call::BeginCommit(..)) {
            let frame = |planned: &&PlannedWrite| {
                matches!(planned.kind, WriteKind::PageFrame | WriteKind::CommitFrame)
            };
            let added = plan.writes.iter().filter(frame).count();
            self.tally.commit(self.expected.disk.frames + added);
        }
        self.expected.start(call, plan);
    }

    /// Keeps what a preview shows for the commit that follows it, until this is done or given up.
    fn promise(&mut self, call: &Call, answer: &Answer) {
        let previewed = self.previewed.take();
        match (call, answer) {
            (Call::Preview(header), Answer::Preview(preview)) => {
                self.previewed = Some((*header, *preview));
            }
            (Call::Commit(header, _) | Call::BeginCommit(header, _), _) => {
                let of_it = previewed.filter(|(of, _)| of == header);
                self.promised = of_it.map(|(_, preview)| preview);
            }
            (Call::Open, _) => self.promised = None,
            _ => (),
        }
    }

    /// A commit that is done has answered and left what its preview showed.
    fn compare_promised(&mut self) -> Check {
        let Some(promised) = self.promised.take() else {
            return Ok(());
        };
        self.tally.promised += 1;
        let log_len = self.live.log_file().len();
        let found = Preview {
            answer: self.expected.number,
            frames: self.live.store().wal.frame_count,
            log_len,
            main_len: self.live.main_file().len(),
            checkpoints: log_len == LOG_HEADER,
        };
        ensure(found == promised, || {
            format!("the commit comes to {found:?}, its preview was {promised:?}")
        })
    }

    /// One of the writes to do, as it stands in the port's areas.
    pub(crate) fn in_areas(&self, index: usize) -> DoneWrite {
        DoneWrite::from_areas(
            self.expected.todo[index].write,
            &self.live.log,
            &self.live.main,
        )
    }

    /// The next write is whole, in the files and for the model.
    pub(crate) fn write_whole(&mut self, done: &DoneWrite) {
        let kind = self.expected.todo[0].kind.clone();
        self.files.write(done);
        self.expected.whole();
        match kind {
            WriteKind::CommitFrame => {
                let new = &self.files.log[LOG_HEADER + self.committed.len()..];
                self.committed.extend_from_slice(new);
            }
            WriteKind::LogLength => self.committed.clear(),
            _ => (),
        }
    }

    /// The open store against model and files.
    pub(crate) fn compare_live(&mut self) -> Check {
        let differs = |file| format!("the {file}'s bytes aren't those stored");
        ensure(self.live.log_file() == self.files.log, || differs("log"))?;
        ensure(self.live.main_file() == self.files.main, || {
            differs("main file")
        })?;
        let main_len = self.expected.disk.main_len;
        ensure(main_len == self.files.main.len(), || {
            format!("by the document the main file has {main_len} bytes")
        })?;
        self.compare_committed()?;
        if self.expected.busy() {
            return Ok(());
        }
        self.compare_promised()?;
        compare_header(&self.live, &self.expected)?;
        let many = matches!(self.history.last(), Some(Call::Append(_) | Call::Stage(..)));
        if many && !self.history.len().is_multiple_of(8) {
            return Ok(());
        }
        compare_pages(&self.live, &self.expected)
    }

    pub(crate) fn compare_committed(&self) -> Check {
        let frames = self.files.log.get(LOG_HEADER..).unwrap_or(&[]);
        ensure(frames.starts_with(&self.committed), || {
            "sealed log bytes are changed".into()
        })
    }
}
