//! Draws the next call of a random history. It looks at the expected state, to come near the
//! borders, but every call that it gives is one that a caller could make at any time.
use crate::batch;
use crate::call::{AreaName, Call, Fault};
use crate::expected::Expected;
use crate::judge::{AUTO_CHECKPOINT_THRESHOLD_FRAMES, LOG_FRAMES, STAGED};
use crate::model::{Header, PAGE};
use crate::writes::FRAME;
use splitmix::Random;

/// What a history works towards for some time.
#[derive(Clone, Copy, Debug)]
enum Goal {
    /// So many frames in the log, by batches.
    Frames(usize),
    /// So many pages.
    Count(u32),
    /// So many pages staged; more than [`STAGED`] can't be.
    Staged(usize),
    /// A commit.
    Commit,
}

pub struct Drawer {
    pub random: Random,
    /// Page counts stay about here, but for goals.
    most_pages: u32,
    left: usize,
    goals: Vec<Goal>,
    /// A commit with its previews, the last of them first.
    pending: Vec<Call>,
}

/// How a call is to be made.
pub enum Next {
    Call(Call),
    /// Cut at every write.
    Cut(Call),
    /// A new store.
    Create,
}

impl Drawer {
    pub fn new(seed: u64) -> Drawer {
        let random = Random::new(seed);
        let mut drawer = Drawer {
            random,
            most_pages: 0,
            left: 0,
            goals: Vec::new(),
            pending: Vec::new(),
        };
        drawer.new_history();
        drawer
    }

    fn new_history(&mut self) {
        let random = &mut self.random;
        self.most_pages = random.pick(&[3, 5, 8, 8, 12, 12, 30, 30, 60, 130]);
        self.left = random.pick(&[15, 40, 40, 80, 200]);
        self.goals.clear();
        if random.one_in(4) {
            self.goals.push(Goal::Count(self.most_pages));
        }
        if random.one_in(12) {
            let count = random.pick(&[250, 254, 257, 300, 513, 1024]);
            self.goals
                .extend([Goal::Count(self.most_pages), Goal::Count(count)]);
        }
        if random.one_in(12) {
            self.goals.push(Goal::Commit);
            self.near(LOG_FRAMES);
        }
    }

    /// Goals after which a commit, if all that is staged differs, brings the log to so many
    /// frames, or one less or more.
    fn near(&mut self, frames: usize) {
        let staged = self.random.below(4);
        let before = frames - staged - self.random.between(0, 2);
        let goals = [Goal::Commit, Goal::Staged(staged), Goal::Frames(before)];
        self.goals.extend(goals);
    }

    pub fn next(&mut self, expected: &Expected) -> Next {
        if self.left == 0 && self.pending.is_empty() {
            self.new_history();
            return Next::Create;
        }
        let pending = self.pending.pop();
        let call = pending.unwrap_or_else(|| self.draw_previewed(expected));
        self.cut_or_not(call, expected)
    }

    /// Before most commits comes their preview, and before that often another.
    fn draw_previewed(&mut self, expected: &Expected) -> Call {
        let call = self.draw(expected);
        let (Call::Commit(header, _) | Call::BeginCommit(header, _)) = call else {
            return call;
        };
        self.pending.push(call);
        if !self.random.one_in(4) {
            self.pending.push(Call::Preview(header));
        }
        match self.random.one_in(2) {
            true => self.preview(expected),
            false => self.pending.pop().expect("the commit at least"),
        }
    }

    fn cut_or_not(&mut self, call: Call, expected: &Expected) -> Next {
        let one_in = match &call {
            Call::Commit(..) if matches!(self.goals.last(), Some(Goal::Count(_))) => 10,
            Call::Step => 10,
            Call::Commit(..) => 3,
            Call::Checkpoint(_) | Call::Open => 3,
            Call::Append(_)
                if !self.goals.is_empty()
                    && expected.disk.frames > AUTO_CHECKPOINT_THRESHOLD_FRAMES =>
            {
                3000
            }
            Call::Append(_) if !self.goals.is_empty() => 100,
            Call::Append(_) => 20,
            _ => usize::MAX,
        };
        if one_in < usize::MAX && self.random.one_in(one_in) {
            Next::Cut(call)
        } else {
            Next::Call(call)
        }
    }

    fn draw(&mut self, expected: &Expected) -> Call {
        if expected.busy() && !self.random.one_in(4) {
            return match self.random.one_in(12) {
                true => self.preview(expected),
                false => Call::Step,
            };
        }
        if let Some(call) = self.towards_goal(expected) {
            return call;
        }
        self.left -= 1;
        match self.random.below(100) {
            0..40 => self.stage(expected),
            40..52 => self.commit(expected),
            52..60 => self.begin(expected),
            60..64 => Call::Checkpoint(self.salt()),
            64..72 => Call::Append(batch::draw_body(&mut self.random)),
            72..74 => Call::Read(self.page(expected)),
            74 => self.preview(expected),
            75..77 => Call::Query,
            77..79 => Call::DropStaging,
            79..82 => Call::Clock(self.random.u64() >> self.random.below(64)),
            82..86 => Call::Open,
            86..91 => self.bad_open(expected),
            91..94 => self.short(expected),
            94..96 => Call::Step,
            _ => self.new_goal(expected),
        }
    }

    /// The next call towards the present goal, unless it is reached or there is none; now and
    /// then something else.
    fn towards_goal(&mut self, expected: &Expected) -> Option<Call> {
        let goal = *self.goals.last()?;
        let reached = match goal {
            Goal::Frames(frames) => expected.disk.frames >= frames,
            Goal::Count(count) => expected.model.header.page_count == count,
            Goal::Staged(pages) => expected.model.staged.len() >= pages,
            Goal::Commit => false,
        };
        let patience = match goal {
            Goal::Frames(frames) if frames > AUTO_CHECKPOINT_THRESHOLD_FRAMES => 6000,
            Goal::Count(count) if count > 200 => 3000,
            Goal::Staged(pages) if pages > STAGED => 200,
            _ => 300,
        };
        if reached || self.random.one_in(patience) {
            self.goals.pop();
            return self.towards_goal(expected);
        }
        if self.random.one_in(patience / 3) {
            return None;
        }
        Some(match goal {
            Goal::Frames(_) => Call::Append(batch::encode_short(&batch::draw(&mut self.random))),
            Goal::Staged(_) => {
                let page = self.random.below(STAGED + 16) as u32;
                Call::Stage(page, self.seed(), PAGE)
            }
            Goal::Count(count) => self.towards_count(expected, count),
            Goal::Commit => {
                self.goals.pop();
                self.commit(expected)
            }
        })
    }

    /// Stages what joins, nearly as many pages at once as can be, then commits.
    fn towards_count(&mut self, expected: &Expected, count: u32) -> Call {
        let Header {
            page_count: now, ..
        } = expected.model.header;
        let next = count.min(now + STAGED as u32 - 4);
        let missing = (now..next).find(|page| !expected.model.staged.contains_key(page));
        match missing {
            Some(_) if expected.model.staged.len() >= STAGED => Call::DropStaging,
            Some(page) => Call::Stage(page, self.seed(), PAGE),
            None => {
                let commit = Call::Commit(self.header(expected, next), self.salt());
                // a full log would refuse it for ever
                let fits = expected.judge(&commit).is_ok();
                if fits {
                    commit
                } else {
                    Call::Checkpoint(self.salt())
                }
            }
        }
    }

    fn new_goal(&mut self, expected: &Expected) -> Call {
        let random = &mut self.random;
        match random.below(4) {
            0 => self.near(AUTO_CHECKPOINT_THRESHOLD_FRAMES),
            1 => self
                .goals
                .push(Goal::Staged(random.between(STAGED - 4, STAGED + 1))),
            _ => {
                let count = random.between(1, self.most_pages as usize);
                self.goals.push(Goal::Count(count as u32));
            }
        }
        self.stage(expected)
    }

    fn salt(&mut self) -> u32 {
        self.random.pick(&[0, 1, self.random.clone().u32()])
    }

    /// Few, so that pages are often staged with the bytes that they have.
    fn seed(&mut self) -> u64 {
        self.random.below(5) as u64
    }

    fn page(&mut self, expected: &Expected) -> u32 {
        let count = expected.model.header.page_count;
        match self.random.below(10) {
            0 => self
                .random
                .pick(&[0, count, count + 1, 1023, 1024, 5000, u32::MAX]),
            _ => self.random.u32() % count.max(1),
        }
    }

    fn stage(&mut self, expected: &Expected) -> Call {
        let len = match self.random.below(60) {
            0 => self.random.pick(&[0, 1, PAGE - 1, PAGE + 1]),
            _ => PAGE,
        };
        Call::Stage(self.page(expected), self.seed(), len)
    }

    fn header(&mut self, expected: &Expected, page_count: u32) -> Header {
        let random = &mut self.random;
        let kept = expected.model.header;
        Header {
            page_count,
            schema_root: if random.one_in(3) {
                random.u32()
            } else {
                kept.schema_root
            },
            version: random.pick(&[4, 5, 6, kept.version]),
            freelist_head: if random.one_in(3) {
                random.u32() % 9
            } else {
                kept.freelist_head
            },
        }
    }

    /// Mostly with the page count as it is or lower; else refused.
    fn new_header(&mut self, expected: &Expected) -> Header {
        let count = expected.model.header.page_count;
        let new_count = match self.random.below(20) {
            0 => self.random.pick(&[0, 1025, u32::MAX]),
            1 => count + self.random.u32() % 3,
            2 | 3 => 1 + self.random.u32() % count.max(1),
            4 => 1024,
            _ => count,
        };
        let mut header = self.header(expected, new_count);
        if self.random.one_in(40) {
            header.version = self.random.pick(&[0, 3, 7, 65535]);
        }
        header
    }

    fn commit(&mut self, expected: &Expected) -> Call {
        Call::Commit(self.new_header(expected), self.salt())
    }

    /// One that no commit need follow: more often than a commit it is refused or of fewer pages.
    fn preview(&mut self, expected: &Expected) -> Call {
        let mut header = self.new_header(expected);
        match self.random.below(3) {
            0 => header.version = self.random.pick(&[3, 7]),
            1 => {
                header.page_count = 1 + self.random.u32() % expected.model.header.page_count.max(1)
            }
            _ => (),
        }
        Call::Preview(header)
    }

    fn begin(&mut self, expected: &Expected) -> Call {
        match self.random.below(3) {
            0 => Call::BeginCheckpoint(self.salt()),
            _ => Call::BeginCommit(self.new_header(expected), self.salt()),
        }
    }

    fn bad_open(&mut self, expected: &Expected) -> Call {
        let random = &mut self.random;
        let room = expected.disk.log_len() + FRAME <= lateenbael::sys::LOG_AREA;
        let fault = match random.below(10) {
            0 => Fault::MainAboveArea,
            1 => Fault::LogAboveArea,
            2 => Fault::MainUnderPage,
            3 => Fault::LogUnderHeader,
            4 => random.pick(&[
                Fault::MainByte(3, 3),
                Fault::MainByte(15, 3),
                Fault::MainByte(16, 4),
                Fault::MainByte(19, 5),
            ]),
            5 => random.pick(&[
                Fault::LogByte(0, 3),
                Fault::LogByte(7, 3),
                Fault::LogByte(9, 4),
                Fault::LogByte(14, 5),
            ]),
            6 if expected.disk.main_count > 1 => Fault::MainBelowCount,
            7 if room => Fault::PageZeroBad,
            8 if room => Fault::PageZeroCount(random.pick(&[1025, 70000, u32::MAX])),
            _ => return Call::BadOpen(Fault::ReadOnly, true),
        };
        Call::BadOpen(fault, random.one_in(2))
    }

    /// A call with one of the areas that it is lent too short.
    fn short(&mut self, expected: &Expected) -> Call {
        let any = [
            AreaName::Table,
            AreaName::Log,
            AreaName::Main,
            AreaName::Staging,
        ];
        let area = self.random.pick(&any);
        let call = match self.random.below(9) {
            0 if area == AreaName::Staging => self.stage(expected),
            1 if area == AreaName::Log => Call::Append(batch::draw_body(&mut self.random)),
            2 => Call::Read(self.page(expected)),
            3 => self.commit(expected),
            4 => Call::Checkpoint(1),
            5 => self.begin(expected),
            6 if expected.busy() => Call::Step,
            7 => self.preview(expected),
            _ => Call::Open,
        };
        Call::Short(area, Box::new(call))
    }
}
