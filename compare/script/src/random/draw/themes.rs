//! What a list of a theme does besides.

use super::{Draw, Theme, edits};
use crate::call::{Call, Edit, Opening};
use crate::random::view::View;
use crate::rust::MOST_STAGED;
use crate::side::Area;
use crate::spec::Spec;

const LOG_AREA: usize = 4_210_720;
const FRAME: usize = 4_112;
const PAGE: usize = 4_096;

impl Draw {
    pub(super) fn first_calls(&mut self) -> Vec<Call> {
        let mut calls = Vec::new();
        while self.random.one_in(3) {
            calls.push(self.salt());
        }
        if !self.random.one_in(40) {
            calls.push(Call::Create);
        }
        let (often, seldom) = (self.random.one_in(2), self.random.one_in(12));
        calls.extend(match self.theme {
            Theme::Wide => {
                self.of_pages(&[MOST_STAGED + 1, 300, 1_000, 1_020, 1_023, 1_024, 1_024])
            }
            Theme::Hundred | Theme::Full if often => self.many_frames(),
            _ if seldom => self.of_pages(&[0, 0, 1]),
            _ => Vec::new(),
        });
        calls
    }

    /// Under salt 0 zeros are good frames, of page 0 and uncommitted: so a log
    /// of some hundred frames is made by its length.
    fn many_frames(&mut self) -> Vec<Call> {
        let frames = match self.theme {
            Theme::Hundred => self.random.between(94, 101),
            _ => self.random.between(1_015, 1_024),
        };
        let length = Edit::Truncate(Area::Log, 32 + FRAME * frames);
        let opening = match self.random.one_in(16) {
            true => Opening::ReadOnly,
            false => Opening::ReadWrite,
        };
        vec![
            Call::Salt(0),
            Call::Create,
            Call::Drop,
            Call::Edit(length),
            Call::Open(opening),
        ]
    }

    pub(super) fn of_theme(&mut self, view: &View) -> Vec<Call> {
        match self.theme {
            Theme::General if !self.random.one_in(3) => self.timed_batches(view),
            Theme::General => vec![self.batch()],
            Theme::Damage => self.damaged(view),
            Theme::Hundred => self.near_a_hundred(view),
            Theme::Full => self.full(view),
            Theme::Wide => self.wide(view),
            Theme::UncommittedFrames => self.uncommitted_frames(view),
        }
    }

    /// Batches with times of all sizes, most of them sealed, often behind a
    /// fold that stores a clock; opened in any way; often a fold, and opened
    /// again.
    fn timed_batches(&mut self, view: &View) -> Vec<Call> {
        let (mut clock, count) = (view.state.clock, view.header.page_count);
        let mut calls = Vec::new();
        if self.random.one_in(2) {
            clock = clock.max(self.time(clock));
            calls.extend([Call::Clock(clock), self.commit_to(count), Call::Checkpoint]);
        }
        for _ in 0..self.random.between(1, 3) {
            calls.push(self.timed_batch(clock));
        }
        if !self.random.one_in(5) {
            calls.push(self.commit_to(count));
        }
        if self.random.one_in(4) {
            calls.push(self.timed_batch(clock));
        }
        calls.push(Call::Open(self.opening()));
        if self.random.one_in(2) {
            calls.extend([Call::Checkpoint, Call::Open(self.opening())]);
        }
        calls
    }

    fn damaged(&mut self, view: &View) -> Vec<Call> {
        let mut calls = vec![Call::Drop];
        let some = self.random.between(1, 3);
        let drawn: Vec<_> = (0..some).map(|_| self.edit(view)).collect();
        calls.extend(edits(drawn));
        calls.push(Call::Open(self.opening()));
        calls
    }

    /// Commits of as many pages as it takes, of which the last brings the
    /// frames to 98, 99, 100 or 101.
    pub(super) fn near_a_hundred(&mut self, view: &View) -> Vec<Call> {
        let wanted = self.random.pick(&[98, 99, 99, 100, 100, 101]);
        let mut calls = vec![Call::Clear];
        let mut frames = view.state.frames;
        loop {
            let pages = (wanted - 1usize).saturating_sub(frames).min(MOST_STAGED);
            calls.extend(self.commit_of(view, pages));
            frames += pages + 1;
            if frames >= wanted {
                return calls;
            }
        }
    }

    /// A commit of so many pages that differ, now and then with a page more
    /// than can be staged.
    fn commit_of(&mut self, view: &View, pages: usize) -> Vec<Call> {
        let first = 1 + self.random.below(4) as u32;
        let mut calls = Vec::new();
        for page in (first..).take(pages) {
            let seed = self.random.u64();
            calls.push(Call::Stage(page, Spec::Seed(seed)));
        }
        if pages == MOST_STAGED && self.random.one_in(4) {
            calls.push(self.stage(900));
        }
        let count = view.header.page_count.max(1);
        let header = self.header(count.min(first));
        calls.push(Call::Commit(header));
        calls
    }

    /// The log lengthened to some frames below its area's end, or to a byte
    /// beside that, and a commit or batches that fit just so or don't.
    fn full(&mut self, view: &View) -> Vec<Call> {
        if self.random.one_in(4) {
            let batches = self.random.between(20, 130);
            let batch = self.batch();
            return vec![batch; batches];
        }
        let room = self.random.pick(&[0, 1, 1, 2, 2, 3, 4, 8, MOST_STAGED + 1]);
        let beside = self
            .random
            .pick(&[LOG_AREA - 1, LOG_AREA, LOG_AREA, LOG_AREA + 1]);
        let length = beside - FRAME * room;
        let mut calls = vec![
            Call::Drop,
            Call::Edit(Edit::Truncate(Area::Log, length)),
            Call::Open(
                self.random
                    .pick(&[Opening::ReadWrite, Opening::ReadWrite, Opening::Clean]),
            ),
        ];
        if self.random.one_in(3) {
            calls.push(self.batch());
        }
        let pages = (room + self.random.below(3))
            .saturating_sub(1)
            .min(MOST_STAGED);
        calls.extend((1..).take(pages).map(|page| self.stage(page)));
        calls.push(self.commit_to(view.header.page_count.max(1)));
        calls
    }

    /// A main file of so many pages, made by its length and its page count.
    fn of_pages(&mut self, counts: &[usize]) -> Vec<Call> {
        let count = self.random.pick(counts);
        let mut calls = vec![Call::Drop];
        calls.extend(edits([
            Edit::Truncate(Area::Main, count.max(2) * PAGE),
            Edit::Put(Area::Main, 20, (count as u32).to_le_bytes().to_vec()),
        ]));
        calls.push(Call::Open(self.opening()));
        calls
    }

    /// Many pages staged and committed, up to the last that there can be.
    fn wide(&mut self, view: &View) -> Vec<Call> {
        let some = self.random.between(1, MOST_STAGED + 2);
        let mut calls: Vec<_> = (0..some)
            .map(|_| {
                let page = self.random.below(1_024) as u32;
                self.stage(page)
            })
            .collect();
        let count = view.header.page_count;
        let count = self.random.pick(&[count, count, 1_023, 1_024, 1_025, 500]);
        calls.push(self.commit_to(count));
        calls
    }

    /// Uncommitted frames behind the log's end; opened; another commit, which
    /// may take them in; opened again.
    fn uncommitted_frames(&mut self, view: &View) -> Vec<Call> {
        let count = view.header.page_count;
        let mut calls = vec![Call::Drop];
        for _ in 0..self.random.between(1, 3) {
            let page = self.random.between(1, count.clamp(2, 40) as usize) as u32;
            let frame = match self.random.below(5) {
                0 => self.frame(),
                1 => Edit::Frame(u32::MAX, 0, Spec::Inline(self.body())),
                _ => Edit::Frame(page, 0, self.content()),
            };
            calls.push(Call::Edit(frame));
        }
        let plain = Opening::ReadWrite;
        calls.push(Call::Open(self.random.pick(&[
            plain,
            plain,
            plain,
            Opening::Clean,
        ])));
        calls.extend(self.stage_some(count, 2));
        calls.push(self.commit_to(count));
        if self.random.one_in(5) {
            calls.push(Call::Checkpoint);
        }
        calls.extend([Call::Drop, Call::Open(self.opening()), Call::Pages]);
        calls
    }
}
