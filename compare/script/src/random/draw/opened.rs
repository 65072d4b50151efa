//! Calls on an open store.

use super::{Draw, Theme};
use crate::call::{Call, Opening};
use crate::random::view::View;

impl Draw {
    pub(super) fn on_open_store(&mut self, view: &View) -> Vec<Call> {
        self.openings = 0;
        if view.read_only && self.random.one_in(5) {
            return vec![Call::Drop];
        }
        let count = view.header.page_count;
        match self.random.below(100) {
            0..12 => {
                let page = self.page(count);
                vec![self.stage(page)]
            }
            12..15 => self.preview(view),
            15..17 => self.stage_some(count, 12),
            17..43 => self.commit(view),
            43..52 => vec![self.batch()],
            52..56 => vec![Call::Checkpoint],
            56..60 => vec![Call::Read(self.page(count))],
            60 => vec![Call::Clear],
            61..64 => vec![self.clock(view)],
            64..68 => vec![self.look()],
            68..73 => vec![Call::Drop],
            73..77 => vec![Call::Open(self.opening())],
            77..79 => vec![self.salt()],
            79 if self.random.one_in(3) => vec![Call::Create],
            79..91 => self.cut_call(view),
            _ => self.of_theme(view),
        }
    }

    fn clock(&mut self, view: &View) -> Call {
        let clock = view.state.clock;
        let near = clock.wrapping_add(self.random.below(3) as u64);
        let any = self.random.u64() >> self.random.below(64);
        let value = [near, near, clock.saturating_sub(1), any, u64::MAX];
        match self.random.one_in(12) {
            true => Call::Clock(self.random.pick(&value)),
            false => Call::Clock(near),
        }
    }

    /// What only looks. Listings take longest.
    fn look(&mut self) -> Call {
        match self.random.below(12) {
            0..3 => Call::Header,
            3..6 => Call::State,
            6..9 => Call::Batches,
            9 | 10 => Call::Pages,
            _ => Call::Loglist,
        }
    }

    pub(super) fn opening(&mut self) -> Opening {
        match self.random.below(20) {
            0..9 => Opening::ReadWrite,
            9..17 => Opening::Clean,
            _ => Opening::ReadOnly,
        }
    }

    /// A call that is cut; what is staged for it comes before the cut.
    fn cut_call(&mut self, view: &View) -> Vec<Call> {
        let mut calls = match self.random.below(20) {
            0..11 => self.commit(view),
            11..15 => vec![Call::Checkpoint],
            15..17 => vec![self.batch()],
            17 => vec![Call::Open(self.opening())],
            18 => vec![Call::Create],
            _ if self.theme == Theme::Hundred => self.near_a_hundred(view),
            _ => vec![Call::Read(1)],
        };
        let last = calls.len() - 1;
        let cut = self.cut(view);
        calls.insert(last, cut);
        calls
    }
}
