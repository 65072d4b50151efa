//! Commits, with what is staged for them.

use engine::sql::pager::header::DbHeader;

use super::Draw;
use crate::call::Call;
use crate::random::view::View;
use crate::rust::MOST_STAGED;

impl Draw {
    /// A commit of any kind, its stagings before it. The commit is last.
    pub(super) fn commit(&mut self, view: &View) -> Vec<Call> {
        let count = view.header.page_count;
        match self.random.below(60) {
            0..18 => vec![self.commit_to(count)],
            18..30 => {
                let more = self.random.between(1, 4) as u32;
                self.grow(count, count + more)
            }
            30..39 => {
                let fewer = self.random.between(1, count.max(1) as usize);
                vec![self.commit_to(fewer as u32)]
            }
            39..41 => vec![Call::Commit(self.bad_header(count))],
            41..44 => {
                let more = self.random.between(1, MOST_STAGED + 6) as u32;
                vec![self.commit_to(count + more)]
            }
            44 => {
                let more = self.random.between(5, MOST_STAGED + 2) as u32;
                self.grow(count, count + more)
            }
            45 => self.grow(count, 1_025.min(count + MOST_STAGED as u32)),
            46..50 => self.behind_the_count(view),
            _ => {
                let mut calls = self.stage_some(count, 6);
                calls.push(self.commit_to(count));
                calls
            }
        }
    }

    /// A preview of any commit that isn't made, with or without the stagings
    /// that it would need.
    pub(super) fn preview(&mut self, view: &View) -> Vec<Call> {
        let mut calls = self.commit(view);
        if self.random.one_in(2) {
            calls.drain(..calls.len() - 1);
        }
        let previews = calls.into_iter().map(|call| match call {
            Call::Commit(header) => Call::Preview(header),
            staging => staging,
        });
        previews.collect()
    }

    pub(super) fn commit_to(&mut self, page_count: u32) -> Call {
        let header = self.header(page_count);
        match self.random.one_in(30) {
            true => Call::Commit(self.bad_header(page_count)),
            false => Call::Commit(DbHeader {
                page_count,
                ..header
            }),
        }
    }

    pub(super) fn stage(&mut self, page: u32) -> Call {
        Call::Stage(page, self.content())
    }

    /// Stages the pages that join, now and then all but one.
    fn grow(&mut self, old: u32, new: u32) -> Vec<Call> {
        let joining = old.max(1)..new;
        let mut calls: Vec<_> = joining.map(|page| self.stage(page)).collect();
        if !calls.is_empty() && self.random.one_in(8) {
            let left_out = self.random.below(calls.len());
            calls.remove(left_out);
        }
        calls.push(self.commit_to(new));
        calls
    }

    /// Pages at or above the count that is committed, staged twice, as it
    /// may be, with the same bytes.
    fn behind_the_count(&mut self, view: &View) -> Vec<Call> {
        let count = view.header.page_count;
        let page = count.saturating_add(self.random.below(5) as u32);
        let staging = self.stage(page);
        let mut calls = vec![staging.clone(), self.commit_to(count)];
        if self.random.one_in(2) {
            calls.extend([staging, self.commit_to(count)]);
        }
        calls
    }

    pub(super) fn stage_some(&mut self, count: u32, most: usize) -> Vec<Call> {
        let some = self.random.between(1, most);
        (0..some)
            .map(|_| {
                let page = self.page(count);
                self.stage(page)
            })
            .collect()
    }
}
