//! Random calls. Each is drawn by the store as it is, so that most of them
//! get somewhere; a list has a theme, so that its calls belong together.

mod closed;
mod commit;
mod content;
mod opened;
mod themes;

use std::collections::VecDeque;

use splitmix::Random;

use super::view::View;
use crate::call::{Call, Edit};
use crate::side::Cut;

#[derive(Debug, Clone, Copy, PartialEq, Eq)]
pub enum Theme {
    General,
    Damage,
    /// Around 99 and 100 frames.
    Hundred,
    /// Around the end of the log's area.
    Full,
    /// Many pages.
    Wide,
    /// Uncommitted frames, document 01's old tail, that a plain opening keeps.
    UncommittedFrames,
}

impl Theme {
    /// As a run's counts name it.
    pub fn name(self) -> &'static str {
        match self {
            Self::General => "General",
            Self::Damage => "Damage",
            Self::Hundred => "Hundred",
            Self::Full => "Full",
            Self::Wide => "Wide",
            Self::UncommittedFrames => "Tails",
        }
    }
}

pub struct Draw {
    random: Random,
    pub theme: Theme,
    /// Calls that belong together are drawn together.
    queue: VecDeque<Call>,
    /// Openings since a store was last open.
    openings: usize,
}

impl Draw {
    pub fn new(seed: u64) -> Self {
        let mut random = Random::new(seed);
        let theme = match random.below(100) {
            0..35 => Theme::General,
            35..55 => Theme::Damage,
            55..68 => Theme::Hundred,
            68..77 => Theme::Full,
            77..81 => Theme::Wide,
            _ => Theme::UncommittedFrames,
        };
        let mut draw = Self {
            random,
            theme,
            queue: VecDeque::new(),
            openings: 0,
        };
        let first = draw.first_calls();
        draw.queue.extend(first);
        draw
    }

    /// How many calls the list is to have.
    pub fn length(&mut self) -> usize {
        match self.theme {
            Theme::Hundred => 100 + self.random.below(300),
            Theme::Wide => 20 + self.random.below(120),
            _ => 20 + self.random.below(180),
        }
    }

    pub fn next(&mut self, view: &View) -> Call {
        loop {
            if let Some(call) = self.queue.pop_front() {
                return call;
            }
            let calls = match view.open {
                true => self.on_open_store(view),
                false => self.on_no_store(view),
            };
            self.queue.extend(with_previews(&calls));
        }
    }

    /// A cut after a few writes, or far into a long call.
    fn cut(&mut self, view: &View) -> Call {
        let stores = match self.random.below(16) {
            0..4 => 0,
            4..9 => self.random.below(3),
            9..13 => self.random.below(8),
            13..15 => self.random.below(view.state.staged + 8),
            _ => self.random.below(120),
        };
        let any = self.random.below(4_200) as u64;
        let bytes = self.random.pick(&[
            0, 1, 8, 12, 15, 16, 17, 31, 32, 33, 2_048, 4_095, 4_096, 4_111, 4_112, 9_999, any, any,
        ]);
        Call::Cut(Cut { stores, bytes })
    }

    /// Salts come again, also 0, so that frames of another time are good.
    fn salt(&mut self) -> Call {
        let any = self.random.u32();
        Call::Salt(self.random.pick(&[0, 0, 1, 1, 7, any]))
    }
}

/// A preview before each commit, and before the cut that the commit meets.
fn with_previews(calls: &[Call]) -> Vec<Call> {
    let mut all = Vec::new();
    for (index, call) in calls.iter().enumerate() {
        let (before, next) = (calls[..index].last(), calls.get(index + 1));
        let header = match (before, call, next) {
            (Some(Call::Cut(_)), Call::Commit(_), _) => None,
            (_, Call::Commit(header), _) => Some(header),
            (_, Call::Cut(_), Some(Call::Commit(header))) => Some(header),
            _ => None,
        };
        all.extend(header.copied().map(Call::Preview));
        all.push(call.clone());
    }
    all
}

fn edits(edits: impl IntoIterator<Item = Edit>) -> impl Iterator<Item = Call> {
    edits.into_iter().map(Call::Edit)
}

#[cfg(test)]
mod tests {
    use super::*;
    use crate::call;

    #[test]
    fn previews_stand_before_commits_and_their_cuts() {
        let list = |lines: &[&str]| -> Vec<Call> {
            let calls = lines.iter().map(|line| call::parse(line));
            calls.map(|call| call.unwrap().unwrap()).collect()
        };
        let drawn = list(&[
            "commit 2 1 4 0",
            "commit 3 1 4 0",
            "cut 1 2",
            "fold",
            "stage 1 1",
            "cut 0 5",
            "commit 2 1 5 0",
        ]);
        let wanted = list(&[
            "preview 2 1 4 0",
            "commit 2 1 4 0",
            "preview 3 1 4 0",
            "commit 3 1 4 0",
            "cut 1 2",
            "fold",
            "stage 1 1",
            "preview 2 1 5 0",
            "cut 0 5",
            "commit 2 1 5 0",
        ]);
        assert_eq!(with_previews(&drawn), wanted);
    }
}
