//! Commits: those between two checkpoints, and with the checkpoints.

use std::time::Duration;

use lateenbael::sys::STAGED_PAGES;

use super::{Beside, Folder, assert_agreed, begin, in_words};
use crate::files::{self, Differs, Pool};
use crate::side::Side;
use crate::table::Table;
use crate::timing::{clock, each};
use crate::{port, rust};

/// From so many frames on a checkpoint follows a commit.
const AUTO_CHECKPOINT_THRESHOLD_FRAMES: usize = 100;

/// What commits are timed for.
#[derive(Clone, Copy, PartialEq, Eq)]
enum Time {
    /// The commits alone, in memory.
    InMemory,
    /// The commits alone, in files.
    InFiles,
    /// Stagings too, in files.
    Staging,
    /// The checkpoints too that commits bring on, in files.
    Checkpoints,
}

pub fn rows(table: &Table) {
    let folder = Folder::new();
    for pages in [1, 8, STAGED_PAGES] {
        for differs in [Differs::FromTheFirst, Differs::AtTheLast] {
            for time in [Time::InMemory, Time::InFiles, Time::Staging] {
                row(
                    table,
                    &folder,
                    Commits {
                        pages,
                        differs,
                        time,
                    },
                );
            }
        }
        let differs = Differs::FromTheFirst;
        let time = Time::Checkpoints;
        row(
            table,
            &folder,
            Commits {
                pages,
                differs,
                time,
            },
        );
    }
}

fn row(table: &Table, folder: &Folder, commits: Commits) {
    let Commits {
        pages,
        differs,
        time,
    } = commits;
    let what = format!("{}, {}", in_words(pages), differs.name());
    if time == Time::InMemory {
        let what = format!("{what}, in memory");
        let sides = (rust::InMemory::new(), port::InMemory::new(false));
        return commits.row(table, &what, sides, None);
    }
    let rust = rust::InFiles::new(folder.path());
    let sides = (rust, port::InFiles::new(folder.path(), false));
    match time {
        Time::Staging => {
            let what = format!("{what}, files, staging included");
            commits.row(table, &what, sides, beside(folder, pages, differs));
        }
        Time::Checkpoints => {
            let what = format!("{what}, files, staging and folds included");
            commits.row(table, &what, sides, None);
        }
        _ => commits.row(table, &format!("{what}, files"), sides, None),
    }
}

#[cfg(feature = "sqlite")]
fn beside(folder: &Folder, pages: usize, differs: Differs) -> Beside {
    let mut sqlite = crate::sqlite::Sqlite::new(folder.path());
    let mut pool = Pool::new(differs);
    let commits = in_a_row(pages);
    let sample = move || {
        sqlite.checkpoint_and_commit();
        let times = (0..commits).map(|_| clock(|| sqlite.commit(&mut pool, pages)));
        let time = each(times.sum(), commits);
        sqlite.assert_holds(&pool);
        time
    };
    Some(("SQLite", Box::new(sample)))
}

#[cfg(not(feature = "sqlite"))]
fn beside(_: &Folder, _: usize, _: Differs) -> Beside {
    None
}

/// As many as bring on no checkpoint.
pub fn in_a_row(pages: usize) -> usize {
    (AUTO_CHECKPOINT_THRESHOLD_FRAMES - 1) / (pages + 1)
}

/// Commits of so many pages.
#[derive(Clone, Copy)]
pub struct Commits {
    pages: usize,
    differs: Differs,
    time: Time,
}

impl Commits {
    /// Timed alone.
    pub fn alone(pages: usize, differs: Differs) -> Self {
        let time = Time::InMemory;
        Self {
            pages,
            differs,
            time,
        }
    }

    fn row(self, table: &Table, what: &str, sides: (impl Side, impl Side), beside: Beside) {
        let (mut rust, mut port) = sides;
        let (main, log) = (files::main(), files::empty_log());
        let mut pools = [0; 2].map(|_| Pool::new(self.differs));
        let [for_rust, for_port] = &mut pools;
        begin(&mut rust, &main, &log);
        begin(&mut port, &main, &log);
        self.sample(&mut rust, for_rust);
        self.sample(&mut port, for_port);
        assert_agreed(&rust, &port);
        let rust = Box::new(|| self.sample(&mut rust, for_rust));
        let port = Box::new(|| self.sample(&mut port, for_port));
        table.row(what, rust, port, beside);
    }

    /// The mean of the commits between two checkpoints, or with them.
    pub fn sample(self, side: &mut impl Side, pool: &mut Pool) -> f64 {
        let mut commits = in_a_row(self.pages);
        if self.time == Time::Checkpoints {
            // The last of them brings on a checkpoint.
            commits += 1;
        } else {
            side.checkpoint();
        }
        let times = (0..commits).map(|_| self.commit(side, pool));
        each(times.sum(), commits)
    }

    fn commit(self, side: &mut impl Side, pool: &mut Pool) -> Duration {
        let staging = clock(|| {
            for _ in 0..self.pages {
                let (page_num, page) = pool.next();
                side.stage(page_num, page);
            }
        });
        let mut written = 0;
        let time = clock(|| written = side.commit());
        assert_eq!(written, self.pages);
        match self.time {
            Time::InMemory | Time::InFiles => time,
            Time::Staging | Time::Checkpoints => staging + time,
        }
    }
}
