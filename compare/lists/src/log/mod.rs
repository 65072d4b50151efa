//! log_replay: what opening a log with wal.rs's `Wal` finds in it.
//!
//! A case describes the log, in the byte code of recipe.rs; the answer is
//! what the program `loglist` prints.

mod at_random;
#[cfg(any(test, feature = "port"))]
pub mod at_scale;
mod batches;
#[cfg(test)]
mod by_document;
mod commit_frames;
mod cuts;
mod damaged;
mod garbage;
mod headers;
pub mod oracle;
mod recipe;
mod zeros;

use crate::cases::Cases;
use crate::list::List;

pub fn list() -> List {
    List {
        name: "log_replay",
        longest: 512,
        room: 299_999,
        cases: cases(),
        preamble: Vec::new(),
        answer,
    }
}

fn answer(case: &[u8]) -> String {
    oracle::listed(&recipe::build(case))
}

fn cases() -> Vec<Vec<u8>> {
    let mut cases = Cases::default();
    headers::add_all(&mut cases);
    cuts::add_all(&mut cases);
    damaged::add_all(&mut cases);
    commit_frames::add_all(&mut cases);
    batches::add_all(&mut cases);
    zeros::add_all(&mut cases);
    garbage::add_all(&mut cases);
    at_random::logs(&mut cases);
    cases.into_vec()
}

/// Where a frame begins.
fn place(index: usize) -> usize {
    32 + 4_112 * index
}

#[cfg(test)]
mod tests {
    use super::*;
    use engine::sql::pager::pager::AccessMode;
    use engine::sql::pager::wal::Wal;
    use stand_in::path::Path;
    use stand_in::world;
    use std::collections::BTreeMap;

    #[test]
    fn the_document_says_the_same() {
        for case in cases() {
            assert_eq!(answer(&case), by_document::listed(&recipe::build(&case)));
        }
    }

    /// The log cut behind each of its good frames: these are found as
    /// before, and none but these.
    #[test]
    fn a_log_cut_between_frames_has_those_before() {
        for case in cases() {
            let log = recipe::build(&case);
            let all = oracle::listed(&log);
            let lines: Vec<_> = all.lines().collect();
            for frames in 0..lines.len().saturating_sub(2) {
                let cut = oracle::listed(&log[..place(frames)]);
                let mut kept: Vec<_> = cut.lines().collect();
                let end = kept.pop().unwrap();
                assert_eq!(kept, lines[..1 + frames]);
                assert!(end.starts_with(&format!("end {frames} ")));
            }
        }
    }

    #[test]
    fn reading_only_finds_the_same() {
        let path = Path::from("log");
        let found = |mode| match Wal::open_with_mode(&path, mode) {
            Ok(wal) => format!("{wal:?} {:?}", wal.recovered_mvcc_commits()),
            Err(error) => error.to_string(),
        };
        for case in cases() {
            world::write_file(&path, &recipe::build(&case));
            assert_eq!(found(AccessMode::ReadOnly), found(AccessMode::ReadWrite));
        }
    }

    #[test]
    fn the_documents_example() {
        let example = "log 3 00000000 0 0\n0 page 1 0\n1 page 1 2\nend 2 8256 2";
        assert_eq!(answer(&cases()[0]), example);
    }

    /// Every refusal, every number of frames, with and without a commit frame.
    #[test]
    fn every_answer_comes_often() {
        let mut found = BTreeMap::new();
        for case in cases() {
            let answer = answer(&case);
            let last = answer.lines().last().unwrap();
            let words: Vec<_> = last.split(' ').collect();
            *found.entry(words[..2].join(" ")).or_insert(0) += 1;
            *found.entry(words[2..].join(" ")).or_insert(0) += 1;
        }
        let often = |answer: &str| found.get(answer).is_some_and(|count| *count >= 10);
        for number in 2..=5 {
            assert!(often(&format!("refused {number}")), "{found:?}");
        }
        for frames in 0..=15 {
            assert!(often(&format!("end {frames}")), "{found:?}");
        }
        assert!(often("32 -"));
    }
}
