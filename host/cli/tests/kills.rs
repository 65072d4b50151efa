//! The program killed at the entry of every one of its system calls in turn, or one of those that change files failing: whatever that
//! leaves, the next calls find a whole store.
//!
//! A killed process loses nothing that it has written, so what is tried here is every order of whole system calls; what a power cut leaves
//! of them is tried on disks in memory by the crate's tests.
mod support;

use std::collections::HashSet;
use std::io;
use std::process::Command;
use support::tracer::{Ending, failed_at, killed_at};
use support::{WorkDir, is_there, skipped};

/// Runs a command that is hurt at its call of that number.
type Hurt = fn(Command, usize) -> io::Result<Ending>;

/// Both ways, with how many calls a command has at the least.
const HURTS: [(Hurt, usize); 2] = [(killed_at, 30), (failed_at, 3)];

/// Calls the line again and again, from the same files, hurt one system call later each time, until it runs to its end. Each state that
/// this leaves the folder in is judged once.
fn at_every_call(dir: &WorkDir, line: &str, judge: impl Fn(&WorkDir)) {
    let start = dir.snapshot();
    for (hurt, least) in HURTS {
        let mut judged = HashSet::new();
        let calls = hurt_at_every_call(dir, line, hurt, |dir| {
            if judged.insert(dir.snapshot()) {
                judge(dir);
            }
            dir.restore(&start);
        });
        assert!(
            calls.is_none_or(|calls| calls > least && judged.len() > 1),
            "{line}: {calls:?} calls"
        );
    }
}

/// The same with every state judged, from which the next call starts: how many calls there were, or none where a process can't be traced.
fn hurt_at_every_call(dir: &WorkDir, line: &str, hurt: Hurt, mut judge: impl FnMut(&WorkDir)) -> Option<usize> {
    for call in 0.. {
        let ending = match hurt(dir.command(line), call) {
            Ok(ending) => ending,
            Err(error) if call == 0 => {
                skipped(line, &format!("a process can't be traced here: {error}"));
                return None;
            }
            Err(error) => panic!("{line}, call {call}: {error}"),
        };
        let _context = Context { line, call };
        if let Ending::Failed(status) = ending {
            // 0 where it was to take away what need not go.
            assert!(status == 0 || status == 1, "{status}");
        }
        judge(dir);
        if let Ending::Exited(status) = ending {
            assert_eq!(status, 0, "{line}");
            return Some(call);
        }
    }
    None
}

/// Says at which call it was when a judgement panics.
struct Context<'a> {
    line: &'a str,
    call: usize,
}

impl Drop for Context<'_> {
    fn drop(&mut self) {
        if std::thread::panicking() {
            eprintln!("`{}` was hurt at its call {}", self.line, self.call);
        }
    }
}

/// That the store takes another commit, which is read back.
fn takes_a_commit(dir: &WorkDir) {
    dir.done("commit grips 1=p7");
    assert_eq!(dir.pages([1]), [Some(7)]);
}

#[test]
fn creation() {
    let dir = WorkDir::new();
    at_every_call(&dir, "create grips", |dir| {
        let again = dir.call("create grips");
        let made = again.status == 0;
        assert!(made || again.err.contains("already"), "{}", again.err);
        dir.is_whole(2);
        takes_a_commit(dir);
        dir.is_whole(2);
    });
}

#[test]
fn creation_over_a_store() {
    let dir = WorkDir::with_store();
    at_every_call(&dir, "create grips --over", |dir| {
        match is_there(&dir.file("grips")) {
            true => is_old_or_new(dir),
            false => drop(dir.fails("info grips")),
        }
        dir.done("create grips --over");
        dir.is_whole(2);
        takes_a_commit(dir);
        dir.is_whole(2);
    });
}

/// The store of 7 pages with its log, or a new one: never one's main file with the other's log.
fn is_old_or_new(dir: &WorkDir) {
    if dir.done("check grips").starts_with("opens; pages: 2;") {
        let length = |name| std::fs::metadata(dir.file(name)).map(|found| found.len()).ok();
        assert_eq!(length("grips"), Some(8192));
        assert!(matches!(length("grips-wal"), None | Some(32)), "{:?}", length("grips-wal"));
        return;
    }
    dir.is_whole(7);
    assert_eq!(dir.pages(1..7), [1, 2, 3, 8, 5, 6].map(Some));
}

/// That of pages 1 and 3 both are as before or both are 9, the others as before; that another commit is taken, and keeps that.
fn both_or_none(dir: &WorkDir) {
    dir.is_whole(7);
    let found = dir.pages(1..7);
    let old = [1, 2, 3, 8, 5, 6].map(Some);
    let new = [9, 2, 9, 8, 5, 6].map(Some);
    assert!(found == old || found == new, "{found:?}");
    dir.done("commit grips 6=p7");
    dir.is_whole(7);
    assert_eq!(dir.pages(1..6), found[..5]);
    assert_eq!(dir.pages([6]), [Some(7)]);
}

#[test]
fn commit() {
    let dir = WorkDir::with_store();
    at_every_call(&dir, "commit grips 1=p9 3=p9", both_or_none);
}

/// A store whose log has so many frames; page 5 is committed again and again, at last as it was.
fn with_frames(count: usize) -> WorkDir {
    let dir = WorkDir::with_store();
    for n in 0..count / 2 - 1 {
        let page = if n % 2 == 0 { 9 } else { 5 };
        dir.done(&format!("commit grips 5=p{page}"));
    }
    assert!(dir.done("info grips").contains(&format!("frames         {count}\n")));
    dir
}

/// How often the log was emptied by a checkpoint: the fourth word of its listing.
fn sequence(dir: &WorkDir) -> String {
    let listing = dir.done("log grips");
    listing.split_whitespace().nth(3).unwrap().to_string()
}

#[test]
fn commit_that_brings_a_checkpoint() {
    let dir = with_frames(98);
    let (start, before) = (dir.snapshot(), sequence(&dir));
    dir.done("commit grips 1=p9 3=p9");
    assert_ne!(sequence(&dir), before, "no checkpoint came");
    dir.restore(&start);
    at_every_call(&dir, "commit grips 1=p9 3=p9", both_or_none);
}

#[test]
fn checkpoint() {
    let dir = WorkDir::with_store();
    dir.done("commit grips 1=p9 3=p9");
    at_every_call(&dir, "checkpoint grips", |dir| {
        assert_eq!(dir.pages(1..7), [9, 2, 9, 8, 5, 6].map(Some));
        both_or_none(dir);
        dir.done("checkpoint grips");
        assert_eq!(dir.pages(1..7), [9, 2, 9, 8, 5, 7].map(Some));
    });
}

#[test]
fn opening_that_cuts_a_tail() {
    let dir = WorkDir::with_store();
    dir.fails("commit grips 5=p9 --cut-after-bytes 4112");
    assert!(dir.done("check grips").contains("good and unsealed: page 5\n"));
    at_every_call(&dir, "commit grips 1=p9 3=p9", both_or_none);
}

#[test]
fn opening_that_makes_a_missing_log() {
    let dir = WorkDir::with_store();
    dir.done("checkpoint grips");
    std::fs::remove_file(dir.file("grips-wal")).unwrap();
    let start = dir.snapshot();
    for line in ["commit grips 1=p9 3=p9", "checkpoint grips"] {
        dir.restore(&start);
        at_every_call(&dir, line, both_or_none);
    }
}

#[test]
fn append() {
    let dir = WorkDir::with_store();
    let text = "batch 1\ntombstone \"cabins\" 7\nbatch 2\npresent \"cabins\" 8\n";
    std::fs::write(dir.file("rows"), text).unwrap();
    std::fs::write(dir.file("more"), "batch 3\n").unwrap();
    at_every_call(&dir, "append grips rows", |dir| {
        dir.is_whole(7);
        let found = dir.done("batches grips");
        assert!(found.is_empty() || found == text, "{found}");
        dir.done("append grips more");
        assert_eq!(dir.done("batches grips"), found + "batch 3\n");
        assert_eq!(dir.pages(1..7), [1, 2, 3, 8, 5, 6].map(Some));
    });
}

/// Over a tail that an opening for writing would cut, and without the log that it would make.
#[test]
fn a_preview_alters_nothing() {
    let dir = WorkDir::with_store();
    dir.fails("commit grips 5=p9 --cut-after-bytes 5000");
    let with_tail = dir.snapshot();
    let mut without_log = with_tail.clone();
    without_log.retain(|name, _| name != "grips-wal");
    for start in [with_tail, without_log] {
        dir.restore(&start);
        for (hurt, _) in HURTS {
            hurt_at_every_call(&dir, "commit grips 1=p9 3=p9 --preview", hurt, |dir| {
                assert!(dir.snapshot() == start)
            });
        }
    }
}

#[test]
fn copy_and_restore() {
    let dir = WorkDir::with_store();
    std::fs::write(dir.file("rows"), "batch 1\ntombstone \"cabins\" 7\n").unwrap();
    dir.done("append grips rows");
    dir.done("dump grips text");
    let text = dir.done("dump grips");
    let start = dir.snapshot();
    for line in ["copy grips other", "restore text other"] {
        dir.restore(&start);
        at_every_call(&dir, line, |dir| {
            match is_there(&dir.file("other")) {
                true => assert_eq!(dir.done("dump other"), text),
                false => drop(dir.fails("info other")),
            }
            let again = dir.call(line);
            assert!(again.status == 0 || again.err.contains("already"), "{}", again.err);
            assert_eq!(dir.done("dump other"), text);
            assert_eq!(dir.done("dump grips"), text);
        });
    }
}

/// What fails to be made leaves no file behind: if it left one under its name, the next call would find it.
#[test]
fn a_failed_creation_leaves_no_file() {
    let dir = WorkDir::with_store();
    dir.done("dump grips text");
    let start = dir.snapshot();
    for line in [
        "create other",
        "create other --over",
        "copy grips other",
        "restore text other",
        "read grips 1 other",
        "dump grips other",
    ] {
        hurt_at_every_call(&dir, line, failed_at, |dir| {
            assert!(is_there(&dir.file("other")) || dir.snapshot() == start);
        });
        assert!(is_there(&dir.file("other")), "{line}");
        dir.restore(&start);
    }
}
