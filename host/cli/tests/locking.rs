//! A store that another program has open: waited for, then left alone.
mod common;

use common::{PROGRAM, WorkDir};
use lateenbael::{Mode, Store};
use std::process::{Command, Stdio};
use std::time::{Duration, Instant};

/// Of a preview too the lock is a writer's.
const WRITING: [&str; 6] = [
    "commit grips 1=p1",
    "append grips batch",
    "checkpoint grips",
    "create grips --over",
    "commit grips 1=p1 --preview",
    "append grips batch --preview",
];

fn is_locked(dir: &WorkDir, line: &str) {
    dir.fails(&format!("{line} --wait 0"), 1, "grips: another program has the store open");
}

/// The shortest of three calls: others may be slowed by what else runs.
fn shortest(dir: &WorkDir, line: &str) -> Duration {
    let one = || {
        let begun = Instant::now();
        assert_eq!(dir.call(line).status, 1);
        begun.elapsed()
    };
    one().min(one()).min(one())
}

#[test]
fn a_store_in_use_is_left_alone() {
    let dir = WorkDir::with_store();
    dir.text("batch", "batch 1\n");
    let store = Store::open(dir.path("grips"), Mode::Plain).unwrap();
    for line in WRITING
        .iter()
        .chain(&["info grips", "check grips", "batches grips", "page grips 1"])
    {
        is_locked(&dir, line);
    }
    for line in ["read grips 1 out", "dump grips", "copy grips other"] {
        is_locked(&dir, line);
    }
    assert!(shortest(&dir, "info grips --wait 0") < Duration::from_millis(900));
    assert!(shortest(&dir, "info grips") >= Duration::from_millis(900));
    let printed = dir.call("info grips --wait 0");
    assert!(!printed.err.contains("the disk failed"), "{}", printed.err);
    drop(store);
    dir.shows("info grips --wait 10");
}

#[test]
fn readers_keep_writers_out_and_not_each_other() {
    let dir = WorkDir::with_store();
    dir.text("batch", "batch 1\n");
    let store = Store::open(dir.path("grips"), Mode::ReadOnly).unwrap();
    for line in WRITING {
        is_locked(&dir, line);
    }
    for line in ["info grips", "check grips", "dump grips"] {
        dir.shows(line);
    }
    dir.done("copy grips other");
    drop(store);
}

/// A call that is begun while the store is locked for so long.
fn waited(dir: &WorkDir, line: &str, locked: Duration) -> i32 {
    let store = Store::open(dir.path("grips"), Mode::ReadOnly).unwrap();
    let mut command = Command::new(PROGRAM);
    command.current_dir(&dir.0.0).args(line.split_whitespace());
    let mut child = command.stdout(Stdio::null()).stderr(Stdio::null()).spawn().unwrap();
    std::thread::sleep(locked);
    drop(store);
    child.wait().unwrap().code().unwrap()
}

#[test]
fn a_writer_waits_for_a_reader_that_is_soon_done() {
    let dir = WorkDir::with_store();
    assert_eq!(waited(&dir, "commit grips 1=p9", Duration::from_millis(300)), 0);
    assert_eq!(dir.page(1), [9; 4096]);
    assert_eq!(waited(&dir, "commit grips 1=p8 --wait 0.1", Duration::from_millis(1500)), 1);
    assert_eq!(waited(&dir, "commit grips 1=p7", Duration::from_millis(2500)), 1);
    assert_eq!(waited(&dir, "commit grips 1=p6 --wait 20", Duration::from_millis(1500)), 0);
    assert_eq!(dir.page(1), [6; 4096]);
}
