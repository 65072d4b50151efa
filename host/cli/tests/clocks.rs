//! `--clock`: stored with a fold, and refused where none follows; and the clock that a call begins with.
mod common;

use common::WorkDir;
use std::fs;

/// The clock that the log's header has.
fn stored(dir: &WorkDir) -> u64 {
    let listing = dir.shows("log grips");
    let header = listing.lines().next().unwrap();
    header.split(' ').next_back().unwrap().parse().unwrap()
}

fn would_lose(dir: &WorkDir, line: &str, clock: u64) {
    let message = format!("lateenbael: --clock {clock}: a clock is stored with a fold alone, and none with something to write follows");
    dir.fails(&format!("{line} --clock {clock}"), 1, &message);
}

#[test]
fn a_clock_that_would_be_lost_is_refused() {
    let dir = WorkDir::with_store();
    dir.text("batch", "batch 1\n");
    for line in [
        "commit grips",
        "commit grips 1=p9",
        "append grips batch",
        "commit grips --plain --fold",
    ] {
        would_lose(&dir, line, 50);
    }
    assert_eq!(dir.call("commit grips 5=p9 --cut-after-bytes 5000").status, 1);
    would_lose(&dir, "commit grips 1=p9", 50);
    assert!(dir.shows("check grips").contains("tail: 5000 bytes"));
    dir.done("fold grips");
    for line in ["checkpoint grips", "fold grips --plain"] {
        would_lose(&dir, line, u64::MAX);
    }
    fs::remove_file(dir.path("grips-wal")).unwrap();
    would_lose(&dir, "checkpoint grips", 1);
    would_lose(&dir, "commit grips", 1);
}

#[test]
fn a_clock_that_is_not_above_the_stored_one_is_passed_over() {
    let dir = WorkDir::with_store();
    dir.done("commit grips --clock 0");
    dir.done("checkpoint grips --clock 60");
    assert_eq!(stored(&dir), 60);
    for clock in [0, 59, 60] {
        dir.done(&format!("checkpoint grips --clock {clock}"));
        dir.done(&format!("commit grips 1=p9 --clock {clock}"));
        dir.done(&format!("fold grips --clock {clock}"));
        assert_eq!(stored(&dir), 60);
    }
    would_lose(&dir, "commit grips", 61);
    would_lose(&dir, "checkpoint grips", 61);
}

/// The calls open cleanly, so that the greatest sealed time is their clock where the log's header has a lower one.
#[test]
fn a_clock_that_is_not_above_the_sealed_times_is_passed_over() {
    let dir = WorkDir::with_store();
    dir.text("sealed", "batch 3\nbatch 9\nbatch 4\n");
    dir.text("unsealed", "batch 12\n");
    dir.done("append grips sealed");
    assert_eq!(dir.call("append grips unsealed --cut-after-bytes 4112").status, 1);
    assert!(dir.shows("info grips").contains("\nclock          0\n"));
    for clock in [10, 12] {
        would_lose(&dir, "commit grips", clock);
    }
    for clock in [1, 9] {
        would_lose(&dir, "commit grips --plain", clock);
    }
    dir.done("commit grips --plain --clock 0");
    // That has sealed the 12.
    would_lose(&dir, "commit grips", 13);
    for clock in [0, 9, 11, 12] {
        dir.done(&format!("commit grips 1=p9 --clock {clock}"));
        dir.done(&format!("append grips sealed --clock {clock}"));
    }
    assert_eq!(stored(&dir), 0);
    dir.text("last", "batch 18446744073709551615\n");
    dir.done("append grips last");
    dir.done("commit grips --clock 18446744073709551615");
    assert_eq!(stored(&dir), 0);
}

/// With a sealed time of 9 above the 5 of the log's header.
#[test]
fn a_fold_stores_the_clock_that_the_call_began_with() {
    for (line, clock) in [
        ("fold grips", 9),
        ("fold grips --clock 8", 9),
        ("fold grips --clock 10", 10),
        ("fold grips --plain", 5),
        ("fold grips --plain --clock 4", 5),
        ("fold grips --plain --clock 8", 8),
        // Only what was sealed before the call counts.
        ("append grips 97 --fold", 9),
    ] {
        let dir = WorkDir::with_store();
        dir.done("fold grips --clock 5");
        dir.text("times", "batch 9\nbatch 4\n");
        dir.text("97", &"batch 11\n".repeat(97));
        dir.done("append grips times");
        assert_eq!(stored(&dir), 5);
        dir.done(line);
        assert_eq!(stored(&dir), clock, "{line}");
        assert!(dir.shows("info grips").contains(&format!("\nclock          {clock}\n")));
    }
}

#[test]
fn a_fold_that_a_commit_brings_on_stores_the_clock() {
    let dir = WorkDir::with_store();
    dir.done("fold grips");
    dir.text("98", &"batch 1\n".repeat(98));
    dir.text("99", &"batch 1\n".repeat(99));
    would_lose(&dir, "append grips 98 --fold", 7);
    dir.fails("append grips 99 --clock 7", 1, "99 would be gone");
    dir.done("append grips 99 --fold --clock 7");
    assert_eq!(stored(&dir), 7);
    dir.done("append grips 98");
    dir.done("commit grips --fold --clock 18446744073709551615");
    assert_eq!(stored(&dir), u64::MAX);
}
