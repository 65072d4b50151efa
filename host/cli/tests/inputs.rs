//! Files that are too long, endless, or no regular files: refused soon, by name.
mod common;

use common::WorkDir;
use std::fs::File;
use std::time::{Duration, Instant};

const LIMIT: u64 = 32 << 20;

#[test]
fn a_text_that_no_log_has_room_for_is_refused_by_its_length() {
    let dir = WorkDir::with_store();
    let long = File::create(dir.path("long")).unwrap();
    // A file of holes: reading it whole would take a terabyte.
    long.set_len(1 << 40).unwrap();
    let begun = Instant::now();
    for line in ["append grips long", "commit grips 1=p1 --batch long"] {
        let printed = dir.call(line);
        assert_eq!(
            (printed.status, printed.err.as_str()),
            (1, "lateenbael: long: longer than 33554432 bytes, which is the limit\n")
        );
    }
    assert!(begun.elapsed() < Duration::from_secs(5));
    // Nor is any of it read: there is no memory for that.
    let printed = dir.shell("ulimit -v 32768; exec $P append grips long");
    assert!(printed.status == 1 && printed.err.contains("which is the limit"), "{}", printed.err);
}

#[test]
fn an_endless_text_is_refused_at_the_limit() {
    let dir = WorkDir::with_store();
    dir.fails("append grips /dev/zero", 1, "/dev/zero: longer than 33554432 bytes");
    let printed = dir.shell("yes '# remark' | $P append grips -");
    assert_eq!(
        (printed.status, printed.err.as_str()),
        (1, "lateenbael: standard input: longer than 33554432 bytes, which is the limit\n")
    );
    // As long as may be: remarks, and one batch at the end.
    let mut text = vec![b'#'; LIMIT as usize];
    text[(LIMIT - 9) as usize..].copy_from_slice(b"\nbatch 3\n");
    std::fs::write(dir.path("just"), text).unwrap();
    dir.done("append grips just");
    assert_eq!(dir.shows("batches grips"), "batch 3\n");
}

#[test]
fn more_batches_than_a_log_has_frames_are_refused_by_their_line() {
    let dir = WorkDir::with_store();
    dir.text("many", &"batch 1\n".repeat(1_000_000));
    dir.fails("append grips many", 1, "many, line 1025: more than 1024 batches");
    dir.text("full", &"batch 1\n".repeat(1024));
    dir.fails("append grips full", 1, "batch 1019 of 1024: refused 15 LogFull");
}

#[test]
fn a_text_that_is_not_utf_8_is_told_by_its_line() {
    let dir = WorkDir::with_store();
    std::fs::write(dir.path("odd"), b"batch 1\n# \xff\n").unwrap();
    dir.fails("append grips odd", 2, "odd, line 2: not UTF-8");
}

#[test]
fn the_log_command_does_not_wait_for_a_fifo() {
    let dir = WorkDir::with_store();
    std::fs::remove_file(dir.path("grips-wal")).unwrap();
    assert_eq!(dir.shell("mkfifo grips-wal").status, 0);
    let printed = dir.shell("timeout 20 $P log grips");
    assert_eq!(
        (printed.status, printed.err.as_str()),
        (1, "lateenbael: grips-wal is no regular file\n")
    );
    assert_eq!(dir.shell("rm grips-wal; mkdir grips-wal").status, 0);
    let printed = dir.call("log grips");
    assert_eq!(
        (printed.status, printed.err.as_str()),
        (1, "lateenbael: grips-wal is no regular file\n")
    );
}

#[test]
fn a_store_is_two_regular_files() {
    let dir = WorkDir::with_store();
    assert_eq!(
        dir.shell("mkfifo pipe; mkdir folder; ln grips linked; cp grips other; mkfifo other-wal")
            .status,
        0
    );
    let table = [
        ("pipe", "pipe is no regular file"),
        ("folder", "folder is no regular file"),
        ("/dev/zero", "/dev/zero is no regular file"),
        ("other", "other-wal is no regular file"),
        ("linked", "linked has 2 hard links"),
        ("grips", "grips has 2 hard links"),
    ];
    for (store, message) in table {
        for (command, more) in [
            ("info", ""),
            ("check", ""),
            ("page", "1"),
            ("commit", ""),
            ("dump", ""),
            ("copy", "new"),
        ] {
            let printed = dir.shell(&format!("timeout 20 $P {command} {store} {more}"));
            assert!(
                printed.status == 1 && printed.err.contains(message),
                "{command} {store}: {}",
                printed.err
            );
        }
    }
}

#[test]
fn a_link_and_its_store_have_one_log() {
    let dir = WorkDir::with_store();
    assert_eq!(dir.shell("mkdir folder; ln -s ../grips folder/current").status, 0);
    dir.done("commit folder/current 5=p9");
    dir.done("commit grips 6=p9");
    assert_eq!((dir.page(5), dir.page(6)), (vec![9; 4096], vec![9; 4096]));
    assert_eq!(dir.done("log folder/current"), dir.done("log grips"));
    assert_eq!(dir.shell("ls folder").out, "current\n");
}

#[test]
fn a_file_is_told_as_a_stores_is() {
    let dir = WorkDir::with_store();
    for line in ["read grips 1 p1", "dump grips p1"] {
        dir.fails(line, 1, "lateenbael: p1 is there already\n");
    }
    for line in [
        "commit grips 1=none",
        "commit grips --batch none",
        "append grips none",
        "restore none new",
    ] {
        dir.fails(line, 1, "lateenbael: none: there is no such file\n");
    }
}

/// A store without a log would take such a file for it.
#[test]
fn nothing_is_written_under_the_name_of_a_stores_log() {
    let dir = WorkDir::with_store();
    dir.done("checkpoint grips");
    std::fs::remove_file(dir.path("grips-wal")).unwrap();
    for line in ["read grips 2 grips-wal", "dump grips grips-wal"] {
        dir.fails(line, 1, "lateenbael: grips-wal is the name of the store's log\n");
    }
    for line in ["copy grips grips-wal", "create grips-creating", "create other-wal"] {
        dir.fails(line, 1, "a name that ends in -wal or -creating is that of another store's file\n");
    }
    dir.done("commit grips 2=p3");
}
