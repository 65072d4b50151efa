//! Standard output and standard error that are full, closed or broken: no panic, and a status that tells what happened to the store.
mod common;

use common::WorkDir;
use std::fs;

const SHOWING: [&str; 14] = [
    "--help",
    "--version",
    "help commit",
    "info grips",
    "info grips --json",
    "check grips",
    "log grips",
    "batches grips",
    "read grips 5 -",
    "page grips 5",
    "dump grips",
    "commit grips 1=p9 --preview",
    "commit grips 1=p9 --preview --json",
    "append grips batch --preview",
];

fn with_batch() -> WorkDir {
    let dir = WorkDir::with_store();
    dir.text("batch", "batch 1\ntombstone \"t\" 1\n");
    dir.done("append grips batch");
    dir
}

#[test]
fn what_shows_something_fails_where_that_cannot_be_written() {
    let dir = with_batch();
    for line in SHOWING {
        let printed = dir.shell(&format!("$P {line} > /dev/full"));
        assert_eq!(
            (printed.status, printed.err.as_str()),
            (1, "lateenbael: standard output: No space left on device (os error 28)\n"),
            "{line}"
        );
        let printed = dir.shell(&format!("$P {line} 1< /dev/null"));
        assert!(
            printed.status == 1 && printed.err.contains("standard output: "),
            "{line}: {}",
            printed.err
        );
    }
}

#[test]
fn a_full_file_is_told() {
    let dir = with_batch();
    // Files may have 2 KiB.
    let printed = dir.shell("trap '' XFSZ; ulimit -f 2; exec $P read grips 5 - > out");
    assert!(printed.status == 1 && printed.err.contains("standard output: "), "{}", printed.err);
    let printed = dir.shell("trap '' XFSZ; ulimit -f 2; exec $P read grips 5 out2");
    assert!(
        printed.status == 1 && printed.err.starts_with("lateenbael: out2: "),
        "{}",
        printed.err
    );
    assert!(!dir.path("out2").exists());
    let printed = dir.shell("trap '' XFSZ; ulimit -f 2; exec $P dump grips dumped");
    assert!(
        printed.status == 1 && printed.err.starts_with("lateenbael: dumped: "),
        "{}",
        printed.err
    );
    assert!(!dir.path("dumped").exists());
    let printed = dir.shell("trap '' XFSZ; ulimit -f 2; exec $P copy grips copied");
    assert!(
        printed.status == 1 && printed.err.starts_with("lateenbael: copied: "),
        "{}",
        printed.err
    );
    assert!(!dir.files().iter().any(|(path, ..)| path.display().to_string().contains("copied")));
    dir.fails("read grips 5 p1", 1, "p1 is there already");
    assert_eq!(fs::read(dir.path("p1")).unwrap(), [1; 4096]);
}

#[test]
fn what_has_altered_the_store_ends_with_0() {
    let dir = with_batch();
    dir.done("dump grips dumped");
    for line in [
        "commit grips 1=p9",
        "append grips batch",
        "checkpoint grips",
        "create fresh",
        "copy grips copied",
        "restore dumped restored",
        "commit grips 1=p8 --json",
    ] {
        let printed = dir.shell(&format!("$P {line} > /dev/full"));
        assert_eq!(
            (printed.status, printed.err.as_str()),
            (
                0,
                "lateenbael: done, but its report can't be printed: standard output: No space left on device (os error 28)\n"
            ),
            "{line}"
        );
    }
    assert_eq!(dir.page(1), [8; 4096]);
    assert_eq!(dir.shell("$P commit grips 1=p7 > /dev/full 2> /dev/full").status, 0);
    assert_eq!(dir.page(1), [7; 4096]);
}

#[test]
fn messages_that_cannot_be_printed_do_not_change_the_status() {
    let dir = with_batch();
    for (line, status) in [
        ("commit grips 1024=p1", 1),
        ("lift", 2),
        ("info none", 1),
        ("info grips", 0),
        ("commit grips 1=p9", 0),
    ] {
        for how in ["2> /dev/full", "2>&-", "2< /dev/null", ">&- 2>&-", "<&- >&- 2>&-"] {
            assert_eq!(dir.shell(&format!("$P {line} {how}")).status, status, "{line} {how}");
        }
    }
    assert_eq!(dir.shell("$P info grips > /dev/full 2> /dev/full").status, 1);
    dir.shows("check grips");
}

#[test]
fn a_closed_standard_output_is_as_dev_null() {
    let dir = with_batch();
    let before = dir.files();
    for line in SHOWING {
        let printed = dir.shell(&format!("$P {line} >&-"));
        assert_eq!((printed.status, printed.err.as_str()), (0, ""), "{line}");
    }
    assert!(dir.files() == before);
}

#[test]
fn nobody_reading_is_no_failure() {
    let dir = with_batch();
    for line in SHOWING {
        // The reader is gone before the program begins.
        let printed = dir.shell(&format!("{{ sleep 0.1; $P {line}; echo $? >&2; }} | true"));
        assert_eq!(printed.err, "0\n", "{line}");
    }
    let printed = dir.shell("{ sleep 0.1; $P commit grips 1=p9; echo $? >&2; } | true");
    assert_eq!(printed.err, "0\n");
    assert_eq!(dir.page(1), [9; 4096]);
    assert_eq!(dir.shell("$P read grips 5 - | head -c1").err, "");
}
