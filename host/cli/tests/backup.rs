//! A whole store carried elsewhere: its files copied, or a text and back.
mod common;

use common::{BATCH, WorkDir, forge_log};
use lateenbael::{BatchBuilder, Mode, Snapshot, Store, Value};
use std::fs;

/// A store with pages, a clock, batches, and an unsealed tail.
fn with_everything() -> WorkDir {
    let dir = WorkDir::with_store();
    dir.text(
        "first",
        "batch 18446744073709551615\npresent \"a # \\n\" -1\n column \"x\" real 0x7ff8000000000001\n",
    );
    dir.text("second", "batch 0\nbatch 7\ntombstone \"page 1\" 5\n");
    dir.done("checkpoint grips --clock 18446744073709551615");
    dir.done("commit grips 3=p9 --batch first --root 4 --version 6 --freelist 5");
    dir.done("append grips second");
    assert_eq!(dir.call("commit grips 5=p9 --cut-after-bytes 5000").status, 1);
    dir
}

fn snapshot(dir: &WorkDir, store: &str) -> Snapshot {
    Snapshot::of(&Store::open(dir.path(store), Mode::ReadOnly).unwrap()).unwrap()
}

/// What a store dumps, after the store restored from that was found to be the same.
fn dumped(dir: &WorkDir, store: &str) -> String {
    let text = dir.shows(&format!("dump {store}"));
    for name in ["text", "restored", "restored-wal"] {
        let _ = fs::remove_file(dir.path(name));
    }
    assert_eq!(dir.done(&format!("dump {store} text")), "");
    assert_eq!(fs::read_to_string(dir.path("text")).unwrap(), text);
    dir.done("restore text restored");
    assert!(snapshot(dir, "restored") == snapshot(dir, store));
    assert!(dir.shows("dump restored") == text);
    text
}

#[test]
fn a_copy_is_the_same_files() {
    let dir = with_everything();
    let before = dir.files();
    assert_eq!(dir.done("copy grips other"), "copied; main length: 28672; log length: 29704\n");
    for (file, copy) in [("grips", "other"), ("grips-wal", "other-wal")] {
        assert!(fs::read(dir.path(file)).unwrap() == fs::read(dir.path(copy)).unwrap());
    }
    assert!(dir.files().iter().filter(|file| before.contains(file)).count() == before.len());
    assert_eq!(dir.files().len(), before.len() + 2);
    dir.fails("copy grips other", 1, "other is there already");
    dir.fails("copy grips p1", 1, "p1 is there already");
    dir.fails("copy none new", 1, "none: there is no such file");
    dir.text("half-wal", "");
    dir.fails("copy grips half", 1, "half-wal is there already");
    fs::remove_file(dir.path("grips-wal")).unwrap();
    assert_eq!(
        dir.done("copy grips alone"),
        "copied; main length: 28672; log length: - (there is no log)\n"
    );
    assert!(!dir.path("alone-wal").exists());
}

#[test]
fn a_dump_restores_to_the_same_store() {
    let dir = with_everything();
    let text = dumped(&dir, "grips");
    let expected = "lateenbael-dump 1\nheader 7 4 6 5\nclock 18446744073709551615\npage 0\n\
                    53514c52697465466f726d6174000000060000100700000004000000050000";
    assert!(text.starts_with(expected), "{text}");
    assert!(text.contains(&format!("\npage 3\n{}\n", ["09".repeat(32).as_str(); 128].join("\n"))));
    let batches = dir.shows("batches grips");
    assert!(batches.starts_with("batch 18446744073709551615\n") && batches.lines().count() == 6);
    assert!(text.ends_with(&format!("{batches}end\n")));
    assert_eq!(dir.shows("batches restored"), batches);
    dir.done("restore text again --json");
    let printed = dir.shell("$P dump grips - | $P restore - piped");
    assert_eq!(
        (printed.status, printed.out.as_str(), printed.err.as_str()),
        (0, "restored; pages: 7; batches: 3\n", "")
    );
    assert!(snapshot(&dir, "piped") == snapshot(&dir, "grips"));
}

/// A batch's time is above it, and counts in a clean opening alone.
#[test]
fn a_dump_has_the_log_headers_clock() {
    let dir = WorkDir::with_store();
    dir.done("fold grips --clock 7");
    dir.text("nine", "batch 9\n");
    dir.done("append grips nine");
    assert!(dumped(&dir, "grips").contains("\nclock 7\n"));
    for store in ["grips", "restored"] {
        let clock = |mode| Store::open(dir.path(store), mode).unwrap().clock_high_water().unwrap();
        let modes = [Mode::ReadWrite, Mode::Plain, Mode::ReadOnly];
        assert_eq!(modes.map(clock), [9, 7, 7], "{store}");
    }
}

#[test]
fn a_folded_store_has_no_page_0_in_its_dump() {
    let dir = WorkDir::with_store();
    dir.done("fold grips");
    let text = dumped(&dir, "grips");
    assert!(!text.contains("\npage 0\n") && text.contains("\npage 1\n"));
    dir.done("create new");
    // An empty table page: 7 bytes of heading, and zeros.
    let page = dir.shows("page new 1");
    assert!(dumped(&dir, "new").contains("\nzeros 127\nend\n"), "{page}");
}

#[test]
fn more_batches_than_bring_on_a_fold_come_through() {
    let dir = WorkDir::with_store();
    dir.done("create many");
    let bodies: Vec<BatchBuilder> = (0..1024).map(BatchBuilder::new).collect();
    let frames: Vec<(u32, u32, &[u8])> = bodies
        .iter()
        .map(|b| (BATCH, u32::from(b.body()[8..10] == [0xff, 3]) * 2, &b.body()[..]))
        .collect();
    forge_log(&dir.path("many-wal"), &frames);
    assert_eq!(dumped(&dir, "many").lines().filter(|line| line.starts_with("batch ")).count(), 1024);
    dir.fails("commit restored", 1, "refused 15 LogFull");
    forge_log(&dir.path("many-wal"), &frames[901..]);
    dumped(&dir, "many");
    dir.fails("commit restored", 1, "123 would be gone");
}

#[test]
fn a_batch_of_other_making_comes_through_as_its_bytes() {
    let dir = WorkDir::with_store();
    dir.done("create odd");
    let mut batch = BatchBuilder::new(5);
    batch.begin_present("t", 1).unwrap();
    batch.add_column("b", Value::Bool(true)).unwrap();
    let mut body = *batch.body();
    let flag = body.iter().rposition(|byte| *byte != 0).unwrap();
    body[flag] = 2;
    forge_log(&dir.path("odd-wal"), &[(BATCH, 0, batch.body()), (BATCH, 2, &body)]);
    let text = dumped(&dir, "odd");
    assert!(
        text.contains("batch 5\npresent \"t\" 1\n  column \"b\" bool true\nbody\n4d56434330303031"),
        "{text}"
    );
    assert_eq!(fs::read(dir.path("restored-wal")).unwrap()[32 + 4112 + 16..], body);
}

#[test]
fn a_page_that_is_nowhere_is_said_and_refused() {
    let dir = WorkDir::with_store();
    dir.done("create lacking");
    forge_log(&dir.path("lacking-wal"), &[(3, 4, &[3; 4096])]);
    let text = dir.shows("dump lacking");
    assert!(text.contains("\npage 2 nowhere\npage 3\n03"), "{text}");
    dir.text("text", &text);
    dir.fails("restore text new", 1, "text: page 2 is nowhere");
}

#[test]
fn a_cut_dump_is_refused_wherever_it_is_cut() {
    let dir = with_everything();
    let text = dir.shows("dump grips");
    let lines: Vec<usize> = text.match_indices('\n').map(|(at, _)| at).collect();
    let places = lines.iter().step_by(53).chain(&lines[lines.len() - 8..lines.len() - 1]);
    for at in places.flat_map(|at| [*at, at + 1, at + 2]) {
        dir.text("text", &text[..at]);
        let printed = dir.call("restore text new");
        assert!(
            matches!(printed.status, 1 | 2) && printed.err.contains("text"),
            "{at}: {}",
            printed.err
        );
        assert!(!dir.path("new").exists() && !dir.path("new-wal").exists());
    }
    dir.text("text", text.trim_end());
    dir.done("restore text new");
}

const HEAD: &str = "lateenbael-dump 1\nheader 2 1 4 0\nclock 0\n";

/// Restoring a text fails so, and leaves no file.
fn refused(dir: &WorkDir, text: &str, status: i32, message: &str) {
    dir.text("text", text);
    dir.fails("restore text new", status, message);
}

#[test]
fn an_unclear_line_of_a_dump_is_told() {
    let dir = WorkDir::with_store();
    let zeros = "0".repeat(64);
    let table = [
        ("clock 1\n", "line 4: told for the second time"),
        ("header 2 1 4\n", "line 4: no line of a dump"),
        ("header 2 1 70000 0\n", "line 4: \"70000\" is no number"),
        ("page 2\n", "line 4: page 2, where page 0"),
        ("page 1\nzeros 128\npage 1\n", "line 6: page 1, where page 2"),
        ("page 1\nzeros 127\n", "line 6: 64 hexadecimal digits"),
        ("page 1\nzeros 127\nzeros 2\n", "line 6: 32 bytes more would be enough"),
        ("page 1\nzeros 99999999999999\n", "line 5: 4096 bytes more would be enough"),
        (&format!("page 1\n{}x\n", &zeros[1..]), "line 5: not all of these are hexadecimal"),
        (&format!("page 1\n{}\n", &zeros[2..]), "line 5: 64 hexadecimal digits"),
        ("column \"c\" null\n", "line 4: no batch has begun"),
        ("end\nbatch 1\n", "line 5: a line behind the last one"),
    ];
    for (lines, message) in table {
        refused(&dir, &format!("{HEAD}{lines}end\n"), 2, &format!("text, {message}"));
    }
}

#[test]
fn a_dump_of_no_store_is_refused() {
    let dir = WorkDir::with_store();
    let whole = format!("{HEAD}page 1\nzeros 128\n");
    refused(&dir, "", 2, "text, line 1: no dump");
    refused(&dir, "lateenbael-dump 2\nend\n", 2, "text, line 1: no dump");
    refused(&dir, "lateenbael-dump 1\nclock 0\nend\n", 2, "text: no line says the header");
    refused(&dir, "lateenbael-dump 1\nheader 0 1 4 0\nend\n", 2, "text: no line says the clock");
    refused(&dir, &whole, 1, "text: cut off");
    refused(&dir, &format!("{HEAD}end\n"), 1, "text: the header has a page count of 2");
    refused(
        &dir,
        &format!("{whole}body\nzeros 128\nend\n"),
        1,
        "text: batch 1 is refused 3 Magic",
    );
    let batches = "batch 1\n".repeat(1025);
    refused(&dir, &format!("{whole}{batches}end\n"), 1, "more than 1024 batches");
    let version = whole.replace("2 1 4 0", "2 1 7 0") + "end\n";
    refused(&dir, &version, 1, "text: the header is refused 4 Version");
    let page_zero = whole.replace("page 1", "page 0\nzeros 128\npage 1") + "end\n";
    refused(&dir, &page_zero, 1, "text: the header is refused 8 PageZero");
    dir.fails("restore /dev/zero new", 1, "/dev/zero: longer than 67108864 bytes");
    dir.text("text", &format!("{}\n# remark\n\nend\n", whole.replace("page 1", "page\t1")));
    assert_eq!(dir.done("restore text new"), "restored; pages: 2; batches: 0\n");
    dir.fails("restore text new", 1, "new is there already");
}
