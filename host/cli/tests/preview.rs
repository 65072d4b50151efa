//! `--preview`: a commit is shown before it is made, as it then is, and no file is altered.
mod common;

use common::{WorkDir, damage};
use std::fs;

/// A store whose log has so many frames, an even number, and no batch.
fn with_frames(frames: usize) -> WorkDir {
    let dir = WorkDir::with_store();
    for n in 0..(frames - 6) / 2 {
        dir.done(&format!("commit grips 1=p{}", 1 + n % 2));
    }
    dir.text("batch", "batch 1\n");
    dir.text("two", "batch 1\nbatch 2\n");
    dir
}

/// The number behind a key of a JSON object.
fn number(object: &str, key: &str) -> u64 {
    let (_, behind) = object.split_once(&format!("\"{key}\":")).unwrap();
    behind.split([',', '}']).next().unwrap().parse().unwrap()
}

/// A call with `--preview` must show what the call then does, as text and as JSON, and alter nothing: what it showed as text.
fn does_as_shown(dir: &WorkDir, line: &str) -> String {
    let text = dir.shows(&format!("{line} --preview"));
    let shown = dir.shows(&format!("{line} --preview --json"));
    let done = dir.done(&format!("{line} --json"));
    let info = dir.shows("info grips --json");
    let lengths = ["frame_count", "log_len", "main_len"].map(|key| (key, number(&info, key)));
    let report = done.strip_suffix("}\n").unwrap();
    let afterwards = lengths.map(|(key, number)| format!("\"{key}\":{number}")).join(",");
    assert_eq!(shown, format!("{report},\"preview\":true,{afterwards}}}\n"), "{line}");
    let [frames, log, main] = lengths.map(|(_, number)| number);
    let told = format!("; frames afterwards: {frames}; log length: {log}; main length: {main}\n");
    assert!(text.ends_with(&told), "{line}: {text}");
    text
}

#[test]
fn a_commit_is_shown_and_then_made() {
    let dir = with_frames(6);
    assert_eq!(
        does_as_shown(&dir, "commit grips 1=p1"),
        "would commit; pages that differ: 1; frames afterwards: 8; log length: 32928; main length: 8192\n"
    );
    assert_eq!(
        does_as_shown(&dir, "commit grips 1=p1 2=p3 7=p7 --batch two --root 3"),
        "would commit; pages that differ: 2; batches sealed: 2; frames afterwards: 13; log length: 53488; main length: 8192\n"
    );
    assert_eq!(
        does_as_shown(&dir, "append grips batch"),
        "would commit; pages that differ: 0; batches sealed: 1; frames afterwards: 15; log length: 61712; main length: 8192\n"
    );
    for line in ["commit grips", "commit grips --count 3 --version 6", "commit grips --plain 2=p9"] {
        does_as_shown(&dir, line);
    }
    dir.done("fold grips");
    assert_eq!(
        does_as_shown(&dir, "commit grips 1=p9 --count 2"),
        "would commit; pages that differ: 1; frames afterwards: 2; log length: 8256; main length: 12288\n"
    );
}

#[test]
fn a_fold_is_shown() {
    let dir = with_frames(98);
    assert!(dir.shows("commit grips --preview").contains("; frames afterwards: 99; "));
    assert!(dir.shows("commit grips 1=p2 --preview").contains("; frames afterwards: 99; "));
    assert_eq!(
        does_as_shown(&dir, "commit grips 1=p9 --count 4"),
        "would commit; pages that differ: 1; the log would be folded; batches gone with it: 0; \
         frames afterwards: 0; log length: 32; main length: 16384\n"
    );
    let dir = with_frames(98);
    dir.fails("append grips two --preview", 1, "batches end with a fold: 2 would be gone.");
    assert_eq!(
        does_as_shown(&dir, "append grips two --fold"),
        "would commit; pages that differ: 0; batches sealed: 2; the log would be folded; batches gone with it: 2; \
         frames afterwards: 0; log length: 32; main length: 28672\n"
    );
    // A clock is stored with a fold.
    dir.text("99", &"batch 1\n".repeat(99));
    does_as_shown(&dir, "append grips 99 --fold --clock 7");
    assert!(dir.shows("info grips").contains("\nclock          7\n"));
}

/// Both calls must be refused, with the same words and status, and alter nothing.
fn refuses_alike(dir: &WorkDir, line: &str, status: i32, message: &str) {
    let preview = format!("{line} --preview");
    for line in [line, &preview] {
        dir.fails(line, status, message);
    }
    assert_eq!(dir.call(line).err, dir.call(&preview).err, "{line}");
}

#[test]
fn what_would_be_refused_is() {
    let dir = with_frames(98);
    dir.text("short", "not a page");
    dir.text("odd", "batch\n");
    for (line, message) in [
        ("commit none 1=p1", "none: there is no such file"),
        ("commit grips 1=none", "none: there is no such file"),
        ("commit grips 1=short", "short: 10 bytes, and a page has 4096"),
        ("commit grips 0=p1", "page 0 is the header's"),
        ("commit grips 6=p6 --count 2", "page 6: --count 2 would leave it out"),
        ("commit grips 1024=p1", "page 1024: refused 11 Page: "),
        ("commit grips --count 0", "--count 0: refused 13 NewHeader: "),
        ("commit grips --version 7", "--version 7: refused 13 NewHeader: "),
        (
            "commit grips 9=p9",
            "refused 14 Joining: a page that the new count brings in isn't staged: page 7",
        ),
        ("commit grips --clock 50", "--clock 50: a clock is stored with a fold alone"),
        ("append grips batch", "batches end with a fold: 1 would be gone. "),
        ("commit grips 1=p9 --batch two", "batches end with a fold: 2 would be gone. "),
    ] {
        refuses_alike(&dir, line, 1, message);
    }
    for (line, message) in [
        ("commit grips 2", "2 is not PAGE=FILE"),
        ("commit grips 1=p1 1=p2", "page 1 is given more than once"),
        ("commit grips --count x", "--count: \"x\" is no number"),
        ("append grips odd", "odd, line 1: expected: batch TIME"),
        ("append grips", "no batch to append"),
    ] {
        refuses_alike(&dir, line, 2, message);
    }
    dir.text("full", &"batch 1\n".repeat(1024));
    refuses_alike(&dir, "append grips full", 1, "batch 927 of 1024: refused 15 LogFull");
    damage(&dir.path("grips"), 16, 9);
    refuses_alike(&dir, "commit grips 1=p1", 1, "grips: refused 4 Version: ");
}

#[test]
fn a_preview_is_a_flag_of_commits() {
    let dir = WorkDir::with_store();
    dir.text("batch", "batch 1\n");
    for line in [
        "commit grips 1=p1 --preview --cut-after-bytes 5",
        "append grips batch --cut-after-bytes=0 --preview",
    ] {
        dir.fails(line, 2, "--preview writes nothing that --cut-after-bytes could cut");
    }
    for line in ["checkpoint grips", "info grips", "create other", "copy grips other"] {
        dir.fails(&format!("{line} --preview"), 2, "--preview is no option here");
    }
    dir.fails("commit grips --preview=yes", 2, "--preview=yes is no option here");
    // Behind two dashes it is a word, and before other words a flag.
    dir.fails("commit grips -- --preview", 2, "--preview is not PAGE=FILE");
    dir.shows("commit --preview grips --preview 1=p9");
}

/// What an opening for writing would alter stays: an unsealed tail, bytes that are no frame, a missing log, what a cut creation has left.
#[test]
fn not_even_the_opening_writes() {
    let dir = with_frames(6);
    let cut = |bytes: usize| {
        assert_eq!(dir.call(&format!("commit grips 5=p9 --cut-after-bytes {bytes}")).status, 1);
        for left in ["grips-creating", "grips-wal-creating"] {
            dir.text(left, "left");
        }
    };
    cut(5000);
    refuses_alike(
        &dir,
        "commit grips 1=p1 --plain",
        1,
        "grips-wal ends in 888 bytes that are no frame",
    );
    assert!(does_as_shown(&dir, "commit grips 1=p1").contains("; frames afterwards: 8; "));
    assert!(!dir.path("grips-creating").exists(), "a commit removes it");
    cut(4112);
    assert!(dir.shows("commit grips 3=p8 --preview").contains("; frames afterwards: 10; "));
    assert!(does_as_shown(&dir, "commit grips 3=p8 --plain").contains("; frames afterwards: 11; "));
    dir.done("fold grips");
    fs::remove_file(dir.path("grips-wal")).unwrap();
    for plain in ["", " --plain"] {
        dir.shows(&format!("commit grips 1=p9{plain} --preview"));
        assert!(!dir.path("grips-wal").exists());
    }
    assert_eq!(
        does_as_shown(&dir, "commit grips 1=p9"),
        "would commit; pages that differ: 1; frames afterwards: 2; log length: 8256; main length: 28672\n"
    );
}

#[test]
fn a_page_comes_from_standard_input() {
    let dir = WorkDir::with_store();
    let before = dir.files();
    let printed = dir.shell("$P commit grips 2=- --preview < p8");
    assert_eq!((printed.status, printed.err.as_str()), (0, ""));
    assert!(printed.out.starts_with("would commit; pages that differ: 1; "));
    assert!(dir.files() == before);
}
