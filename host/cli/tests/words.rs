//! The words of a call: commands, options, and names of any bytes.
mod common;

use common::WorkDir;
use lateenbael::sys::STAGED_PAGES;
use std::ffi::{OsStr, OsString};
use std::fs;
use std::os::unix::ffi::OsStrExt;

#[test]
fn help_names_every_command() {
    let dir = WorkDir::new();
    let help = dir.done("--help");
    assert_eq!(dir.done("help"), help);
    for command in [
        "create",
        "info",
        "check",
        "log",
        "batches",
        "read",
        "page",
        "commit",
        "append",
        "checkpoint",
        "copy",
        "dump",
        "restore",
    ] {
        assert!(help.contains(&format!("  lateenbael {command} ")), "{command}");
        let more = dir.done(&format!("help {command}"));
        assert!(more.starts_with(&format!("lateenbael {command} ")), "{command}");
        for line in ["--help", "-h", "grips -h", "--help --nonsense"] {
            assert_eq!(dir.done(&format!("{command} {line}")), more);
        }
    }
}

#[test]
fn words_that_are_not_understood_are_status_2() {
    let dir = WorkDir::with_store();
    let table = [
        ("", "no command"),
        ("lift grips", "lift is no command"),
        ("help lift", "lift is no command"),
        ("create", "expected: lateenbael create"),
        ("info grips grips", "expected: lateenbael info"),
        ("read grips one out", "PAGE: \"one\" is no number"),
        ("page grips one", "PAGE: \"one\" is no number"),
        ("commit grips 2", "2 is not PAGE=FILE"),
        ("commit grips 2=", "2= names no file"),
        ("commit grips x=p1", "x=p1: \"x\" is no number"),
        ("commit grips =p1", "=p1: \"\" is no number"),
        ("commit grips 2=- 3=-", "standard input (-) is given more than once"),
        ("commit grips 2=- --batch -", "standard input (-) is given more than once"),
        ("append grips - -", "standard input (-) is given more than once"),
        ("append grips", "no batch to append"),
        ("dump grips one two", "expected: lateenbael dump STORE [OUTFILE]"),
        ("copy grips", "expected: lateenbael copy STORE NEW"),
        ("restore grips", "expected: lateenbael restore FILE NEW"),
        ("--version grips", "expected: lateenbael --version"),
    ];
    for (line, message) in table {
        dir.fails(line, 2, message);
    }
}

#[test]
fn options_that_are_not_understood_are_status_2() {
    let dir = WorkDir::with_store();
    let table = [
        ("info grips --over", "--over is no option here"),
        ("create --over=yes grips", "--over=yes is no option here"),
        ("info -x grips", "-x is no option here"),
        ("commit grips --count", "--count wants a value"),
        ("commit grips --count=-1", "--count: \"-1\" is no number"),
        ("commit grips --count x", "--count: \"x\" is no number"),
        ("commit grips --version 70000", "--version: \"70000\" is no number that fits"),
        ("info grips --wait", "--wait wants a value"),
        ("info grips --wait soon", "--wait: \"soon\" is no number of seconds"),
        ("info grips --wait=-1", "--wait: \"-1\" is no number of seconds"),
        ("commit grips --wait nan", "--wait: \"nan\" is no number of seconds"),
        ("create grips --over --wait inf", "--wait: \"inf\" is no number of seconds"),
        ("log grips --wait 1", "--wait is no option here"),
        (
            "checkpoint grips --cut-after-bytes many",
            "--cut-after-bytes: \"many\" is no number",
        ),
    ];
    for (line, message) in table {
        dir.fails(line, 2, message);
    }
}

#[test]
fn the_version_is_the_packages() {
    let dir = WorkDir::new();
    assert_eq!(dir.done("--version"), concat!("lateenbael ", env!("CARGO_PKG_VERSION"), "\n"));
    assert_eq!(dir.done("-V"), dir.done("--version"));
}

#[test]
fn what_follows_two_dashes_is_no_option() {
    let dir = WorkDir::with_store();
    dir.done("create -- -h");
    dir.fails("info --json -- grips --json", 2, "expected: lateenbael info STORE");
    assert!(dir.shows("info -- -h").starts_with("page count     2\n"));
    dir.text("--plain", "batch 5\n");
    dir.done("append -- grips --plain");
    dir.text("=odd=", "batch 6\n");
    dir.done("commit grips --batch==odd=");
    assert_eq!(dir.shows("batches grips"), "batch 5\nbatch 6\n");
}

#[test]
fn names_need_not_be_utf_8() {
    let dir = WorkDir::with_store();
    let odd = |text: &[u8]| OsStr::from_bytes(text).to_os_string();
    let store = odd(b"gr\xffps");
    let call = |words: &[&OsStr]| {
        let printed = dir.call_with(words);
        assert_eq!((printed.status, printed.err.as_str()), (0, ""), "{words:?}");
        printed.out
    };
    fs::write(dir.path("p1").with_file_name(odd(b"p\xfe")), [7; 4096]).unwrap();
    fs::write(dir.path("p1").with_file_name(odd(b"b\xfe=")), "batch 9\n").unwrap();
    call(&["create".as_ref(), &store]);
    call(&["commit".as_ref(), &store, &odd(b"1=p\xfe"), &odd(b"--batch=b\xfe=")]);
    assert!(call(&["log".as_ref(), &store]).contains("0 batch 0 0\n1 page 1 0\n"));
    assert_eq!(call(&["batches".as_ref(), &store]), "batch 9\n");
    call(&["read".as_ref(), &store, "1".as_ref(), &odd(b"out\xfe")]);
    assert_eq!(fs::read(dir.path("p1").with_file_name(odd(b"out\xfe"))).unwrap(), [7; 4096]);
    let missing: Vec<OsString> = vec!["commit".into(), store, odd(b"1=none\xfe")];
    let printed = dir.call_with(&missing);
    assert!(
        printed.status == 1 && printed.err.starts_with("lateenbael: none\u{fffd}: "),
        "{}",
        printed.err
    );
}

#[test]
fn a_page_comes_from_standard_input() {
    let dir = WorkDir::with_store();
    let printed = dir.shell("$P commit grips 2=- 3=p4 < p8");
    assert_eq!((printed.status, printed.err.as_str()), (0, ""));
    assert_eq!((dir.page(2), dir.page(3)), (vec![8; 4096], vec![4; 4096]));
    let printed = dir.shell("cat p8 p8 | $P commit grips 2=-");
    assert_eq!(
        (printed.status, printed.err.as_str()),
        (1, "lateenbael: standard input: 4097 bytes or more, and a page has 4096\n")
    );
    let printed = dir.shell("echo batch 4 | $P commit grips 2=p2 --batch -");
    assert_eq!((printed.status, printed.err.as_str()), (0, ""));
    assert_eq!(dir.shows("batches grips"), "batch 4\n");
}

#[test]
fn a_page_is_given_once() {
    let dir = WorkDir::with_store();
    for words in ["1=p1 1=p2", "1=p1 01=p2", "2=p1 1=p1 3=p3 1=p1", "1=none 1=none"] {
        dir.fails(&format!("commit grips {words}"), 2, "page 1 is given more than once");
    }
}

#[test]
fn an_empty_word_is_told() {
    let dir = WorkDir::with_store();
    let table: [(&[&str], &str); 9] = [
        (&[""], "a word is empty: number 1 "),
        (&["create", ""], "a word is empty: number 2 "),
        (&["info", ""], "a word is empty: number 2 "),
        (&["info", "--", ""], "a word is empty: number 3 "),
        (&["append", "grips", ""], "a word is empty: number 3 "),
        (&["commit", "grips", ""], "a word is empty: number 3 "),
        (&["commit", "grips", "--batch", ""], "a word is empty: number 4 "),
        (&["commit", "grips", "--batch="], "--batch wants a value"),
        (&["commit", "grips", "2="], "2= names no file"),
    ];
    let before = dir.files();
    for (words, message) in table {
        let printed = dir.call_with(words);
        assert!(printed.status == 2 && printed.err.contains(message), "{words:?}: {}", printed.err);
    }
    assert!(dir.files() == before);
}

#[test]
fn help_before_a_command_is_about_it() {
    let dir = WorkDir::new();
    for command in ["info", "fold", "help"] {
        let more = dir.done(&format!("help {command}"));
        for help in ["--help", "-h"] {
            assert_eq!(dir.done(&format!("{help} {command}")), more, "{help} {command}");
        }
    }
    assert_eq!(dir.done("-h"), dir.done("--help"));
    dir.fails("--help lift", 2, "lift is no command");
    dir.fails("-h info log", 2, "expected: lateenbael help [COMMAND]");
}

#[test]
fn help_tells_the_limits() {
    let dir = WorkDir::new();
    let staged = format!("at most {STAGED_PAGES} pages at once");
    let table = [
        ("help", "Not for log and restore"),
        ("help", "- alone stays standard input or output"),
        ("log", "takes no lock"),
        ("read", "Page 0 is the header's, and reads only while the log has it"),
        ("commit", &staged),
        ("commit", "a clock is stored with a fold alone"),
        (
            "commit",
            "the larger of the log header's and the greatest time among the sealed batches",
        ),
        ("commit", "behind a tail that ends in bytes that are no frame a commit is refused"),
        ("help", "commit and append with --preview end there"),
        (
            "commit",
            "--preview shows what this very call would do without it, and alters nothing",
        ),
        ("commit", "not with --cut-after-bytes"),
        ("append", "[--preview]"),
        ("append", "is refused where the clock would rise and no fold follows"),
        ("checkpoint", "--clock n is refused where the clock would rise"),
        ("checkpoint", "without --plain, the greatest time among the sealed batches"),
        ("info", "the log header's clock"),
        ("dump", "clock N the log header's, 0 without a log"),
        ("restore", "the log header's clock"),
        ("create", "STORE-creating and STORE-wal-creating"),
        ("copy", "NEW-creating and NEW-wal-creating"),
        ("restore", "NEW-creating and NEW-wal-creating"),
    ];
    for (command, told) in table {
        let help: Vec<String> = dir
            .done(&format!("help {command}"))
            .split_whitespace()
            .map(str::to_lowercase)
            .collect();
        assert!(help.join(" ").contains(&told.to_lowercase()), "{command}: {told}");
    }
}
