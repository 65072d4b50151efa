//! The desk's words, run on files.

use std::fs;
use std::path::PathBuf;
use std::process::{Command, Output};
use std::sync::atomic::{AtomicUsize, Ordering};

use lists::batch::body::{Body, Value};

/// A file of these bytes that goes when it is dropped.
struct File(PathBuf);

impl File {
    fn new(bytes: &[u8]) -> Self {
        static MADE: AtomicUsize = AtomicUsize::new(0);
        let number = MADE.fetch_add(1, Ordering::Relaxed);
        let name = format!("desk-{}-{number}", std::process::id());
        let path = std::env::temp_dir().join(name);
        fs::write(&path, bytes).expect("the folder for temporary files");
        Self(path)
    }
}

impl Drop for File {
    fn drop(&mut self) {
        let _ = fs::remove_file(&self.0);
    }
}

fn desk(kind: &str, file: &File) -> Output {
    Command::new(env!("CARGO_BIN_EXE_script"))
        .args(["desk", kind])
        .arg(&file.0)
        .output()
        .expect("the program")
}

/// What is printed of the bytes.
fn printed(kind: &str, bytes: &[u8]) -> String {
    let output = desk(kind, &File::new(bytes));
    assert!(output.status.success(), "{output:?}");
    String::from_utf8(output.stdout).expect("text")
}

#[test]
fn characters_of_a_text() {
    for (text, wanted) in [
        ("", "chars 0\n"),
        ("plain", "chars 5\n"),
        ("\0", "chars 1\n"),
        ("é", "chars 1\n"),
        ("–", "chars 1\n"),
        ("🚡", "chars 1\n"),
        ("Gondel 7 – Süd", "chars 14\n"),
        ("e\u{301}", "chars 2\n"),
        ("\u{feff}a\n", "chars 3\n"),
    ] {
        assert_eq!(printed("chars", text.as_bytes()), wanted, "{text:?}");
    }
}

#[test]
fn what_is_no_text() {
    for bytes in [
        &b"S\xfcd"[..],
        b"\xc0\x80",
        b"\xed\xa0\x80",
        b"\xf4\x90\x80\x80",
        b"Gondel 7 \xe2\x80",
    ] {
        assert_eq!(printed("chars", bytes), "refused 19\n", "{bytes:02x?}");
    }
}

/// Longer than a log's area: a text has no limit.
#[test]
fn a_long_text() {
    let text = "Gondel 7 – Süd".repeat(300_000);
    assert!(text.len() > 4_210_720);
    assert_eq!(printed("chars", text.as_bytes()), "chars 4200000\n");
    let broken = &text.as_bytes()[..text.len() - 2];
    assert_eq!(printed("chars", broken), "refused 19\n");
}

/// A row that is gone, one with two columns, and a third record that isn't.
#[test]
fn items_of_a_batch() {
    let rows = Body::new(9, 2).tombstone("t", 1).present("Süd", 2, 2);
    let rows = rows.column("a", Value::Null).column("", Value::Bool(1));
    let rows = rows.as_ref();
    assert_eq!(printed("items", rows), "end 55 items 4\n");
    let whole = [rows, &[0xff; 4_096]].concat();
    assert_eq!(printed("items", &whole), "end 55 items 4\n");
    assert_eq!(printed("items", &rows[..54]), "refused 17 items 3\n");
    let mut three = rows.to_vec();
    three[16] = 3;
    assert_eq!(printed("items", &three), "refused 17 items 4\n");
    three.resize(200, 2);
    assert_eq!(printed("items", &three), "refused 17 items 4\n");
    three.resize(4_096, 2);
    assert_eq!(printed("items", &three), "refused 18 items 4\n");
}

#[test]
fn what_is_no_batch() {
    assert_eq!(printed("items", b""), "refused 2 items 0\n");
    assert_eq!(printed("items", b"MVCC0001"), "refused 2 items 0\n");
    assert_eq!(printed("items", &[0; 4_096]), "refused 3 items 0\n");
    let empty = Body::new(9, 0);
    assert_eq!(printed("items", empty.as_ref()), "end 18 items 0\n");
}

/// A row's null columns fill a body; whatever it claims, it has no more.
#[test]
fn the_most_items() {
    for (records, columns, length, wanted) in [
        (1, 1_355, 4_096, "end 4096 items 1356\n"),
        (1, u16::MAX, 4_096, "refused 17 items 1356\n"),
        (u16::MAX, 1_355, 4_096, "refused 17 items 1356\n"),
        (1, 1_356, 4_098, "refused 17 items 1356\n"),
        (1, 1_356, 4_099, "end 4099 items 1357\n"),
    ] {
        let row = Body::new(9, records).present("", 0, columns);
        let mut body = row.as_ref().to_vec();
        body.resize(length, 0);
        assert_eq!(printed("items", &body), wanted);
    }
}

#[test]
fn an_unknown_kind_and_a_missing_file_are_told() {
    let file = File::new(b"");
    let output = desk("char", &file);
    let told = String::from_utf8_lossy(&output.stderr);
    assert!(!output.status.success() && output.stdout.is_empty());
    assert!(told.starts_with("usage: "), "{told}");
    fs::remove_file(&file.0).expect("the file");
    let output = desk("chars", &file);
    let told = String::from_utf8_lossy(&output.stderr);
    assert!(!output.status.success() && output.stdout.is_empty());
    assert!(told.contains("No such file"), "{told}");
}
