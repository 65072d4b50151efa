//! The proved programs as they are called: a standard input that can't be read
//! is told from one that ends, a listing that can't be written is reported too,
//! and `batchlist` prints a body as the Rust has it.

use std::fs::File;
use std::io::Write;
use std::path::Path;
use std::process::{Command, Output, Stdio};

/// Each program, with the words that it is called with.
const PROGRAMS: [&[&str]; 9] = [
    &["loglist"],
    &["batchlist"],
    &["batchlist", "replay"],
    &["header_replay"],
    &["checksum_replay"],
    &["sum_replay"],
    &["utf8_replay"],
    &["items_replay"],
    &["log_replay"],
];

/// Where `rt run` leaves a program.
fn path(name: &str) -> String {
    let path = format!("{}/../../crates/{name}/out/{name}", env!("CARGO_MANIFEST_DIR"));
    assert!(Path::new(&path).is_file(), "rt run in crates/{name} makes {path}");
    path
}

/// What a program writes to standard output and to standard error.
fn printed(output: &Output) -> (&str, &str) {
    let text = |bytes| str::from_utf8(bytes).expect("text");
    (text(&output.stdout), text(&output.stderr))
}

fn assert_not_read(name: &str, output: &Output) {
    let line = format!("{name}: reading standard input failed\n");
    assert_eq!(printed(output), ("", line.as_str()));
}

#[test]
fn an_input_that_is_a_folder_is_not_read() {
    for words in PROGRAMS {
        let folder = File::open("/").expect("the root folder");
        let output = Command::new(path(words[0]))
            .args(&words[1..])
            .stdin(folder)
            .output()
            .expect("the program");
        assert_not_read(words[0], &output);
    }
}

#[test]
fn a_closed_input_is_not_read() {
    for words in PROGRAMS {
        let output = Command::new("sh")
            .args(["-c", r#"exec "$@" <&-"#, "sh", &path(words[0])])
            .args(&words[1..])
            .output()
            .expect("the program");
        assert_not_read(words[0], &output);
    }
}

#[test]
fn a_listing_that_cant_be_written_is_reported() {
    let full = File::options()
        .write(true)
        .open("/dev/full")
        .expect("a full device");
    let output = Command::new(path("loglist"))
        .stdin(Stdio::null())
        .stdout(full)
        .output()
        .expect("the program");
    let line = "loglist: writing standard output failed\n";
    assert_eq!(printed(&output), ("", line));
}

#[test]
fn an_empty_input_has_ended() {
    for name in ["loglist", "batchlist"] {
        let output = Command::new(path(name))
            .stdin(Stdio::null())
            .output()
            .expect("the program");
        assert_eq!(printed(&output), ("refused 2\n", ""), "{name}");
    }
}

/// What `batchlist` prints of a body.
fn batchlist(body: &[u8]) -> String {
    let mut program = Command::new(path("batchlist"))
        .stdin(Stdio::piped())
        .stdout(Stdio::piped())
        .spawn()
        .expect("the program");
    let mut stdin = program.stdin.take().expect("a pipe");
    stdin.write_all(body).expect("the body is read");
    drop(stdin);
    let output = program.wait_with_output().expect("the program");
    String::from_utf8(output.stdout).expect("text")
}

/// Every hundredth body of the list; beside a list's answer the program has the
/// zeros at the end of what a batch is encoded in.
#[test]
fn batchlist_prints_a_body() {
    let list = lists::batch::list();
    for case in list.cases.iter().step_by(100) {
        let mut body = case[2..].to_vec();
        body.resize(u16::from_le_bytes([case[0], case[1]]).into(), 0);
        let mut wanted = (list.answer)(case);
        if let Some((_, digits)) = wanted.rsplit_once("encoded ") {
            wanted.push_str(&"0".repeat(2 * 4096 - digits.len()));
        }
        assert_eq!(batchlist(&body), wanted + "\n");
    }
    assert_eq!(batchlist(&[0; 4097]), "refused 1\n");
}
