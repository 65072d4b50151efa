//! Batches as text: what is printed reads back, and what is unclear is told by its line.
mod common;

use common::WorkDir;
use std::fs;

#[test]
fn batches_go_round() {
    let dir = WorkDir::with_store();
    let text = r#"batch 18446744073709551615
tombstone "cabins" -9223372036854775808
present "" 7
present "Kabinen \"grün\" # \\ \n\t\r\u{0}\u{7f}" 8
  column "nothing" null
  column "whole" integer -5
  column "" real 0.1
  column "big" real 1e300
  column "zero" real -0.0
  column "inf" real -inf
  column "nan" real 0xfff8000000000001
  column "text" text "Änne 🚡"
  column "empty" text ""
  column "yes" bool true
  column "no" bool false
  column "v" vector 1.5 -0.0 inf 0x7fc00001 3.4028235e38
  column "none" vector
batch 0
"#;
    dir.text("first", text);
    assert_eq!(
        dir.done("append grips first"),
        "committed; pages that differed: 0; batches sealed: 2\n"
    );
    assert_eq!(dir.shows("batches grips"), text);
    dir.done("create other");
    dir.text("again", &dir.shows("batches grips"));
    dir.done("commit other --batch again 1=p1");
    let bodies = |log: &str| fs::read(dir.path(log)).unwrap();
    let (one, two) = (bodies("grips-wal"), bodies("other-wal"));
    assert_eq!(one[32 + 6 * 4112 + 16..][..4096], two[32 + 16..][..4096]);
    assert_eq!(dir.shows("log other").lines().nth(1), Some("0 batch 3 0"));
    assert_eq!(dir.shows("batches other"), text);
}

#[test]
fn other_writings_of_a_batch_are_read() {
    let dir = WorkDir::with_store();
    dir.text(
        "loose",
        "# a comment\n\n  batch 3 # time\n\tpresent\"t\"1\ncolumn \"r\" real 5\ncolumn \"b\" real 0x3FF0000000000000\n",
    );
    dir.done("append grips loose");
    assert_eq!(
        dir.shows("batches grips"),
        "batch 3\npresent \"t\" 1\n  column \"r\" real 5.0\n  column \"b\" real 1.0\n"
    );
}

#[test]
fn unclear_batches_are_status_2_and_refused_ones_1() {
    let dir = WorkDir::with_store();
    let long = format!("batch 1\ntombstone \"{}\" 1\n", "t".repeat(5000));
    let table = [
        ("tombstone \"t\" 1\n", 2, "text, line 1: no batch has begun"),
        ("batch\n", 2, "text, line 1: expected: batch TIME"),
        ("batch -1\n", 2, "\"-1\" does not fit here"),
        ("batch 1\nrow \"t\" 1\n", 2, "text, line 2: row is none of"),
        ("batch 1\npresent t 1\n", 2, "expected: present \"TABLE\" ROWID"),
        ("batch 1\npresent \"t\" 1\ncolumn \"c\" integer 1.5\n", 2, "\"1.5\" does not fit"),
        (
            "batch 1\npresent \"t\" 1\ncolumn \"c\" real nan\n",
            2,
            "a NaN is written by its bits",
        ),
        ("batch 1\npresent \"t\" 1\ncolumn \"c\" real 0x1\n", 2, "0x wants 16"),
        ("batch 1\npresent \"t\" 1\ncolumn \"c\" vector \"1\"\n", 2, "an element is a number"),
        ("batch 1\npresent \"t\" 1\ncolumn \"c\" blob 1\n", 2, "no such value: blob"),
        ("batch 1\npresent \"t 1\n", 2, "a closing quote is missing"),
        ("batch 1\npresent \"\\x\" 1\n", 2, "no such escape"),
        ("batch 1\npresent \"\\u{d800}\" 1\n", 2, "no such escape"),
        ("\"batch\" 1\n", 2, "a line begins with a word"),
        ("batch 1\ncolumn \"c\" null\n", 1, "text, line 2: refused 21 NoRecord: "),
        (&long, 1, "text, line 2: refused 20 Fit: "),
    ];
    for (text, status, message) in table {
        dir.text("text", text);
        dir.fails("append grips text", status, message);
    }
}

#[test]
fn a_number_that_is_too_large_is_no_infinity() {
    let dir = WorkDir::with_store();
    let row = "batch 1\npresent \"t\" 1\n";
    for word in ["1e999", "-1e999", "+1E999", "1.8e308", &"9".repeat(400)] {
        for value in [format!("real {word}"), format!("vector 1 {word}")] {
            dir.text("text", &format!("{row}column \"c\" {value}\n"));
            dir.fails("append grips text", 2, &format!("text, line 3: \"{word}\" does not fit here"));
        }
    }
    dir.text("text", &format!("{row}\ncolumn \"c\" vector 1e39\n"));
    dir.fails("append grips text", 2, "text, line 4: \"1e39\" does not fit here");
    let written = "column \"r\" real 1e39\n column \"a\" real inf\n column \"b\" real -Infinity\n column \"c\" real +INF\n\
                   column \"d\" real 0xfff0000000000000\ncolumn \"v\" vector infinity -inf 0x7f800000 3.4028235e38\n";
    dir.text("text", &format!("{row}{written}"));
    dir.done("append grips text");
    let printed = "  column \"r\" real 1e39\n  column \"a\" real inf\n  column \"b\" real -inf\n  column \"c\" real inf\n  \
                   column \"d\" real -inf\n  column \"v\" vector inf -inf inf 3.4028235e38\n";
    assert_eq!(dir.shows("batches grips"), format!("{row}{printed}"));
    dir.text("text", &dir.shows("batches grips"));
    dir.done("append grips text");
    assert_eq!(dir.shows("batches grips"), format!("{row}{printed}").repeat(2));
}
