//! Fields that are wrong, and which of two faults is found first.

use super::body::{Body, Value};
use super::samples::NO_TEXTS;
use super::{case, whole};
use crate::cases::Cases;

/// Every length that the body can be cut to, from `first` bytes on.
fn add_cuts(cases: &mut Cases, body: &Body, first: usize) {
    let bytes = body.as_ref();
    for length in first..=bytes.len() {
        cases.add(case(&bytes[..length]));
    }
}

pub fn add_all(cases: &mut Cases) {
    headings(cases);
    ops(cases);
    tags(cases);
    texts(cases);
    two_faults(cases);
}

/// Bodies of up to 18 bytes, and other magics.
fn headings(cases: &mut Cases) {
    let good = Body::new(0x0102_0304_0506_0708, 0);
    for length in 0..=19 {
        for bytes in [[0; 19], [0xff; 19], *b"MVCC0001MVCC0001MVC"] {
            cases.add(case(&bytes[..length]));
        }
    }
    add_cuts(cases, &good, 0);
    for magic in [
        b"MVCC0000",
        b"MVCC0002",
        b"MVCC1000",
        b"mvcc0001",
        b"MVCC001\0",
        b"\0MVCC000",
        b"1000CCVM",
        b"SQLRWAL\0",
        b"SQLRiteF",
    ] {
        let body = [magic, &good.as_ref()[8..]].concat();
        cases.add(case(&body[..17]));
        cases.add(case(whole(&body)));
        cases.add(case(body));
    }
}

/// An op is judged after its table and its row id: where one of those is
/// cut off, the body is truncated, whatever the op.
fn ops(cases: &mut Cases) {
    for op in samples(2) {
        cases.add(case(Body::new(1, 1).record(op, "", 0)));
        cases.add(case(whole(Body::new(1, 1).record(op, "t", 1))));
    }
    for op in [0, 1, 2, 0x80, 0xff] {
        add_cuts(cases, &Body::new(1, 1).record(op, "été", -2), 18);
        let second = Body::new(1, 2).tombstone("a", 1).record(op, "", 1);
        cases.add(case(second));
        let long = Body::new(1, 1).bytes([op]).bytes([0xff, 0xff]);
        cases.add(case(whole(&long)));
        cases.add(case(long));
        let columns = Body::new(1, 1).record(op, "t", 1);
        cases.add(case(columns.bytes([1, 0, 1, 0, b'c', 1, 2, 3, 4])));
    }
}

/// A tag is judged before what is behind it.
fn tags(cases: &mut Cases) {
    let row = Body::new(1, 1).present("t", 1, 1).name("c");
    for tag in samples(6) {
        cases.add(case(row.clone().bytes([tag])));
        cases.add(case(whole(row.clone().bytes([tag]))));
    }
    for tag in [6, 0xff] {
        let second = Body::new(1, 1).present("t", 1, 2);
        let second = second.column("a", Value::Bool(1)).name("b").bytes([tag]);
        cases.add(case(second));
        let in_second_record = Body::new(1, 2).present("t", 1, 0);
        let in_second_record = in_second_record.present("u", 1, 1).name("").bytes([tag]);
        cases.add(case(in_second_record));
    }
}

/// Some of all bytes from the first unknown one on.
fn samples(first: u8) -> impl Iterator<Item = u8> {
    (first..=16)
        .chain((17..=255).step_by(7))
        .chain([0x80, 0xfe])
}

/// What isn't text, in each place that a text has: whole; with its own end
/// cut off, which is judged before; and cut right behind it or with another
/// op or tag, which are judged later.
fn texts(cases: &mut Cases) {
    for bad in NO_TEXTS {
        for op in [0, 1, 2, 0xff] {
            let table = Body::new(1, 1).record(op, bad, 1);
            let end = 21 + bad.len();
            cases.add(case(&table.as_ref()[..end - 1]));
            cases.add(case(&table.as_ref()[..end]));
            cases.add(case(table));
        }
        let row = Body::new(1, 1).present("", 1, 1);
        for tag in [0, 1, 6] {
            let name = row.clone().name(bad).bytes([tag]);
            add_cuts(cases, &name, 33 + bad.len() - 1);
        }
        let text = row.column("", Value::Text(bad)).bytes([0]);
        add_cuts(cases, &text, 38 + bad.len() - 1);
    }
    // A sequence whose last byte is behind the text's end.
    let apart = Body::new(1, 1).bytes([0]).bytes([1, 0]).bytes("é");
    cases.add(case(whole(apart)));
    let apart = Body::new(1, 1).present("", 1, 1).bytes([1, 0]).bytes("é");
    cases.add(case(whole(apart)));
    let apart = Body::new(1, 1).present("", 1, 1).name("");
    cases.add(case(whole(apart.bytes([3, 1, 0, 0, 0]).bytes("é"))));
}

/// Two records or columns, each good or with a fault of its own: the first
/// fault counts.
fn two_faults(cases: &mut Cases) {
    let good = Body::new(1, 1).tombstone("ok", 1);
    let bad_text = Body::new(1, 1).tombstone(b"\xff", 1);
    let bad_op = Body::new(1, 1).record(9, "t", 1);
    let bad_tag = Body::new(1, 1).present("t", 1, 1).name("c").bytes([8]);
    let long_name = Body::new(1, 1).present("t", 1, 1).bytes([0xff, 0xff, 9]);
    let long_text = Body::new(1, 1).present("t", 1, 1).name("c");
    let long_text = long_text.bytes([3, 0xff, 0xff, 0xff, 0xff, 0xff]);
    let all = [good, bad_text, bad_op, bad_tag, long_name, long_text];
    for first in &all {
        for second in &all {
            let body = Body::new(1, 2).bytes(&first.as_ref()[18..]);
            cases.add(case(body.bytes(&second.as_ref()[18..])));
        }
    }
    let columns = [
        &b"\x01\x00c\x00"[..],            // null
        b"\x01\x00\xff\x00",              // no text
        b"\x01\x00c\x07",                 // unknown tag
        b"\xff\x7fc\x00",                 // too long
        b"\x01\x00c\x05\x00\x00\x00\x40", // too many elements
    ];
    for first in columns {
        for second in columns {
            let row = Body::new(1, 1).present("t", 1, 2);
            cases.add(case(row.bytes(first).bytes(second)));
        }
    }
}
