//! Bodies made by hand: every refusal behind items of every kind, and the
//! heaviest bodies.

use ::items::LONGEST;

use super::{WHOLE, case, null_columns, tombstones};
use crate::batch::body::{Body, Value};
use crate::batch::samples::NO_TEXTS;
use crate::batch::whole;
use crate::cases::Cases;

/// The lengths around those at which an item more fits.
const LENGTHS: [usize; 6] = [4_095, 4_096, 4_097, LONGEST, LONGEST + 1, LONGEST + 2];

pub fn add_all(cases: &mut Cases) {
    headings(cases);
    records(cases);
    columns(cases);
    heaviest(cases);
    mixed(cases);
    claimed(cases);
}

/// A body that ends with what it has, and the same as a frame has it.
fn add(cases: &mut Cases, body: Body) {
    cases.add(case(WHOLE, &body));
    cases.add(case(WHOLE, whole(body)));
}

/// Refused by its heading, whatever stands behind it; and no record at all.
fn headings(cases: &mut Cases) {
    let row = Body::new(14, 1).tombstone("t", 1);
    for length in 0..18 {
        cases.add(case(WHOLE, &row.as_ref()[..length]));
    }
    for magic in [b"MVCC0000", b"MVCC0002", b"mvcc0001", b"\0\0\0\0\0\0\0\0"] {
        let other = [magic, &row.as_ref()[8..]].concat();
        add(cases, other.into());
    }
    add(cases, Body::new(14, 0));
    add(cases, Body::new(14, 0).tombstone("t", 1));
}

/// A part of a body, empty yet.
fn part() -> Body {
    Vec::new().into()
}

/// Every beginning of a part, the whole too.
fn beginnings(part: &Body) -> impl Iterator<Item = Body> {
    let bytes = part.as_ref();
    (0..=bytes.len()).map(|length| bytes[..length].to_vec().into())
}

/// Records behind others: whole, cut anywhere, of a table that is no text, or
/// with an op that is unknown, which table and row id are read before.
fn records(cases: &mut Cases) {
    let two = part()
        .present("t", 3, 2)
        .column("a", Value::Null)
        .column("", Value::Text("ü".as_bytes()))
        .tombstone("t", 4);
    let before = [
        (0, part()),
        (1, part().tombstone("", -1)),
        (1, part().present("é", 2, 0)),
        (2, two),
    ];
    let mut last = Vec::new();
    for op in [0, 1, 2, 0x80, 0xff] {
        last.push(part().bytes([op, 0xff, 0xff]));
        last.push(part().record(op, NO_TEXTS[0], 1));
        last.push(part().record(op, NO_TEXTS[8], 1));
    }
    for good in [part().tombstone("t", 5), part().present("t", 5, 0)] {
        last.extend(beginnings(&good));
    }
    last.extend([0x80, 0xff].map(|op| part().record(op, "t", 5)));
    last.extend(beginnings(&part().record(2, "t", 5)));
    for (count, front) in before {
        for last in &last {
            add(cases, Body::new(14, count + 1).bytes(&front).bytes(last));
        }
    }
}

/// Columns behind a tombstone, their record and none to three others.
fn columns(cases: &mut Cases) {
    let three = part()
        .column("", Value::Bool(7))
        .column("é", Value::Integer(-1))
        .column("v", Value::Vector(&[1, 2]));
    let before = [
        (0, part()),
        (1, part().column("n", Value::Null)),
        (3, three),
    ];
    let last = last_columns();
    for (count, front) in before {
        for last in &last {
            let row = Body::new(14, 2).tombstone("", 1);
            let row = row.present("t", 2, count + 1).bytes(&front);
            add(cases, row.bytes(last));
        }
    }
}

/// Of every kind, whole and cut anywhere; names and texts that are no text or
/// too long, unknown tags, too many elements.
fn last_columns() -> Vec<Body> {
    let mut last: Vec<Body> = [
        Value::Null,
        Value::Integer(-1),
        Value::Real(0x7ff8_0000_0000_0001),
        Value::Text("€".as_bytes()),
        Value::Bool(1),
        Value::Vector(&[0x8000_0000]),
    ]
    .into_iter()
    .flat_map(|value| beginnings(&part().column("c", value)).collect::<Vec<_>>())
    .collect();
    for bad in NO_TEXTS {
        last.push(part().column(bad, Value::Null));
        last.push(part().column("", Value::Text(bad)));
    }
    for bytes in [
        &b"\xff\xffc"[..],
        b"\0\0\x06",
        b"\0\0\x07",
        b"\0\0\x80",
        b"\0\0\xff",
        b"\0\0\x03\xff\xff\xff\xff",
        b"\0\0\x05\0\0\0\x40",
        b"\0\0\x05\xff\xff\xff\xff",
    ] {
        last.push(part().bytes(bytes));
    }
    last
}

/// As many null columns as fit, and as many tombstones; one more, one less.
fn heaviest(cases: &mut Cases) {
    for length in LENGTHS {
        for count in 1_354..=1_357 {
            cases.add(case(WHOLE, null_columns(1, count, length)));
        }
        for count in 369..=372 {
            cases.add(case(WHOLE, tombstones(count, length)));
        }
    }
    // refused at the last column: by its tag, and by its name
    let row = Body::new(14, 1).present("", 0, 1_353);
    let nulls = (0..1_352).fold(row, |row, _| row.column("", Value::Null));
    cases.add(case(WHOLE, nulls.clone().bytes([0, 0, 6])));
    cases.add(case(WHOLE, nulls.bytes([1, 0, 0xff])));
}

/// Rows and tombstones that fill a body together.
fn mixed(cases: &mut Cases) {
    for records in [100, 101, 102] {
        cases.add(case(WHOLE, null_columns(records, 988, 4_096)));
    }
    let rows = (0..90).fold(Body::new(14, 90), |body, row| {
        let body = body.present("", row, 10);
        (0..10).fold(body, |body, _| body.column("", Value::Null))
    });
    add(cases, rows);
    let bools = Body::new(14, 1).present("", 0, 1_015);
    add(
        cases,
        (0..1_015).fold(bools, |body, n| body.column("", Value::Bool(n as u8))),
    );
}

/// More records and columns claimed than any body has.
fn claimed(cases: &mut Cases) {
    for count in [1_358, 4_096, 0x7fff, 0x8000, 0xffff] {
        for length in LENGTHS {
            cases.add(case(WHOLE, null_columns(1, count, length)));
            cases.add(case(WHOLE, null_columns(count, 1_355, length)));
            cases.add(case(WHOLE, null_columns(count, count, length)));
            cases.add(case(WHOLE, tombstones(count, length)));
        }
        for length in [18, 28, 29, 30, 31, 33, 34, 40] {
            cases.add(case(WHOLE, null_columns(1, count, length)));
            cases.add(case(WHOLE, tombstones(count, length)));
        }
    }
}
