//! Batches that decode.

use splitmix::Random;

use super::body::{Body, Value};
use super::samples::{FLOATS, INTEGERS, REALS};
use super::{case, whole};
use crate::cases::Cases;
use crate::utf8::samples::SCRIPTS;

/// A body that ends with its batch, and the same as a frame has it.
fn add(cases: &mut Cases, body: Body) {
    cases.add(case(&body));
    cases.add(case(whole(&body)));
}

/// One row with one column.
fn single(value: Value) -> Body {
    Body::new(7, 1).present("t", 1, 1).column("c", value)
}

pub fn add_all(cases: &mut Cases) {
    numbers(cases);
    values(cases);
    sweeps(cases);
    texts(cases);
    vectors(cases);
    records(cases);
    garbage_behind(cases);
}

/// Commit times and row ids.
fn numbers(cases: &mut Cases) {
    for time in INTEGERS.map(|number| number as u64) {
        add(cases, Body::new(time, 0));
    }
    for row in INTEGERS {
        add(cases, Body::new(1, 1).tombstone("t", row));
        cases.add(case(Body::new(1, 1).present("", row, 0)));
    }
}

fn values(cases: &mut Cases) {
    add(cases, single(Value::Null));
    for number in INTEGERS {
        add(cases, single(Value::Integer(number)));
    }
    for bits in REALS {
        add(cases, single(Value::Real(bits)));
    }
    for byte in [0, 1, 2, 3, 0x7f, 0x80, 0xfe, 0xff] {
        add(cases, single(Value::Bool(byte)));
    }
    for bits in FLOATS {
        cases.add(case(single(Value::Vector(&[bits]))));
    }
}

/// Each bit of an integer and of a real alone, each payload bit of a NaN
/// (all but the highest: signalling), each byte of a bool.
fn sweeps(cases: &mut Cases) {
    let columns = |count, of: &dyn Fn(u16) -> Value<'static>| {
        (0..count).fold(Body::new(1, 1).present("", 0, count), |body, index| {
            body.column("", of(index))
        })
    };
    add(cases, columns(64, &|bit| Value::Integer(1 << bit)));
    add(cases, columns(64, &|bit| Value::Real(1 << bit)));
    for sign in [0x7ff0 << 48, 0xfff0 << 48] {
        add(cases, columns(52, &|bit| Value::Real(sign | 1 << bit)));
    }
    add(cases, columns(256, &|byte| Value::Bool(byte as u8)));
}

/// Every script in each place that a text has, and long texts.
fn texts(cases: &mut Cases) {
    add(cases, Body::new(1, 1).tombstone("", 1));
    add(cases, Body::new(1, 1).present("", 1, 0));
    add(cases, single(Value::Text(b"")));
    for script in SCRIPTS {
        let text = script.as_bytes();
        cases.add(case(Body::new(1, 1).tombstone(text, -1)));
        let row = Body::new(1, 1).present("", 1, 1);
        cases.add(case(row.column(text, Value::Null)));
        cases.add(case(single(Value::Text(text))));
    }
    for letter in ["a", "é", "€", "😀", "\0"] {
        for length in [2, 63, 256, 300] {
            let text = letter.repeat(length / letter.len());
            cases.add(case(single(Value::Text(text.as_bytes()))));
        }
    }
    let everywhere = Body::new(1, 2)
        .tombstone("таблица", 1)
        .present("表", 2, 2)
        .column("имя", Value::Text("значение".as_bytes()))
        .column("名", Value::Text("値".as_bytes()));
    add(cases, everywhere);
}

fn vectors(cases: &mut Cases) {
    add(cases, single(Value::Vector(&[])));
    add(cases, single(Value::Vector(&FLOATS)));
    for count in [2, 3, 255, 256, 257, 1_000] {
        add(cases, single(Value::Vector(&vec![0; count])));
    }
    let mut random = Random::new(5);
    let drawn: Vec<_> = (0..250).map(|_| random.u32()).collect();
    cases.add(case(single(Value::Vector(&drawn))));
}

/// Several records, with columns of all kinds; none; and some alike.
fn records(cases: &mut Cases) {
    add(cases, all_kinds());
    for count in 0..5 {
        let tombstones = (0..count).fold(Body::new(9, count), |body, index| {
            body.tombstone(["a", "bc", ""][index as usize % 3], index.into())
        });
        add(cases, tombstones);
        let rows = (0..count).fold(Body::new(9, count), |body, index| {
            (0..index).fold(body.present("r", -1, index), |body, column| {
                body.column("", Value::Bool(column as u8))
            })
        });
        add(cases, rows);
    }
    let mixed = Body::new(u64::MAX, 4)
        .present("t", 1, 1)
        .column("c", Value::Null)
        .tombstone("t", 1)
        .present("t", 1, 0)
        .tombstone("u", i64::MIN);
    add(cases, mixed);
    let alike = Body::new(1, 2)
        .present("t", 1, 2)
        .column("c", Value::Integer(1))
        .column("c", Value::Integer(2))
        .present("t", 1, 2)
        .column("c", Value::Integer(1))
        .column("c", Value::Integer(2));
    add(cases, alike);
}

/// Two records with a column of every kind.
fn all_kinds() -> Body {
    Body::new(0x1122_3344_5566_7788, 2)
        .present("cabins", 12, 7)
        .column("id", Value::Integer(-12))
        .column("load", Value::Real(0x4059_0000_0000_0000))
        .column("name", Value::Text("Gondel Süd".as_bytes()))
        .column("grip", Value::Bool(2))
        .column("note", Value::Null)
        .column("wear", Value::Vector(&FLOATS[7..10]))
        .column("none", Value::Vector(&[]))
        .tombstone("cabins", 13)
}

/// Bytes behind the last record are ignored, whatever they are.
fn garbage_behind(cases: &mut Cases) {
    let one = Body::new(3, 1).tombstone("t", 4);
    for body in [Body::new(3, 0), one.clone(), single(Value::Bool(0xff))] {
        for garbage in [
            &b"\x00"[..],
            b"\xff",
            b"\x00\x01",
            b"\x01\xff\xff\xff\xff\xff\xff\xff\xff\xff\xff\xff",
            b"MVCC0001",
            &one.as_ref()[18..],
        ] {
            add(cases, body.clone().bytes(garbage));
        }
    }
    let mut far_behind = whole(&one);
    far_behind[4_093] = 0x5a;
    cases.add(case(far_behind));
}
