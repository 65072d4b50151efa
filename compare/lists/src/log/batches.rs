//! Batch frames: good, undecodable, commit frames.

use super::headers::{CREATED, Header};
use super::place;
use crate::batch::body::{Body, Value};
use crate::cases::Cases;

fn tombstone() -> Body {
    Body::new(9, 1).tombstone("t", -1)
}

fn good_bodies() -> Vec<Body> {
    let row = Body::new(1, 2).present("cabins", 1, 3);
    vec![
        Body::new(0, 0),
        tombstone(),
        row.column("id", Value::Integer(1))
            .column("x", Value::Real(0x7ff0_0000_0000_0001))
            .column("", Value::Bool(2))
            .tombstone("é", i64::MIN),
        // zeros: 370 tombstones, and a row that fills the body
        Body::new(2, 370),
        Body::new(3, 1).present("", 1, 1_355),
        // garbage behind
        tombstone().bytes([0xff; 9]),
    ]
}

fn bad_bodies() -> Vec<Body> {
    let row = Body::new(1, 1).present("t", 1, 1);
    let other_magic = [b"MVCC0002", &tombstone().as_ref()[8..]].concat();
    vec![
        // magic
        Body::from(Vec::new()),
        Body::from(other_magic),
        // truncated
        Body::new(1, 371),
        Body::new(1, 1).present("", 1, 1_356),
        Body::new(1, 1).bytes([0, 0xff, 0xff]),
        row.clone().name("c").bytes([5, 0, 0, 0, 0x40]),
        // op and tag
        Body::new(1, 1).record(2, "t", 1),
        row.clone().name("c").bytes([6]),
        // texts
        Body::new(1, 1).tombstone(b"\xc0\x80", 1),
        row.clone().column(b"\xff", Value::Null),
        row.column("c", Value::Text(b"\xed\xa0\x80")),
    ]
}

pub fn add_all(cases: &mut Cases) {
    bodies(cases);
    damaged(cases);
    versions(cases);
}

/// Each alone, as the commit frame, with page frames around it, and twice.
fn bodies(cases: &mut Cases) {
    for body in good_bodies().into_iter().chain(bad_bodies()) {
        let log = CREATED.log();
        cases.add(log.clone().batch(0, &body));
        cases.add(log.clone().batch(5, &body));
        let page = log.clone().page(1, 0, b"1").batch(7, &body);
        cases.add(page.page(0, 2, b""));
        let committed = log.page(1, 3, b"1").batch(0, &body);
        cases.add(committed.clone().page(2, 4, b"2"));
        cases.add(committed.batch(0, &body));
    }
    // The page number before the batches': any body will do.
    for body in [tombstone(), Body::new(0, 0).bytes(b"x")] {
        cases.add(CREATED.log().page(u32::MAX - 1, 1, body.as_ref()));
    }
}

/// A change that the sum shows isn't counted as undecodable, and one that
/// makes a batch of a page, or a page of a batch, isn't good.
fn damaged(cases: &mut Cases) {
    let log = CREATED.log().page(1, 2, b"1").batch(0, tombstone());
    let log = log.page(0, 3, b"");
    for at in [
        0, 3, 4, 8, 12, 15, 16, 20, 24, 32, 34, 35, 37, 38, 46, 4_111,
    ] {
        for change in [0x01, 0xff] {
            cases.add(log.clone().changed(place(1) + at, change));
        }
    }
    for index in [0, 2] {
        cases.add(log.clone().put(place(index), &[0xff; 4]));
    }
    cases.add(log.clone().put(place(1), &[0; 4]));
    // What the sum doesn't see: another magic, another row, 512 records in
    // place of 1; and page numbers one more in their last byte with a commit
    // count two less, which makes batches of them.
    cases.add(log.clone().put(place(1) + 16, &[b'M' - 1, b'V' + 2]));
    cases.add(log.clone().put(place(1) + 37, &[b't' + 1, 0xff - 2]));
    cases.add(log.put(place(1) + 32, &[0, 2]));
    for body in [tombstone(), Body::from(Vec::new())] {
        for count in [2, 3] {
            let log = CREATED.log().page(0xfeff_ffff, count, body.as_ref());
            let put = log
                .page(1, 1, b"")
                .put(place(0) + 3, &[0xff, count as u8 - 2]);
            cases.add(put);
        }
    }
}

/// Older versions have batches too.
fn versions(cases: &mut Cases) {
    for version in 1..=3 {
        let header = Header {
            version,
            clock: 77,
            ..CREATED
        };
        for body in [&good_bodies()[2], &bad_bodies()[6]] {
            let log = header.log().batch(0, body).page(0, 2, b"");
            cases.add(log.batch(0, body));
        }
    }
}
