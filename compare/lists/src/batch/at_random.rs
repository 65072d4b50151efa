//! Pseudo-random batches, good and damaged.

use splitmix::Random;

use super::body::{Body, Value};
use super::samples::{FLOATS, INTEGERS, REALS};
use super::{case, whole};
use crate::cases::Cases;

const NAMES: [&str; 10] = ["", "", "a", "id", "t1", "é", "名", "😀", "x y", "\0"];

pub fn add_all(cases: &mut Cases) {
    batches(cases);
    garbage(cases);
}

/// Half of them good, the others with a byte replaced, removed or put in;
/// every third as it stands in a frame.
fn batches(cases: &mut Cases) {
    let mut random = Random::new(6);
    for round in 0..400 {
        let mut bytes = bytes(&mut random, round % 6);
        if random.below(3) == 0 {
            bytes = whole(bytes);
        }
        cases.add(case(bytes));
    }
}

/// A batch, by its bytes. In the ways 0 to 2 one of them is replaced, removed
/// or put in.
pub fn bytes(random: &mut Random, way: usize) -> Vec<u8> {
    let mut bytes = batch(random).as_ref().to_vec();
    // The heading's faults are few and found elsewhere.
    let at = 16 + random.below(bytes.len() - 16);
    let byte = random.pick(&[0, 1, 2, 3, 4, 5, 6, 8, 0x7f, 0x80, 0xc3, 0xff]);
    match way {
        0 => bytes[at] = byte,
        1 => drop(bytes.remove(at)),
        2 => bytes.insert(at, byte),
        _ => {}
    }
    bytes
}

fn batch(random: &mut Random) -> Body {
    let records = random.below(4);
    let body = Body::new(random.u64() >> random.below(64), records as u16);
    (0..records).fold(body, |body, _| record(random, body))
}

fn record(random: &mut Random, body: Body) -> Body {
    let table = random.pick(&NAMES);
    let row = integer(random);
    if random.below(3) == 0 {
        return body.tombstone(table, row);
    }
    let columns = random.below(4);
    let body = body.present(table, row, columns as u16);
    (0..columns).fold(body, |body, _| column(random, body))
}

fn column(random: &mut Random, body: Body) -> Body {
    let name = random.pick(&NAMES);
    match random.below(6) {
        0 => body.column(name, Value::Null),
        1 => body.column(name, Value::Integer(integer(random))),
        2 => {
            let drawn = random.u64();
            body.column(
                name,
                Value::Real(random.pick(&[REALS[drawn as usize % 26], drawn])),
            )
        }
        3 => {
            let text = random.pick(&NAMES).repeat(random.below(4));
            body.column(name, Value::Text(text.as_bytes()))
        }
        4 => body.column(name, Value::Bool(random.pick(&[0, 1, 1, 2, 0xff]))),
        _ => {
            let count = random.below(4);
            let elements: Vec<_> = (0..count).map(|_| random.pick(&FLOATS)).collect();
            body.column(name, Value::Vector(&elements))
        }
    }
}

fn integer(random: &mut Random) -> i64 {
    let drawn = random.u64() as i64 >> random.below(64);
    let sample = random.pick(&INTEGERS);
    random.pick(&[drawn, sample])
}

/// Small bytes behind a good heading, so that some of it decodes.
fn garbage(cases: &mut Cases) {
    let mut random = Random::new(7);
    for round in 0..150 {
        let records = 1 + random.below(3);
        let mut body = Body::new(round, records as u16);
        for _ in 0..12 + random.below(40) {
            let any = random.u8();
            let byte = random.pick(&[0, 0, 0, any % 7, any % 7, any]);
            body = body.bytes([byte]);
        }
        cases.add(case(whole(body)));
    }
}
