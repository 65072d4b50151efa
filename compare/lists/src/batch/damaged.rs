//! Small batches cut at every length, and changed at every byte.

use super::body::{Body, Value};
use super::{case, whole};
use crate::cases::Cases;

/// How a byte is changed: these bits of it are turned.
pub const CHANGES: [u8; 3] = [0x01, 0x80, 0xff];

/// Nothing, a tombstone, a value of each kind, and two records with all of
/// them.
pub fn small_batches() -> Vec<Body> {
    let single = |value| Body::new(0x0807, 1).present("t", -3, 1).column("c", value);
    vec![
        Body::new(0x0807_0605_0403_0201, 0),
        Body::new(0x0807, 1).tombstone("t", -3),
        single(Value::Null),
        single(Value::Integer(-0x0102_0304_0506)),
        single(Value::Real(0xfff0_0000_0000_0001)),
        single(Value::Text("é".as_bytes())),
        single(Value::Bool(1)),
        single(Value::Vector(&[0x7f80_0001])),
        mixed(),
    ]
}

pub fn mixed() -> Body {
    Body::new(0x0807, 2)
        .present("ß", 1, 6)
        .column("", Value::Null)
        .column("i", Value::Integer(i64::MIN))
        .column("", Value::Real(0x7ff8_0000_0000_0002))
        .column("t", Value::Text("€".as_bytes()))
        .column("", Value::Bool(1))
        .column("v", Value::Vector(&[0xffc0_0000, 0x8000_0000]))
        .tombstone("u", 2)
}

pub fn add_all(cases: &mut Cases) {
    truncated(cases);
    bytes(cases);
}

/// Cut short, and those cut short with zeros in place of what is gone.
fn truncated(cases: &mut Cases) {
    for body in small_batches() {
        let bytes = body.as_ref();
        for length in 0..=bytes.len() {
            cases.add(case(&bytes[..length]));
        }
    }
    let mixed = mixed();
    let bytes = mixed.as_ref();
    for length in 18..bytes.len() {
        cases.add(case(whole(&bytes[..length])));
    }
}

/// Each byte changed in three ways; of the largest one also as it stands in
/// a frame, where a higher count finds zeros.
fn bytes(cases: &mut Cases) {
    for body in small_batches() {
        for at in 0..body.as_ref().len() {
            for change in CHANGES {
                cases.add(case(changed(body.as_ref(), at, change)));
            }
        }
    }
    let mixed = mixed();
    for at in 16..mixed.as_ref().len() {
        cases.add(case(changed(&whole(&mixed), at, 0x01)));
    }
}

pub fn changed(bytes: &[u8], at: usize, change: u8) -> Vec<u8> {
    let mut changed = bytes.to_vec();
    changed[at] ^= change;
    changed
}
