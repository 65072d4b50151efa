//! The Rust's side, which doesn't keep the number of characters: the check
//! alone, and with the number counted behind it.

use std::hint::black_box;

pub const CHECK: fn(&[u8]) -> u64 = |bytes| checked(bytes).len() as u64;

pub const COUNT: fn(&[u8]) -> u64 = |bytes| checked(bytes).chars().count() as u64;

fn checked(bytes: &[u8]) -> &str {
    str::from_utf8(black_box(bytes)).expect("a text")
}
