//! The Rust's side: the loop of `compute_checksum`, which is private to
//! wal.rs.

use crate::pages::{FRAME_SIZE, HEADING_SIZE, PAGE_SIZE};
use crate::side::Side;

pub const SIDE: Side = Side {
    name: "Rust",
    sum: |bytes| sum_over(0, bytes),
    frame: |frame| {
        let sum = sum_over(0, &frame[..HEADING_SIZE]);
        sum_over(sum, &frame[FRAME_SIZE - PAGE_SIZE..])
    },
};

#[inline(never)]
fn sum_over(start: u32, bytes: &[u8]) -> u32 {
    let mut sum = start;
    for &b in bytes {
        sum = sum.rotate_left(1).wrapping_add(b as u32);
    }
    sum
}
