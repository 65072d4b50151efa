//! The functions that are timed.

use crate::pages::FRAME_SIZE;

/// One side of the comparison. To add one: a module with such a table, and
/// its entry in `sides`.
pub struct Side {
    pub name: &'static str,
    /// The sum over bytes, from 0.
    pub sum: fn(&[u8]) -> u32,
    /// The sum over a frame's first 12 bytes and its body.
    pub frame: fn(&[u8; FRAME_SIZE]) -> u32,
}
