//! The functions that are timed.

use engine::mvcc::MvccCommitBatch;

/// One side of the comparison. To add one: a module with such a table, and
/// its entry in `sides`. The answers are only there to be used, so that no
/// compiler leaves the work out.
pub struct Side {
    pub name: &'static str,
    /// Decodes a body.
    pub decode: fn(&[u8]) -> u64,
    /// Decodes a body that may be refused, and tells whether it is.
    pub refuse: fn(&[u8]) -> bool,
    /// Writes a batch's body. The Rust's `encode` has a body of its own, and
    /// only the others write to the one that is lent.
    pub encode: fn(&MvccCommitBatch, &mut [u8]) -> u64,
    /// Writes the body that `encode` writes for the batch of a body: decodes
    /// and encodes.
    pub canonical: fn(&[u8], &mut [u8]) -> u64,
}
