//! Shim of the source's `mvcc`: `log.rs` itself, which stays byte for byte
//! (so no formatting) and, of `store.rs`, the two types that a batch is made
//! of.

#[rustfmt::skip]
pub mod log;

pub use log::{MVCC_FRAME_MARKER, MvccCommitBatch, MvccLogRecord};

use crate::sql::db::table::Value;

#[derive(Debug, Clone, PartialEq, Eq, Hash)]
pub struct RowID {
    pub table: String,
    pub rowid: i64,
}

impl RowID {
    pub fn new(table: impl Into<String>, rowid: i64) -> Self {
        Self {
            table: table.into(),
            rowid,
        }
    }
}

#[derive(Debug, Clone, PartialEq)]
pub enum VersionPayload {
    Present(Vec<(String, Value)>),
    Tombstone,
}
