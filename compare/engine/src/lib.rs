//! The log and pager of joaoh82/rust_sqlite, as an oracle.
//!
//! Six files are the published ones, byte for byte (`SHA256SUMS` lists
//! them): `mvcc/log.rs` and, below `sql/pager/`, `file.rs`, `header.rs`,
//! `page.rs`, `pager.rs` and `wal.rs`. Every other file here is a shim that
//! gives them just the names they import.
//!
//! The files say `std` and get `stand_in`: the real library but for files
//! and clock, which are the caller's.

extern crate stand_in as std;

pub mod error;
pub mod mvcc;
pub mod sql;
