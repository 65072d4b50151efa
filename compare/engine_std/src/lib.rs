//! The files of `engine` once more, over the real `std`: here they say `std`
//! and get it, so a log is a file of the machine. For times that the
//! stand-in has no part in.

#[path = "../../engine/src/error.rs"]
pub mod error;
#[path = "../../engine/src/mvcc/mod.rs"]
pub mod mvcc;
#[path = "../../engine/src/sql/mod.rs"]
pub mod sql;
