//! The unchanged Rust, seen through the stand-in: its salts, its stores and
//! flushes as document 01 names them, and cuts inside them.

mod common;
mod cuts;
mod listing;
mod log;
mod salts;
