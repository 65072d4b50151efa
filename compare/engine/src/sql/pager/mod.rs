//! The published files, which stay byte for byte (so no formatting and no
//! lints), and one shim.

#![allow(clippy::all)]

#[rustfmt::skip]
pub mod file;
#[rustfmt::skip]
pub mod header;
#[rustfmt::skip]
pub mod page;
#[rustfmt::skip]
pub mod pager;
#[rustfmt::skip]
pub mod wal;

pub mod table_page;
