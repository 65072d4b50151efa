//! The standard library, but for its files and its clock.
//!
//! A crate that says `extern crate stand_in as std;` gets the real `std`
//! with three modules replaced: [`fs`] and [`path`] name files in memory,
//! and [`time`] has a clock that tells what the caller wants. Its sources
//! stay as they are.
//!
//! The caller's side is [`world`]: put and take the files' bytes, give the
//! salts, list every store, cut one after any byte. A world belongs to its
//! thread, so tests run side by side.

pub use ::std::*;

pub mod fs;
pub mod path;
pub mod time;
pub mod world;

mod disk;
mod salts;
mod stores;
