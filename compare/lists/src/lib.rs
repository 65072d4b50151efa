//! The fixed lists, and what else of them serves a comparison: pseudo-random
//! numbers and batches, batches printed, logs listed by the Rust, refusals
//! told from its errors.

pub mod batch;
mod cases;
mod checksum;
mod frame;
mod header;
pub mod hex;
pub mod items;
pub mod list;
pub mod log;
#[cfg(feature = "port")]
pub mod port;
pub mod refusal;
mod sum;
mod utf8;

use list::List;

pub fn lists() -> Vec<List> {
    vec![
        header::list(),
        checksum::list(),
        sum::list(),
        utf8::list(),
        batch::list(),
        items::list(),
        log::list(),
    ]
}

#[cfg(test)]
mod tests {
    use super::*;

    #[test]
    fn the_stored_lists_are_those_of_today() {
        for list in lists() {
            assert_eq!(list.check(), Ok(()));
        }
    }
}
