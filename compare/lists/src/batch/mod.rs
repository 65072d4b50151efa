//! batchlist: `MvccCommitBatch::decode` and `encode` of mvcc/log.rs.
//!
//! A case describes a body of 0 to 4,096 bytes: its length (2 bytes, little
//! endian), and its bytes without the zeros at its end.

pub mod at_random;
pub mod body;
#[cfg(test)]
pub mod by_document;
pub(crate) mod damaged;
mod faults;
mod good;
pub(crate) mod limits;
pub mod print;
pub(crate) mod samples;

use engine::mvcc::MvccCommitBatch;
use engine::sql::pager::page::PAGE_SIZE;

use crate::cases::Cases;
use crate::hex;
use crate::list::List;
use crate::refusal;

pub fn list() -> List {
    List {
        name: "batchlist",
        longest: 4_096,
        room: 399_999,
        cases: cases(),
        preamble: Vec::new(),
        answer,
    }
}

/// The batch printed, and what encoding makes of it.
fn answer(case: &[u8]) -> String {
    match MvccCommitBatch::decode(&body(case)) {
        Ok(batch) => {
            let encoded = batch.encode().expect("what came out of a body fits in one");
            let mut lines = print::lines(&batch);
            lines.push(format!("encoded {}", hex::digits(shortened(&encoded[..]))));
            lines.join("\n")
        }
        Err(error) => refusal::answer(&error, &REFUSALS),
    }
}

/// By the text of the check that refused.
pub const REFUSALS: [(&str, u32); 6] = [
    ("body shorter than fixed header", 2),
    ("bad magic", 3),
    ("MVCC log: truncated", 17),
    ("unknown op tag", 18),
    ("unknown value tag", 18),
    ("invalid UTF-8", 19),
];

pub(crate) fn body(case: &[u8]) -> Vec<u8> {
    let length = u16::from_le_bytes([case[0], case[1]]).into();
    let mut body = case[2..].to_vec();
    assert!(body.len() <= length);
    body.resize(length, 0);
    body
}

pub(crate) fn case(body: impl AsRef<[u8]>) -> Vec<u8> {
    let body = body.as_ref();
    let mut case = (body.len() as u16).to_le_bytes().to_vec();
    case.extend(shortened(body));
    case
}

/// Without the zeros at the end.
fn shortened(bytes: &[u8]) -> &[u8] {
    let zeros = bytes.iter().rev().take_while(|byte| **byte == 0).count();
    &bytes[..bytes.len() - zeros]
}

/// As it stands in a frame, zeros behind.
pub(crate) fn whole(body: impl AsRef<[u8]>) -> Vec<u8> {
    let mut whole = body.as_ref().to_vec();
    whole.resize(PAGE_SIZE, 0);
    whole
}

fn cases() -> Vec<Vec<u8>> {
    let mut cases = Cases::default();
    good::add_all(&mut cases);
    limits::add_all(&mut cases);
    faults::add_all(&mut cases);
    damaged::add_all(&mut cases);
    at_random::add_all(&mut cases);
    cases.into_vec()
}

#[cfg(test)]
mod tests {
    use super::*;
    use std::collections::BTreeMap;

    #[test]
    fn the_document_says_the_same() {
        for case in cases() {
            assert_eq!(answer(&case), by_document::listed(&body(&case)));
        }
    }

    #[test]
    fn a_case_is_its_bodys_only_one() {
        for made in cases() {
            let body = body(&made);
            assert!(body.len() <= PAGE_SIZE);
            assert_eq!(case(body), made);
        }
    }

    /// The list would be worth little if nearly all were refused alike.
    #[test]
    fn every_answer_comes_often() {
        let mut found = BTreeMap::new();
        for case in cases() {
            let answer = answer(&case);
            let first = answer.lines().next().unwrap();
            let kind = first.strip_prefix("refused").unwrap_or("batch");
            *found.entry(kind.to_string()).or_insert(0) += 1;
        }
        let kinds: Vec<_> = found.keys().map(String::as_str).collect();
        assert_eq!(kinds, [" 17", " 18", " 19", " 2", " 3", "batch"]);
        assert!(found.values().all(|count| *count >= 50), "{found:?}");
    }
}
