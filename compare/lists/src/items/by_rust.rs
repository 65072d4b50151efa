//! The same told by the published Rust alone. It counts no items, so it is
//! asked about the body with lower counts: up to which it takes it.

use engine::mvcc::{MvccCommitBatch, VersionPayload};
use items::Reading;

use crate::batch::REFUSALS;
use crate::refusal;

/// The record count's place.
const RECORDS: usize = 16;

pub fn read(body: &[u8]) -> Reading {
    match MvccCommitBatch::decode(body) {
        Ok(batch) => Reading {
            outcome: Ok(end(body)),
            items: items_of(&batch),
        },
        Err(error) => {
            let number = refusal::number(&error, &REFUSALS);
            Reading {
                outcome: Err(number as u8),
                items: if number < 17 { 0 } else { items_before(body) },
            }
        }
    }
}

fn items_of(batch: &MvccCommitBatch) -> usize {
    let columns = batch.records.iter().map(|record| match &record.payload {
        VersionPayload::Tombstone => 0,
        VersionPayload::Present(columns) => columns.len(),
    });
    batch.records.len() + columns.sum::<usize>()
}

fn is_taken(body: &[u8]) -> bool {
    MvccCommitBatch::decode(body).is_ok()
}

/// The shortest length at which the Rust takes a body that it takes.
fn end(body: &[u8]) -> usize {
    let lengths: Vec<_> = (0..=body.len()).collect();
    lengths.partition_point(|length| !is_taken(&body[..*length]))
}

/// Of a body that is refused behind its heading: the items of its records up
/// to the refused one, and of that with the columns up to the refused one.
fn items_before(body: &[u8]) -> usize {
    let records = most_taken(body, RECORDS).expect("a body of no records");
    let before = with(body, RECORDS, records);
    let refused = with(body, RECORDS, records + 1);
    let at = end(&before);
    let counted = column_count(&refused, at)
        .and_then(|place| Some(with(&refused, place, most_taken(&refused, place)?)));
    let taken = counted.unwrap_or(before);
    items_of(&MvccCommitBatch::decode(&taken).expect("it is taken"))
}

/// The highest count at a place, up to the one that is there, with which the
/// Rust takes the body. If it takes one, it takes every lower one.
fn most_taken(body: &[u8], place: usize) -> Option<u16> {
    let counts: Vec<_> = (0..=number(body, place)).collect();
    let taken = counts.partition_point(|count| is_taken(&with(body, place, *count)));
    taken.checked_sub(1).map(|last| counts[last])
}

/// The place of the column count of a record, if it is present and has one.
fn column_count(body: &[u8], record: usize) -> Option<usize> {
    let table = record + 1;
    if body.get(record) != Some(&1) || body.len() < table + 2 {
        return None;
    }
    let place = table + 2 + usize::from(number(body, table)) + 8;
    (place + 2 <= body.len()).then_some(place)
}

fn number(body: &[u8], place: usize) -> u16 {
    u16::from_le_bytes([body[place], body[place + 1]])
}

fn with(body: &[u8], place: usize, count: u16) -> Vec<u8> {
    let mut body = body.to_vec();
    body[place..place + 2].copy_from_slice(&count.to_le_bytes());
    body
}

#[cfg(test)]
mod tests {
    use super::*;
    use crate::batch::body::{Body, Value};

    /// Counted by hand, so that what is held to it stands by itself.
    #[test]
    fn lower_counts_tell_the_items() {
        let row = Body::new(1, 2).tombstone("t", 1).present("é", 2, 3);
        let row = row.column("a", Value::Null).column("", Value::Bool(2));
        for (body, wanted) in [
            (Body::new(1, 0).bytes("behind"), "end 18 items 0"),
            (Body::new(1, 1).tombstone("t", 1), "end 30 items 1"),
            (row.clone().column("c", Value::Null), "end 57 items 5"),
            (row.clone(), "refused 17 items 4"),
            (row.clone().bytes([0, 0, 6]), "refused 18 items 4"),
            (row.bytes([1, 0, 0xff]), "refused 19 items 4"),
            (Body::new(1, 9).tombstone("t", 1), "refused 17 items 1"),
            (Body::new(1, 1).record(2, "t", 1), "refused 18 items 0"),
            (Body::new(1, 1).record(1, "t", 1), "refused 17 items 0"),
        ] {
            assert_eq!(read(body.as_ref()).to_string(), wanted);
        }
    }
}
