//! Batches built and walked, and their items counted.
mod common;
use common::{Folder, batch, open};
use lateenbael::sys::MOST_ITEMS;
use lateenbael::{Batch, BatchBuilder, Mode, Record, Refusal, Store, Value, Vector};

/// Builds a batch with a record's columns, and gives the columns back to compare.
fn there_and_back(columns: &[(&str, Value)]) {
    let mut batch = BatchBuilder::new(u64::MAX);
    batch.add_tombstone("cabins", i64::MIN).unwrap();
    batch.begin_present("Kabinen, grün", -7).unwrap();
    for (name, value) in columns {
        batch.add_column(name, *value).unwrap();
    }
    let walked = Batch::decode(batch.body()).unwrap();
    assert_eq!((walked.commit_ts(), walked.record_count()), (u64::MAX, 2));
    assert_eq!(walked.item_count(), 2 + columns.len());
    let records: Vec<Record> = walked.records().collect();
    assert_eq!((records[0].table.as_str(), records[0].rowid), ("cabins", i64::MIN));
    assert!(records[0].columns.is_none());
    assert_eq!((records[1].table.as_str(), records[1].rowid), ("Kabinen, grün", -7));
    let found: Vec<(&str, Value)> = records[1].columns.unwrap().map(|c| (c.name.as_str(), c.value)).collect();
    assert_eq!(found, columns);
}

#[test]
fn every_kind_of_value_comes_back() {
    let elements = Vector::bytes_of(&[1.5, -0.0, f32::INFINITY]);
    there_and_back(&[
        ("nothing", Value::Null),
        ("least", Value::Integer(i64::MIN)),
        ("real", Value::Real(-0.1)),
        ("", "".into()),
        ("text", "Änne \u{10FFFF}".into()),
        ("yes", Value::Bool(true)),
        ("no", Value::Bool(false)),
        ("vector", Value::Vector(Vector(&elements))),
        ("no elements", Value::Vector(Vector(&[]))),
    ]);
    there_and_back(&[]);
    assert_eq!(Vector(&elements).elements().collect::<Vec<f32>>(), [1.5, 0.0, f32::INFINITY]);
}

#[test]
fn a_nan_keeps_its_bits() {
    let bits = 0xfff0_0000_0000_0001;
    let mut batch = batch(1);
    batch.add_column("nan", Value::Real(f64::from_bits(bits))).unwrap();
    let walked = Batch::decode(batch.body()).unwrap();
    let last = walked.records().next().unwrap().columns.unwrap().last().unwrap();
    assert!(matches!(last.value, Value::Real(x) if x.to_bits() == bits));
}

#[test]
fn refused_additions_leave_the_batch() {
    let mut batch = BatchBuilder::new(1);
    let empty = *batch.body();
    assert_eq!(batch.add_column("early", Value::Null), Err(Refusal::NoRecord));
    assert_eq!(batch.add_tombstone(&"t".repeat(4096), 1), Err(Refusal::Fit));
    assert_eq!(batch.body(), &empty);
    batch.begin_present("t", 1).unwrap();
    let before = *batch.body();
    assert_eq!(batch.add_column("torn", Value::Vector(Vector(&[1, 2, 3]))), Err(Refusal::Truncated));
    assert_eq!(batch.add_column("long", "x".repeat(4096).as_str().into()), Err(Refusal::Fit));
    assert_eq!(batch.body(), &before);
    batch.add_column("fits", Value::Null).unwrap();
    batch.add_tombstone("t", 2).unwrap();
    assert_eq!(batch.add_column("late", Value::Null), Err(Refusal::NoRecord));
    assert_eq!(Batch::decode(batch.body()).unwrap().record_count(), 2);
}

#[test]
fn document_01s_fullest_batches() {
    let mut batch = BatchBuilder::new(1);
    (0..370).for_each(|row| batch.add_tombstone("", row).unwrap());
    assert_eq!(batch.add_tombstone("", 370), Err(Refusal::Fit));
    assert_eq!(Batch::decode(batch.body()).unwrap().item_count(), 370);
    let batch = fullest();
    let decoded = Batch::decode(batch.body()).unwrap();
    let columns = decoded.records().next().unwrap().columns.unwrap();
    assert_eq!(columns.len(), 1355);
    assert_eq!(columns.count(), 1355);
    assert_eq!((decoded.item_count(), MOST_ITEMS), (1356, 1356));
}

/// A row with as many null columns as fit.
fn fullest() -> BatchBuilder {
    let mut batch = BatchBuilder::new(1);
    batch.begin_present("", 1).unwrap();
    (0..1355).for_each(|_| batch.add_column("", Value::Null).unwrap());
    assert_eq!(batch.add_column("", Value::Null), Err(Refusal::Fit));
    batch
}

/// Why a body is refused, and after how many items.
fn refused(body: &[u8]) -> Option<(Refusal, usize)> {
    let report = Batch::report(body);
    report.batch.err().map(|refusal| (refusal, report.item_count))
}

/// A body with other bytes at a place.
fn with(body: &[u8], at: usize, bytes: &[u8]) -> Vec<u8> {
    let mut body = body.to_vec();
    body[at..at + bytes.len()].copy_from_slice(bytes);
    body
}

#[test]
fn damaged_bodies_are_refused_by_name() {
    let good = batch(3);
    let refused_with = |at: usize, byte: u8| refused(&with(good.body(), at, &[byte]));
    assert_eq!(refused(&good.body()[..17]), Some((Refusal::Short, 0)));
    assert_eq!(refused_with(0, b'm'), Some((Refusal::Magic, 0)));
    assert_eq!(refused(&good.body()[..40]), Some((Refusal::Truncated, 1)));
    assert_eq!(refused_with(18, 2), Some((Refusal::Tag, 0)));
    assert_eq!(refused_with(21, 0xff), Some((Refusal::Text, 0)));
    // The column's name, and its tag: the record is read by then.
    assert_eq!(refused_with(38, 0xff), Some((Refusal::Text, 1)));
    assert_eq!(refused_with(43, 6), Some((Refusal::Tag, 1)));
    assert_eq!(Batch::decode(&with(good.body(), 43, &[6])).err(), Some(Refusal::Tag));
}

/// The record counts with its column count, which ends at 36, the column with its value, which ends at 52.
#[test]
fn items_count_as_they_are_read() {
    let batch = batch(3);
    for len in 18..52 {
        let items = usize::from(len >= 36);
        assert_eq!(refused(&batch.body()[..len]), Some((Refusal::Truncated, items)), "{len}");
    }
    for len in [52, 53, 4096] {
        let report = Batch::report(&batch.body()[..len]);
        assert_eq!((report.batch.unwrap().item_count(), report.item_count), (2, 2));
    }
}

/// Neither a column count nor a record count of 65,535 makes them more.
#[test]
fn no_body_of_a_page_has_more_items() {
    let fullest = fullest();
    for at in [29, 16] {
        let body = with(fullest.body(), at, &[0xff, 0xff]);
        assert_eq!(refused(&body), Some((Refusal::Truncated, MOST_ITEMS)), "{at}");
    }
}

#[test]
fn a_store_gives_the_number_of_items_back() {
    let folder = Folder::new();
    let mut store = Store::create(folder.store()).unwrap();
    store.append_mvcc_batch(fullest().body()).unwrap();
    store.commit(store.header().unwrap()).unwrap();
    drop(store);
    let store = open(&folder.store(), Mode::ReadOnly);
    let recovered = store.recovered_mvcc_commits().unwrap().next().unwrap();
    assert_eq!((recovered.record_count(), recovered.item_count()), (1, MOST_ITEMS));
}
