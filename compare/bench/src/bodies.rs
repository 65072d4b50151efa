//! The three batches.

use engine::mvcc::{MvccCommitBatch, MvccLogRecord};
use engine::sql::db::table::Value;

pub fn all() -> [(&'static str, MvccCommitBatch); 3] {
    let batch = |records| MvccCommitBatch {
        commit_ts: 1_000,
        records,
    };
    [
        ("370 tombstones", batch(tombstones())),
        ("1,355 null columns", batch(vec![null_columns()])),
        ("a row of ten columns", batch(vec![row()])),
    ]
}

/// With empty table names: no more fit.
fn tombstones() -> Vec<MvccLogRecord> {
    (0..370)
        .map(|row| MvccLogRecord::tombstone("", row))
        .collect()
}

/// With empty names: they fill the body.
fn null_columns() -> MvccLogRecord {
    MvccLogRecord::upsert("", 1, vec![(String::new(), Value::Null); 1_355])
}

fn row() -> MvccLogRecord {
    let columns = [
        ("id", Value::Integer(17)),
        ("name", Value::Text("Größe, naïve 17".to_string())),
        ("place", Value::Text("lower level".to_string())),
        ("weight", Value::Real(612.5)),
        ("force", Value::Real(14_250.0)),
        ("active", Value::Bool(true)),
        ("checked_at", Value::Integer(1_718_000_000)),
        ("runs", Value::Integer(48_211)),
        ("remark", Value::Null),
        ("factors", Value::Vector(vec![0.25, 0.5, 0.125, 0.75])),
    ];
    let columns = columns.map(|(name, value)| (name.to_string(), value));
    MvccLogRecord::upsert("items", 17, columns.to_vec())
}

#[cfg(test)]
mod tests {
    use super::*;

    #[test]
    fn they_are_as_they_are_called() {
        let [(_, tombstones), (_, columns), (_, row)] = all();
        let last = |batch: &MvccCommitBatch| {
            let body = batch.encode().unwrap();
            assert_eq!(MvccCommitBatch::decode(&body[..]).unwrap(), *batch);
            body.iter().rposition(|byte| *byte != 0).unwrap()
        };
        // The last row id, 369, has two bytes that aren't zero.
        assert_eq!(last(&tombstones), 18 + 11 * 370 - 7);
        // The column count is the last that isn't zero.
        assert_eq!(last(&columns), 30);
        assert!((100..300).contains(&last(&row)));
        let mut more = tombstones;
        more.records.push(MvccLogRecord::tombstone("", 370));
        assert!(more.encode().is_err());
    }
}
