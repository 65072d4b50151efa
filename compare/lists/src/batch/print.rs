//! A batch, printed as ../shared/callscript.md has it.

use engine::mvcc::{MvccCommitBatch, MvccLogRecord, VersionPayload};
use engine::sql::db::table::Value;

use crate::hex;

pub fn lines(batch: &MvccCommitBatch) -> Vec<String> {
    let MvccCommitBatch { commit_ts, records } = batch;
    let mut lines = vec![format!("batch {commit_ts} {}", records.len())];
    for (index, record) in records.iter().enumerate() {
        lines.extend(of_record(index, record));
    }
    lines
}

fn of_record(index: usize, record: &MvccLogRecord) -> Vec<String> {
    let table = text(&record.row.table);
    let row = record.row.rowid;
    match &record.payload {
        VersionPayload::Tombstone => vec![format!("record {index} tombstone {table} {row}")],
        VersionPayload::Present(columns) => {
            let count = columns.len();
            let mut lines = vec![format!("record {index} present {table} {row} {count}")];
            lines.extend(columns.iter().enumerate().map(|(index, (name, of))| {
                let name = text(name);
                format!("column {index} {name} {}", value(of))
            }));
            lines
        }
    }
}

/// Floats by their bits: a decimal number would lose a NaN's.
fn value(value: &Value) -> String {
    match value {
        Value::Null => "null".to_string(),
        Value::Integer(number) => format!("integer {number}"),
        Value::Real(real) => format!("real {:016x}", real.to_bits()),
        Value::Text(of) => format!("text {}", text(of)),
        Value::Bool(is) => format!("bool {is}"),
        Value::Vector(elements) => {
            let bits = elements
                .iter()
                .map(|real| format!(" {:08x}", real.to_bits()));
            format!("vector {}{}", elements.len(), bits.collect::<String>())
        }
    }
}

fn text(text: &str) -> String {
    match text {
        "" => "-".to_string(),
        _ => hex::digits(text.as_bytes()),
    }
}
