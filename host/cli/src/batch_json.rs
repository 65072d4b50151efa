//! Batches as JSON. A real has its bits beside its value, for the value may be null or read back as a neighbour.
use crate::json::Json;
use lateenbael::{Batch, Column, Record, Value};

pub fn of(batch: &Batch) -> Json {
    Json::object([
        ("commit_ts", batch.commit_ts().into()),
        ("records", Json::list(batch.records().map(record))),
    ])
}

fn record(record: Record) -> Json {
    let op = if record.columns.is_some() { "present" } else { "tombstone" };
    let columns = record.columns.map(|columns| Json::list(columns.map(column)));
    Json::object([
        ("op", op.into()),
        ("table", record.table.as_str().into()),
        ("rowid", record.rowid.into()),
        ("columns", columns.into()),
    ])
}

fn column(column: Column) -> Json {
    let (kind, value, bits) = value(column.value);
    let named = [("name", column.name.as_str().into()), ("kind", kind.into()), ("value", value)];
    Json::object(named.into_iter().chain(bits.map(|bits| ("bits", bits))))
}

/// A value's kind, itself, and the bits of what has any.
fn value(value: Value) -> (&'static str, Json, Option<Json>) {
    match value {
        Value::Null => ("null", None::<u32>.into(), None),
        Value::Integer(n) => ("integer", n.into(), None),
        Value::Real(x) => ("real", Json::real(x), Some(Json::text(&format!("{:016x}", x.to_bits())))),
        Value::Text(text) => ("text", text.as_str().into(), None),
        Value::Bool(flag) => ("bool", flag.into(), None),
        Value::Vector(vector) => {
            let bits = vector.elements().map(|x| Json::text(&format!("{:08x}", x.to_bits())));
            (
                "vector",
                Json::list(vector.elements().map(Json::small_real)),
                Some(Json::list(bits)),
            )
        }
    }
}
