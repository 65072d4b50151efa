//! A batch built by the port: a call for its start and for each of its
//! records and columns, from the very value that the Rust encodes.

use std::slice;

use engine::mvcc::{MvccCommitBatch, MvccLogRecord, VersionPayload};
use engine::sql::db::table::Value;
use lateenbael_sys::{self as sys, Building};

/// Builds the batch in a lent body, and tells where its bytes end.
pub fn build(batch: &MvccCommitBatch, out: &mut [u8]) -> u64 {
    // Safety: every call writes `out` alone, and reads the texts lent to it.
    let mut b = unsafe { sys::lateenbael_mvcc_start(out.as_mut_ptr(), out.len(), batch.commit_ts) };
    for record in &batch.records {
        b = add_record(out, b, record);
    }
    assert_eq!(b.refusal, 0);
    b.at.into()
}

fn add_record(out: &mut [u8], b: Building, record: &MvccLogRecord) -> Building {
    let (body, len) = (out.as_mut_ptr(), out.len());
    let (table, n) = (record.row.table.as_ptr(), record.row.table.len());
    let row = record.row.rowid;
    match &record.payload {
        VersionPayload::Tombstone => unsafe {
            sys::lateenbael_mvcc_add_tombstone(body, len, b, table, n, row)
        },
        VersionPayload::Present(columns) => {
            let mut b = unsafe { sys::lateenbael_mvcc_begin_present(body, len, b, table, n, row) };
            for (name, value) in columns {
                b = add_column(out, b, name, value);
            }
            b
        }
    }
}

fn add_column(out: &mut [u8], b: Building, name: &str, value: &Value) -> Building {
    let (body, len) = (out.as_mut_ptr(), out.len());
    let (name, n) = (name.as_ptr(), name.len());
    match value {
        Value::Null => unsafe { sys::lateenbael_mvcc_add_null(body, len, b, name, n) },
        Value::Integer(value) => unsafe {
            sys::lateenbael_mvcc_add_integer(body, len, b, name, n, *value)
        },
        Value::Real(value) => unsafe {
            sys::lateenbael_mvcc_add_real_bits(body, len, b, name, n, value.to_bits())
        },
        Value::Bool(value) => unsafe {
            sys::lateenbael_mvcc_add_bool(body, len, b, name, n, (*value).into())
        },
        Value::Text(value) => unsafe {
            sys::lateenbael_mvcc_add_text(body, len, b, name, n, value.as_ptr(), value.len())
        },
        Value::Vector(elements) => {
            let bytes = bytes_of(elements);
            unsafe {
                sys::lateenbael_mvcc_add_vector(body, len, b, name, n, bytes.as_ptr(), bytes.len())
            }
        }
    }
}

/// The elements' bytes, which on this machine are little endian.
fn bytes_of(elements: &[f32]) -> &[u8] {
    const { assert!(cfg!(target_endian = "little")) };
    // Safety: every byte of an f32 is one.
    unsafe { slice::from_raw_parts(elements.as_ptr().cast(), size_of_val(elements)) }
}
