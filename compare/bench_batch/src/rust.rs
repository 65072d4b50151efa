//! The Rust's side. What it allocates is also given back in the time.

use std::hint::black_box;

use engine::mvcc::{MvccCommitBatch, VersionPayload};
use engine::sql::db::table::Value;

use crate::side::Side;

pub const SIDE: Side = Side {
    name: "Rust",
    decode: |body| black_box(decoded(body)).records.len() as u64,
    refuse: |body| black_box(MvccCommitBatch::decode(body)).is_err(),
    encode: |batch, _| {
        let body = batch.encode().expect("a batch that fits");
        black_box(body).len() as u64
    },
    canonical: |body, out| {
        let body = decoded(body).encode().expect("it fitted before");
        out.copy_from_slice(&body[..]);
        body.len() as u64
    },
};

fn decoded(body: &[u8]) -> MvccCommitBatch {
    MvccCommitBatch::decode(body).expect("a body that decodes")
}

/// Encodes a batch whose texts are looked at before, as bytes of which
/// nobody knows yet that they are UTF-8.
pub fn checked_encode(batch: &MvccCommitBatch) -> u64 {
    for record in &batch.records {
        check(&record.row.table);
        if let VersionPayload::Present(columns) = &record.payload {
            for (name, value) in columns {
                check(name);
                if let Value::Text(text) = value {
                    check(text);
                }
            }
        }
    }
    (SIDE.encode)(batch, &mut [])
}

fn check(text: &str) {
    assert!(str::from_utf8(black_box(text.as_bytes())).is_ok());
}
