//! The two logs, full: 1,024 frames, as the Rust appends them.

use engine::mvcc::{MvccCommitBatch, MvccLogRecord};
use engine::sql::db::table::Value;
use engine::sql::pager::page::PAGE_SIZE;
use engine::sql::pager::wal::Wal;
use stand_in::path::Path;
use stand_in::world;

pub const FRAMES: u32 = 1_024;

/// The commit count of every commit frame.
pub const COUNT: u32 = 500;

pub fn all() -> [(&'static str, Vec<u8>); 2] {
    [
        ("1,024 pages, every eighth a seal", log(|_| false)),
        (
            "the same with every fourth frame a batch",
            log(|index| index % 4 == 1),
        ),
    ]
}

fn log(is_batch: fn(u32) -> bool) -> Vec<u8> {
    let path = Path::from("log");
    world::reset();
    let mut wal = Wal::create(&path).expect("a file in memory");
    for index in 0..FRAMES {
        let appended = if is_batch(index) {
            wal.append_mvcc_batch(&batch(index))
        } else {
            let count = (index % 8 == 7).then_some(COUNT);
            wal.append_frame(index % COUNT, &page(index), count)
        };
        appended.expect("the stand-in's files take every store");
    }
    world::read_file(&path).expect("it was created")
}

/// Any bytes: the sum takes all alike.
fn page(index: u32) -> [u8; PAGE_SIZE] {
    let mut page = [0; PAGE_SIZE];
    for (at, byte) in page.iter_mut().enumerate() {
        *byte = splitmix::mix(u64::from(index) << 32 | at as u64) as u8;
    }
    page
}

/// One to eight records: rows of five columns, and every third a tombstone.
fn batch(index: u32) -> MvccCommitBatch {
    let row = |number: i64| {
        if number % 3 == 2 {
            return MvccLogRecord::tombstone("readings", number);
        }
        let columns = [
            ("id", Value::Integer(number)),
            ("force", Value::Real(number as f64 / 8.0)),
            ("place", Value::Text("Größe, lower level".to_string())),
            ("checked", Value::Bool(true)),
            ("remark", Value::Null),
        ];
        let columns = columns.map(|(name, value)| (name.to_string(), value));
        MvccLogRecord::upsert("readings", number, columns.to_vec())
    };
    MvccCommitBatch {
        commit_ts: index.into(),
        records: (0..=i64::from(index / 4 % 8)).map(row).collect(),
    }
}

#[cfg(test)]
mod tests {
    use super::*;

    #[test]
    fn they_are_full_and_committed() {
        for (_, log) in all() {
            assert_eq!(log.len(), 4_210_720);
            let path = Path::from("log");
            world::write_file(&path, &log);
            let wal = Wal::open(&path).unwrap();
            assert_eq!(wal.frame_count(), 1_024);
            assert_eq!(wal.last_commit_page_count(), Some(COUNT));
            let batches = wal.recovered_mvcc_commits().len();
            assert!(batches == 0 || batches == 256, "{batches}");
        }
    }
}
