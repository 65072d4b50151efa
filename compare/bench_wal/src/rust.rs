//! The Rust's side: `Wal::open` over a file and over the stand-in's files,
//! and the checksum alone. What it allocates is also given back in the time.

use std::env;
use std::fs;
use std::hint::black_box;
use std::path::PathBuf;
use std::process;

use engine::sql::pager::wal::{FRAME_SIZE, WAL_HEADER_SIZE};

/// A log in a file of its own, which is removed at the end.
pub struct File(PathBuf);

impl File {
    pub fn new(log: &[u8]) -> Self {
        let path = env::temp_dir().join(format!("bench_wal-{}", process::id()));
        fs::write(&path, log).expect("a file can be written there");
        Self(path)
    }

    pub fn open(&self) -> u64 {
        let wal = engine_std::sql::pager::wal::Wal::open(&self.0).expect("a good log");
        black_box(wal).frame_count() as u64
    }

    /// The whole file, into a lent area.
    #[cfg(feature = "port")]
    pub fn read(&self, area: &mut [u8]) {
        use std::io::Read;
        let mut file = fs::File::open(&self.0).expect("it was written");
        file.read_exact(area).expect("it has the area's length");
    }
}

impl Drop for File {
    fn drop(&mut self) {
        // Where it cannot be removed, it stays.
        let _ = fs::remove_file(&self.0);
    }
}

/// The log that the stand-in has under this name.
pub fn open_in_memory(path: &stand_in::path::Path) -> u64 {
    let wal = engine::sql::pager::wal::Wal::open(path).expect("a good log");
    black_box(wal).frame_count() as u64
}

/// `compute_checksum` of wal.rs over every frame, and how many agree.
pub fn sums(log: &[u8]) -> u64 {
    let frames = log[WAL_HEADER_SIZE..].chunks_exact(FRAME_SIZE);
    let agree = frames.filter(|frame| {
        let mut sum: u32 = 0;
        for &b in &frame[..12] {
            sum = sum.rotate_left(1).wrapping_add(b as u32);
        }
        for &b in &frame[16..] {
            sum = sum.rotate_left(1).wrapping_add(b as u32);
        }
        frame[12..16] == sum.to_le_bytes()
    });
    agree.count() as u64
}
