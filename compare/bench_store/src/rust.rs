//! The Rust's sides: the pager over the stand-in's files in memory, and over
//! files of the machine.

use std::fs;
use std::path::PathBuf;

use stand_in::world;

use crate::files::{FORMAT_VERSION, PAGE_COUNT, SCHEMA_ROOT_PAGE};
use crate::side::{Page, Side};

/// The pager of one of the two crates, and how files are put and read there.
macro_rules! pager_of {
    ($name:ident, $engine:ident, $path:ty, $put_file:expr, $read_file:expr) => {
        pub struct $name {
            path: $path,
            log_path: $path,
            pager: Option<$engine::sql::pager::pager::Pager>,
        }

        impl $name {
            fn pager(&mut self) -> &mut $engine::sql::pager::pager::Pager {
                self.pager.as_mut().expect("it is open")
            }

            fn append_value(&mut self, batch: &$engine::mvcc::MvccCommitBatch) {
                let appended = self.pager().append_mvcc_batch(batch);
                appended.expect("files take every store");
            }
        }

        impl Side for $name {
            type Batch = $engine::mvcc::MvccCommitBatch;

            fn put(&mut self, main: &[u8], log: &[u8]) {
                self.close();
                $put_file(&self.path, main);
                $put_file(&self.log_path, log);
            }

            fn close(&mut self) {
                self.pager = None;
            }

            fn open(&mut self) {
                let pager = $engine::sql::pager::pager::Pager::open(&self.path);
                self.pager = Some(pager.expect("good files"));
            }

            #[inline]
            fn read(&self, page_num: u32) -> Option<&[u8]> {
                let pager = self.pager.as_ref().expect("it is open");
                pager.read_page(page_num).map(|page| &page[..])
            }

            fn stage(&mut self, page_num: u32, bytes: &Page) {
                self.pager().stage_page(page_num, *bytes);
            }

            fn clear(&mut self) {
                self.pager().clear_staged();
            }

            fn commit(&mut self) -> usize {
                let header = $engine::sql::pager::header::DbHeader {
                    page_count: PAGE_COUNT,
                    schema_root_page: SCHEMA_ROOT_PAGE,
                    format_version: FORMAT_VERSION,
                    freelist_head: 0,
                };
                self.pager().commit(header).expect("files take every store")
            }

            fn checkpoint(&mut self) -> usize {
                self.pager().checkpoint().expect("files take every store")
            }

            fn append(&mut self, body: &Page) {
                self.append_value(&Self::batch(body));
            }

            fn batch(body: &Page) -> Self::Batch {
                Self::Batch::decode(body).expect("a good batch")
            }

            /// Its texts and rows are allocated anew.
            fn append_built(&mut self, batch: &Self::Batch) {
                self.append_value(&batch.clone());
            }

            fn log_file(&self) -> Vec<u8> {
                $read_file(&self.log_path).expect("it was put there")
            }
        }
    };
}

pager_of!(
    InMemory,
    engine,
    stand_in::path::Path,
    world::write_file,
    world::read_file
);
pager_of!(InFiles, engine_std, PathBuf, put_file, fs::read);

fn put_file(path: &PathBuf, bytes: &[u8]) {
    fs::write(path, bytes).expect("a file can be written there");
}

impl InMemory {
    pub fn new() -> Self {
        Self {
            path: "main".into(),
            log_path: "main-wal".into(),
            pager: None,
        }
    }
}

impl InFiles {
    pub fn new(folder: &std::path::Path) -> Self {
        Self {
            path: folder.join("rust"),
            log_path: folder.join("rust-wal"),
            pager: None,
        }
    }
}
