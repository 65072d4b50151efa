//! The port's sides: its engine in the areas alone, and its store on two
//! files of the machine, as a program has it.

use std::fs;
use std::path::{Path, PathBuf};

use bench::builder;
use engine::mvcc::MvccCommitBatch;
use engine::sql::pager::page::PAGE_SIZE;
use lateenbael::sys::DbHeader;
use lateenbael::{Engine, Mode, Store, wal_path_for};

use crate::files::{FORMAT_VERSION, PAGE_COUNT, SCHEMA_ROOT_PAGE};
use crate::side::{Page, Side};

pub const HEADER: DbHeader = DbHeader {
    page_count: PAGE_COUNT,
    schema_root_page: SCHEMA_ROOT_PAGE,
    format_version: FORMAT_VERSION,
    freelist_head: 0,
};

/// The log's salt behind a checkpoint in memory.
pub const SALT: u32 = 0x5a17;

pub struct InMemory {
    pub engine: Engine,
    /// The lengths of the files that were put into the areas.
    main_len: usize,
    log_len: usize,
    /// Opens cleanly.
    clean: bool,
}

impl InMemory {
    pub fn new(clean: bool) -> Self {
        Self {
            engine: Engine::new(),
            main_len: 0,
            log_len: 0,
            clean,
        }
    }

    fn called(&self) -> &Engine {
        &self.engine
    }

    fn called_mut(&mut self) -> &mut Engine {
        &mut self.engine
    }
}

/// The calls that the engine and the store have alike.
macro_rules! called_alike {
    () => {
        type Batch = MvccCommitBatch;

        #[inline]
        fn read(&self, page_num: u32) -> Option<&[u8]> {
            let read = self.called().read_page(page_num);
            read.expect("nothing is part done").map(|bytes| &bytes[..])
        }

        fn stage(&mut self, page_num: u32, bytes: &Page) {
            let staged = self.called_mut().stage_page(page_num, bytes);
            staged.expect("it has a place");
        }

        fn clear(&mut self) {
            let cleared = self.called_mut().clear_staged();
            cleared.expect("nothing is part done");
        }

        fn append(&mut self, body: &Page) {
            let appended = self.called_mut().append_mvcc_batch(body);
            appended.expect("it has a place");
        }

        fn batch(body: &Page) -> Self::Batch {
            MvccCommitBatch::decode(body).expect("a good batch")
        }

        fn append_built(&mut self, batch: &Self::Batch) {
            let mut body = [0; PAGE_SIZE];
            builder::build(batch, &mut body);
            self.append(&body);
        }
    };
}

impl Side for InMemory {
    called_alike!();

    fn put(&mut self, main: &[u8], log: &[u8]) {
        self.main_len = main.len();
        self.log_len = log.len();
        self.engine.main[..main.len()].copy_from_slice(main);
        self.engine.log[..log.len()].copy_from_slice(log);
    }

    fn close(&mut self) {}

    fn open(&mut self) {
        let log_len = Some(self.log_len);
        let opened = self
            .engine
            .reopen(self.clean, self.main_len, log_len, false, SALT);
        opened.expect("good files");
    }

    fn commit(&mut self) -> usize {
        self.engine.commit(HEADER, SALT).expect("it has a place")
    }

    fn checkpoint(&mut self) -> usize {
        self.engine.checkpoint(SALT).expect("nothing is part done")
    }

    fn log_file(&self) -> Vec<u8> {
        self.engine.log_file().to_vec()
    }
}

pub struct InFiles {
    path: PathBuf,
    mode: Mode,
    store: Option<Store>,
    /// The areas of the store that was closed.
    areas: Option<Engine>,
}

impl InFiles {
    pub fn new(folder: &Path, clean: bool) -> Self {
        Self {
            path: folder.join("port"),
            mode: if clean { Mode::ReadWrite } else { Mode::Plain },
            store: None,
            areas: None,
        }
    }

    fn called(&self) -> &Store {
        self.store.as_ref().expect("it is open")
    }

    fn called_mut(&mut self) -> &mut Store {
        self.store.as_mut().expect("it is open")
    }
}

impl Side for InFiles {
    called_alike!();

    fn put(&mut self, main: &[u8], log: &[u8]) {
        self.close();
        fs::write(&self.path, main).expect("a file can be written there");
        fs::write(wal_path_for(&self.path), log).expect("a file can be written there");
    }

    fn close(&mut self) {
        if let Some(store) = self.store.take() {
            self.areas = Some(store.into_engine());
        }
    }

    fn open(&mut self) {
        let areas = self.areas.take().unwrap_or_default();
        let opened = Store::open_in(areas, &self.path, self.mode);
        self.store = Some(opened.expect("good files"));
    }

    fn commit(&mut self) -> usize {
        self.called_mut().commit(HEADER).expect("it has a place")
    }

    fn checkpoint(&mut self) -> usize {
        let written = self.called_mut().checkpoint();
        written.expect("files take every store")
    }

    fn log_file(&self) -> Vec<u8> {
        fs::read(wal_path_for(&self.path)).expect("it was put there")
    }
}
