use engine::sql::pager::header::{DbHeader, FORMAT_VERSION_BASELINE};
use engine::sql::pager::page::PAGE_SIZE;
use engine::sql::pager::pager::Pager;
use stand_in::path::Path;
use stand_in::world::{self, Store};

pub const PAGE: u64 = 4_096;
pub const LOG_HEADER: u64 = 32;
pub const FRAME: u64 = 4_112;

pub fn main_file() -> Path {
    Path::from("db.sqlrite")
}

pub fn log_file() -> Path {
    Path::from("db.sqlrite-wal")
}

pub fn bytes_of(file: &Path) -> Vec<u8> {
    world::read_file(file).unwrap()
}

/// A store of two pages in an empty world.
pub fn new_store() -> Pager {
    world::reset();
    Pager::create(&main_file()).unwrap()
}

pub fn header(page_count: u32) -> DbHeader {
    DbHeader {
        page_count,
        schema_root_page: 1,
        format_version: FORMAT_VERSION_BASELINE,
        freelist_head: 0,
    }
}

pub fn page(byte: u8) -> [u8; PAGE_SIZE] {
    [byte; PAGE_SIZE]
}

pub fn main_bytes(first: u64, flush: bool) -> Store {
    store(main_file(), first, PAGE, flush)
}

pub fn main_length(length: u64, flush: bool) -> Store {
    store(main_file(), length, 0, flush)
}

/// The store of the log's frame number `index`.
pub fn frame(index: u64, flush: bool) -> Store {
    store(log_file(), LOG_HEADER + FRAME * index, FRAME, flush)
}

pub fn log_header(flush: bool) -> Store {
    store(log_file(), 0, LOG_HEADER, flush)
}

pub fn log_length(length: u64, flush: bool) -> Store {
    store(log_file(), length, 0, flush)
}

fn store(file: Path, first: u64, length: u64, flush: bool) -> Store {
    Store {
        file,
        first,
        length,
        flush,
    }
}
