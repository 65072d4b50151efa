//! The files that a row begins with, and the pages that are written.

use bench::bodies;
use engine::sql::pager::header::{DbHeader, encode_header};
use engine::sql::pager::page::PAGE_SIZE;
use engine::sql::pager::wal::Wal;
use stand_in::path::Path;
use stand_in::world;

use crate::side::Page;

/// Pages from 1 up.
pub const PAGES: u32 = 500;

pub const PAGE_COUNT: u32 = PAGES + 1;
pub const SCHEMA_ROOT_PAGE: u32 = 1;
pub const FORMAT_VERSION: u16 = 4;

/// A main file of all pages.
pub fn main() -> Vec<u8> {
    let mut file = header_page().to_vec();
    for page_num in 1..=PAGES {
        file.extend(page(page_num, 0));
    }
    file
}

/// A log without frames.
pub fn empty_log() -> Vec<u8> {
    log(1, 0, 1)
}

/// A log that begins with these pages and goes on from the first again, each
/// `commit_each`-th frame being page 0 and a commit frame.
pub fn log(pages: u32, frames: u32, commit_each: u32) -> Vec<u8> {
    let path = Path::from("log");
    let mut wal = Wal::create(&path).expect("a file in memory");
    let mut number = 0;
    for frame in 1..=frames {
        if frame % commit_each == 0 {
            wal.append_frame(0, &header_page(), Some(PAGE_COUNT))
        } else {
            number += 1;
            let page_num = (number - 1) % pages + 1;
            wal.append_frame(page_num, &page(page_num, number), None)
        }
        .expect("the stand-in's files take every store");
    }
    world::read_file(&path).expect("it was created")
}

/// A log of batches of a row each, their times rising, and behind them page 0
/// as the one commit frame.
pub fn log_of_batches(frames: u32) -> Vec<u8> {
    let path = Path::from("log");
    let mut wal = Wal::create(&path).expect("a file in memory");
    let [.., (_, mut batch)] = bodies::all();
    for frame in 1..frames {
        batch.commit_ts = frame.into();
        let appended = wal.append_mvcc_batch(&batch);
        appended.expect("the stand-in's files take every store");
    }
    wal.append_frame(0, &header_page(), Some(PAGE_COUNT))
        .expect("the stand-in's files take every store");
    world::read_file(&path).expect("it was created")
}

fn header_page() -> Page {
    encode_header(&DbHeader {
        page_count: PAGE_COUNT,
        schema_root_page: SCHEMA_ROOT_PAGE,
        format_version: FORMAT_VERSION,
        freelist_head: 0,
    })
}

/// Any bytes.
fn page(page_num: u32, version: u32) -> Page {
    let seed = u64::from(version) << 44 | u64::from(page_num) << 32;
    std::array::from_fn(|at| splitmix::mix(seed | at as u64) as u8)
}

/// Where a page that is written differs from the one before it.
#[derive(Clone, Copy, PartialEq, Eq)]
pub enum Differs {
    FromTheFirst,
    InTheMiddle,
    AtTheLast,
}

impl Differs {
    pub fn name(self) -> &'static str {
        match self {
            Self::FromTheFirst => "first bytes differ",
            Self::InTheMiddle => "middle bytes differ",
            Self::AtTheLast => "last bytes differ",
        }
    }

    /// Where the eight bytes stand that differ.
    fn at(self) -> usize {
        match self {
            Self::FromTheFirst => 0,
            Self::InTheMiddle => PAGE_SIZE / 2,
            Self::AtTheLast => PAGE_SIZE - 8,
        }
    }
}

/// The pages of the main file, to be written again and again, scattered, and
/// each time different.
pub struct Pool {
    pages: Vec<Page>,
    pub differs: Differs,
    version: u64,
}

impl Pool {
    pub fn new(differs: Differs) -> Self {
        Self {
            pages: (1..=PAGES).map(|page_num| page(page_num, 0)).collect(),
            differs,
            version: 0,
        }
    }

    /// A page's number, and its bytes changed.
    pub fn next(&mut self) -> (u32, &Page) {
        self.version += 1;
        let index = self.index();
        let page = &mut self.pages[index];
        let at = self.differs.at();
        page[at..at + 8].copy_from_slice(&self.version.to_le_bytes());
        (index as u32 + 1, page)
    }

    /// The page that was last given.
    #[cfg(feature = "sqlite")]
    pub fn last(&self) -> (u32, &Page) {
        let index = self.index();
        (index as u32 + 1, &self.pages[index])
    }

    /// Any `PAGES` in a row are different ones.
    fn index(&self) -> usize {
        (self.version * 211 % u64::from(PAGES)) as usize
    }
}
