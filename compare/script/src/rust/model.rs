//! What the Rust's pager holds and keeps to itself: its three maps of pages.
//! The judge needs them for refusals 12 and 15, the state for the pages of
//! the log that are below 1,024.

use std::collections::{BTreeMap, HashMap};

use engine::sql::pager::header::{DbHeader, encode_header};
use engine::sql::pager::page::PAGE_SIZE;

pub type Page = Box<[u8; PAGE_SIZE]>;
pub type Pages = HashMap<u32, Page>;

#[derive(Default)]
pub struct Model {
    pub staged: BTreeMap<u32, Page>,
    pub log: Pages,
    pub main: Pages,
}

impl Model {
    /// A store that was opened: the log's pages, and the main file with its
    /// own header's page count.
    pub fn opened(log: Pages, main: &[u8], page_count: u32) -> Self {
        let pages = main.chunks_exact(PAGE_SIZE).zip(0..page_count).skip(1);
        let pages = pages.map(|(bytes, page)| (page, page_of(bytes)));
        Self {
            staged: BTreeMap::new(),
            log,
            main: pages.collect(),
        }
    }

    /// "staged pages whose bytes differ from the log's, else the main
    /// file's (where page 0 never is), even at or above the page count, or
    /// that are in neither"
    pub fn differs(&self, page: u32, bytes: &Page) -> bool {
        let there = self.log.get(&page).or_else(|| self.main.get(&page));
        there != Some(bytes)
    }

    pub fn differing(&self) -> usize {
        let staged = self.staged.iter();
        staged
            .filter(|(page, bytes)| self.differs(**page, bytes))
            .count()
    }

    /// A commit whose commit frame is whole.
    pub fn commit(&mut self, header: &DbHeader) {
        for (page, bytes) in std::mem::take(&mut self.staged) {
            if self.differs(page, &bytes) {
                self.log.insert(page, bytes);
            }
        }
        self.log.insert(0, Box::new(encode_header(header)));
    }

    /// A checkpoint that had something to write.
    pub fn checkpoint(&mut self, page_count: u32) {
        let pages = self.log.drain().filter(|(page, _)| *page != 0);
        self.main.extend(pages);
        self.main.retain(|page, _| *page < page_count);
    }
}

pub fn page_of(bytes: &[u8]) -> Page {
    Box::new(bytes.try_into().expect("a page's bytes"))
}
