//! The model: the plain book of demand 3, written from document 01 alone. Each rule stands below
//! the document's own sentence. The model never sees a file.
use crate::batch::Batch;
use std::collections::BTreeMap;
use std::rc::Rc;

/// A page's 4,096 bytes.
pub type Page = Rc<[u8]>;

pub const PAGE: usize = 4096;

/// "20..24 page count; 24..28 schema root; 28..32 freelist head", and the version.
#[derive(Clone, Copy, Debug, PartialEq, Eq)]
pub struct Header {
    pub page_count: u32,
    pub schema_root: u32,
    pub version: u16,
    pub freelist_head: u32,
}

/// What the model is given: a call that wasn't refused, or a write that is whole.
#[derive(Clone, Debug)]
pub enum Entry {
    DropStaging,
    Stage(u32, Page),
    /// A commit with this header is under way.
    Commit(Header),
    BatchFrame(Rc<Batch>),
    /// Document 01's seal.
    CommitFrame,
    /// Of document 01's fold.
    CheckpointLogLength,
    CleanOpening,
}

/// "It holds a header, the header given to the commit under way, pages by number, staged pages,
/// waiting and sealed batches (commit time and records)."
#[derive(Clone, Debug)]
pub struct Model {
    pub header: Header,
    pub given: Option<Header>,
    pub pages: BTreeMap<u32, Page>,
    pub staged: BTreeMap<u32, Page>,
    pub waiting: Vec<Rc<Batch>>,
    pub committed: Vec<Rc<Batch>>,
}

/// Page 1 of a new store: a heading of 7 bytes (a table's leaf, no next page, nothing used), then
/// `TablePage::empty`: no slots, cells from the payload's end down.
fn first_page() -> Page {
    let mut page = vec![0; PAGE];
    page[0] = 2;
    page[9..11].copy_from_slice(&(4096u16 - 7).to_le_bytes());
    page.into()
}

impl Model {
    /// "It starts with what creation writes."
    pub fn created() -> Model {
        Model {
            header: Header {
                page_count: 2,
                schema_root: 1,
                version: 4,
                freelist_head: 0,
            },
            given: None,
            pages: BTreeMap::from([(1, first_page())]),
            staged: BTreeMap::new(),
            waiting: Vec::new(),
            committed: Vec::new(),
        }
    }

    /// "A page reads as staged, else as entered, else none."
    pub fn read(&self, page: u32) -> Option<&Page> {
        self.staged.get(&page).or_else(|| self.pages.get(&page))
    }

    /// "Refused, Idle, read, clock: no change": of these the model is given nothing.
    pub fn enter(&mut self, entry: Entry) {
        match entry {
            // "A call that drops the staging, if the port has one: nothing is staged."
            Entry::DropStaging => self.staged.clear(),
            // "Staging: that page is staged anew."
            Entry::Stage(page, bytes) => {
                self.staged.insert(page, bytes);
            }
            Entry::Commit(header) => self.given = Some(header),
            // "Batch frame whole: the batch waits."
            Entry::BatchFrame(batch) => self.waiting.push(batch),
            Entry::CommitFrame => self.commit(),
            // "A fold's log length 32 whole: no batch waits or is sealed."
            Entry::CheckpointLogLength => {
                self.waiting.clear();
                self.committed.clear();
            }
            // "Clean opening: nothing is staged or waits."
            Entry::CleanOpening => {
                self.staged.clear();
                self.waiting.clear();
                self.given = None;
            }
        }
    }

    /// "Seal whole: the given header and the staged pages from 1 are entered, pages at or above
    /// the new count dropped, the staging emptied, waiting batches sealed, in order."
    fn commit(&mut self) {
        if let Some(header) = self.given.take() {
            self.header = header;
        }
        let staged = std::mem::take(&mut self.staged);
        self.pages
            .extend(staged.into_iter().filter(|(page, _)| *page >= 1));
        let count = self.header.page_count;
        self.pages.retain(|page, _| *page < count);
        self.committed.append(&mut self.waiting);
    }
}
