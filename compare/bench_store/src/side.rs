//! What the Rust and the port are asked for, in memory and in files.

use engine::sql::pager::page::PAGE_SIZE;

pub type Page = [u8; PAGE_SIZE];

/// One side of the comparison: a store.
pub trait Side {
    /// A batch's commit time and records.
    type Batch;

    /// Puts two files where the side finds them; nothing is open then.
    fn put(&mut self, main: &[u8], log: &[u8]);
    /// Gives back what is open.
    fn close(&mut self);
    /// Plain opening.
    fn open(&mut self);
    fn read(&self, page_num: u32) -> Option<&[u8]>;
    fn stage(&mut self, page_num: u32, bytes: &Page);
    fn clear(&mut self);
    /// Commits what is staged, with the header of `files`.
    fn commit(&mut self) -> usize;
    fn checkpoint(&mut self) -> usize;
    /// Appends the batch of a body; it is decoded on the way.
    fn append(&mut self, body: &Page);
    /// A body's batch as a caller has it before it is built.
    fn batch(body: &Page) -> Self::Batch;
    /// Builds the batch as a caller must, and appends it.
    fn append_built(&mut self, batch: &Self::Batch);
    /// The log's bytes, from its file if there is one.
    fn log_file(&self) -> Vec<u8>;
}
