//! What a store asks of the disk that its two files are on.
use crate::{Area, Error};
use std::io;
use std::path::PathBuf;

/// The two files of a store. Everything happens in the order of the calls.
pub trait Disk {
    /// The file's name, for messages.
    fn name(&self, area: Area) -> PathBuf {
        PathBuf::from(match area {
            Area::Log => "the log",
            Area::Main => "the main file",
        })
    }

    /// Reads a file's bytes into a buffer and answers its length, or a greater one than the buffer's where the file goes on behind
    /// it; none if there is no such file. What a cache holds may answer.
    fn read(&mut self, area: Area, buffer: &mut [u8]) -> io::Result<Option<usize>>;

    /// Lets the cache go of a file that was just synced, as far as it does, so that what is read next comes from the medium.
    ///
    /// A system may answer a failed flush by forgetting which bytes were to be written: they stay in its cache, and a later flush finds
    /// nothing to do. So an opening for writing does this first, and then asks the medium.
    fn drop_cached(&mut self, area: Area) -> io::Result<()>;

    /// Compares all of a file's bytes, as they were just read, with those that lie on the medium, past any cache, and outlast a power cut.
    fn compare_with_medium(&mut self, area: Area, bytes: &[u8]) -> io::Result<Comparison>;

    /// Begins a new, empty file. It may stand under another name until it is published.
    fn create(&mut self, area: Area) -> io::Result<()>;

    /// The new file is whole and synced: from now on, for good, it stands under its own name.
    fn publish(&mut self, area: Area) -> io::Result<()>;

    /// The files were opened for writing and are a store's: what a creation that was cut has left beside them goes, as far as it does.
    fn remove_left(&mut self) {}

    /// Writes bytes; what is written past the end lengthens the file.
    fn write_at(&mut self, area: Area, at: usize, bytes: &[u8]) -> io::Result<()>;

    /// Cuts the file, or lengthens it by zeros.
    fn set_len(&mut self, area: Area, len: usize) -> io::Result<()>;

    /// Returns when everything written to the file so far, its length too, will outlast a power cut; `NotFound` if there is no such
    /// file.
    fn sync(&mut self, area: Area) -> io::Result<()>;

    /// Whether the file still has its name and the length that these calls gave it, as far as that is told at little cost.
    fn is_intact(&mut self, area: Area) -> io::Result<bool> {
        let _ = area;
        Ok(true)
    }
}

/// What a disk says of bytes that it compared with its medium.
#[derive(Clone, Copy, Debug, PartialEq, Eq, Hash)]
pub enum Comparison {
    /// The medium has the same.
    Same,
    /// The medium has others.
    Different,
    /// The medium can't be read past the cache.
    Unknown,
}

/// An error of the disk's, about one of its files.
pub(crate) fn failed<D: Disk>(disk: &D, area: Area, source: io::Error) -> Error {
    Error::of_file(disk.name(area), source)
}

/// A flush of one file.
pub(crate) fn sync<D: Disk>(disk: &mut D, area: Area) -> Result<(), Error> {
    disk.sync(area).map_err(|source| failed(disk, area, source))
}
