//! The system's cache: what it holds of a file dropped, and a file read past it.
use crate::Comparison;
use std::fs::{File, OpenOptions};
use std::io;
use std::os::fd::AsRawFd;
use std::os::unix::fs::{FileExt, MetadataExt, OpenOptionsExt};
use std::path::Path;

/// Reads and writes go past the page cache (Linux on x86-64, as the static library).
const O_DIRECT: i32 = 0o40000;
/// Such reads go to addresses and places that are multiples of this; no medium's blocks are longer.
const ALIGNMENT: usize = 4096;

/// How many bytes are read at once.
const CHUNK: usize = 1 << 18;

/// A file opened a second time, for such reads.
pub struct Direct {
    file: File,
    buffer: Vec<u8>,
}

impl Direct {
    /// None if the file system can't.
    pub fn open(path: &Path, same: &File) -> io::Result<Option<Direct>> {
        let file = match OpenOptions::new().read(true).custom_flags(O_DIRECT).open(path) {
            Err(error) if is_unsupported(&error) => return Ok(None),
            opened => opened?,
        };
        let (one, other) = (file.metadata()?, same.metadata()?);
        if (one.dev(), one.ino()) != (other.dev(), other.ino()) {
            return Err(io::Error::other("replaced while it was opened"));
        }
        let buffer = vec![0; CHUNK + ALIGNMENT];
        Ok(Some(Direct { file, buffer }))
    }

    /// Compares bytes with the file's first ones.
    pub fn compare(&mut self, bytes: &[u8]) -> io::Result<Comparison> {
        for (n, chunk) in bytes.chunks(CHUNK).enumerate() {
            match self.compare_at(chunk, (n * CHUNK) as u64)? {
                Comparison::Same => {}
                other => return Ok(other),
            }
        }
        Ok(Comparison::Same)
    }

    /// Compares at most a chunk.
    fn compare_at(&mut self, bytes: &[u8], at: u64) -> io::Result<Comparison> {
        let start = self.buffer.as_ptr().align_offset(ALIGNMENT);
        let aligned = &mut self.buffer[start..][..CHUNK];
        let mut len = 0;
        while len < bytes.len() {
            match self.file.read_at(&mut aligned[len..], at + len as u64) {
                Ok(0) => return Err(io::ErrorKind::UnexpectedEof.into()),
                Ok(n) => len += n,
                Err(error) if error.kind() == io::ErrorKind::Interrupted => {}
                Err(error) if is_unsupported(&error) => return Ok(Comparison::Unknown),
                Err(error) => return Err(error),
            }
        }
        Ok(match aligned[..bytes.len()] == *bytes {
            true => Comparison::Same,
            false => Comparison::Different,
        })
    }
}

unsafe extern "C" {
    fn posix_fadvise(fd: i32, offset: i64, len: i64, advice: i32) -> i32;
}

/// The pages are not needed soon.
const POSIX_FADV_DONTNEED: i32 = 4;

/// Lets the cache go of a file. It is advice: whether it was taken is not told, and a system that takes none may say so.
pub fn drop_cached(file: &File) {
    // SAFETY: numbers alone go over, and the descriptor is open.
    unsafe { posix_fadvise(file.as_raw_fd(), 0, 0, POSIX_FADV_DONTNEED) };
}

/// Whether the file system does not do what was asked of it.
pub fn is_unsupported(error: &io::Error) -> bool {
    matches!(error.kind(), io::ErrorKind::InvalidInput | io::ErrorKind::Unsupported)
}
