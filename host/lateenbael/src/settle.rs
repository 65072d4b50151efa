//! A disk's files read for an opening, so that what it goes by is on the medium.
use crate::disk::failed;
use crate::{Area, Comparison, Disk, Error};
use std::io;

/// Reads a file into its area, as the system shows it: its length, as [`Disk::read`] tells it.
pub fn read_cached<D: Disk>(disk: &mut D, area: Area, bytes: &mut [u8]) -> Result<Option<usize>, Error> {
    disk.read(area, bytes).map_err(|source| failed(disk, area, source))
}

/// Reads a file into its area as it lies on the medium. After a flush that failed, in this program or in one before it, the system's
/// cache may hold bytes that never reached the medium; a later flush does not take them there, and to write into the same pages again
/// may not help either. A commit behind such bytes, or in them, would be gone with them. So the file is flushed, the cache lets go of it,
/// and what is read then is compared with the medium.
pub fn read_settled<D: Disk>(disk: &mut D, area: Area, bytes: &mut [u8]) -> Result<Option<usize>, Error> {
    let settled = match disk.sync(area) {
        Err(error) if error.kind() == io::ErrorKind::NotFound => return Ok(None),
        synced => synced.and_then(|()| disk.drop_cached(area)),
    };
    settled.map_err(|source| failed(disk, area, source))?;
    let len = read_cached(disk, area, bytes)?;
    // A file that is longer than its area is refused.
    if let Some(bytes) = len.and_then(|len| bytes.get(..len)) {
        compare_with_medium(disk, area, bytes).map_err(|source| failed(disk, area, source))?;
    }
    Ok(len)
}

/// Fails where the cache has other bytes than the medium. Where the medium can't be read past the cache, the bytes are written again.
fn compare_with_medium<D: Disk>(disk: &mut D, area: Area, cached: &[u8]) -> io::Result<()> {
    match disk.compare_with_medium(area, cached)? {
        Comparison::Same => Ok(()),
        Comparison::Different => Err(io::Error::other(NOT_DROPPED)),
        Comparison::Unknown => disk.write_at(area, 0, cached).and_then(|()| disk.sync(area)),
    }
}

const NOT_DROPPED: &str = "an earlier write did not reach the medium, and a program that has the file mapped keeps it in the cache";
