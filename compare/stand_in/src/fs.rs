//! `File` and `OpenOptions` over the files in memory: what the engine uses
//! of them, behaving as the real ones do.

use std::io::{self, Read, Seek, SeekFrom, Write};

use crate::disk::Opened;
use crate::path::Path;
use crate::world::with_disk;

#[derive(Debug)]
pub struct File {
    opened: Opened,
    position: u64,
    writable: bool,
}

impl File {
    /// A store of its own, listed like every other.
    pub fn set_len(&self, length: u64) -> io::Result<()> {
        self.check_writable()?;
        with_disk(|disk| disk.set_len(&self.opened, length))
    }

    /// The flush that may follow a store.
    pub fn sync_all(&self) -> io::Result<()> {
        with_disk(|disk| disk.flush(&self.opened))
    }

    fn check_writable(&self) -> io::Result<()> {
        if self.writable {
            Ok(())
        } else {
            Err(io::ErrorKind::PermissionDenied.into())
        }
    }
}

impl Read for File {
    fn read(&mut self, buf: &mut [u8]) -> io::Result<usize> {
        let count = with_disk(|disk| {
            let bytes = disk.bytes(&self.opened)?;
            let start = bytes.len().min(self.position as usize);
            (&bytes[start..]).read(buf)
        })?;
        self.position += count as u64;
        Ok(count)
    }
}

impl Write for File {
    fn write(&mut self, bytes: &[u8]) -> io::Result<usize> {
        self.check_writable()?;
        with_disk(|disk| disk.write(&self.opened, self.position, bytes))?;
        self.position += bytes.len() as u64;
        Ok(bytes.len())
    }

    /// Nothing is kept back; what document 01 calls a flush is `sync_all`.
    fn flush(&mut self) -> io::Result<()> {
        Ok(())
    }
}

impl Seek for File {
    fn seek(&mut self, to: SeekFrom) -> io::Result<u64> {
        let length = with_disk(|disk| disk.bytes(&self.opened).map(|bytes| bytes.len() as u64))?;
        let (base, offset) = match to {
            SeekFrom::Start(position) => (position, 0),
            SeekFrom::End(offset) => (length, offset),
            SeekFrom::Current(offset) => (self.position, offset),
        };
        self.position = base
            .checked_add_signed(offset)
            .ok_or(io::ErrorKind::InvalidInput)?;
        Ok(self.position)
    }
}

#[derive(Debug, Clone, Default)]
pub struct OpenOptions {
    write: bool,
    create: bool,
    truncate: bool,
}

impl OpenOptions {
    pub fn new() -> Self {
        Self::default()
    }

    /// Every file here can be read.
    pub fn read(&mut self, _: bool) -> &mut Self {
        self
    }

    pub fn write(&mut self, write: bool) -> &mut Self {
        self.write = write;
        self
    }

    pub fn create(&mut self, create: bool) -> &mut Self {
        self.create = create;
        self
    }

    pub fn truncate(&mut self, truncate: bool) -> &mut Self {
        self.truncate = truncate;
        self
    }

    pub fn open(&self, path: &Path) -> io::Result<File> {
        Ok(File {
            opened: with_disk(|disk| disk.open(path, self.create, self.truncate))?,
            position: 0,
            writable: self.write,
        })
    }
}

#[cfg(test)]
mod tests {
    use super::*;
    use crate::world::{self, Cut};

    fn path() -> Path {
        Path::from("file")
    }

    fn create() -> File {
        world::reset();
        OpenOptions::new()
            .read(true)
            .write(true)
            .create(true)
            .truncate(true)
            .open(&path())
            .unwrap()
    }

    #[test]
    fn what_is_written_is_read_back() {
        let mut file = create();
        file.write_all(b"abcdef").unwrap();
        file.seek(SeekFrom::Start(2)).unwrap();
        let mut some = [0; 3];
        file.read_exact(&mut some).unwrap();
        assert_eq!(&some, b"cde");
        assert_eq!(file.seek(SeekFrom::Current(-1)).unwrap(), 4);
        assert_eq!(file.seek(SeekFrom::End(-6)).unwrap(), 0);
        assert!(file.seek(SeekFrom::End(-7)).is_err());
        assert!(file.read_exact(&mut [0; 7]).is_err());
        assert_eq!(world::read_file(&path()).unwrap(), b"abcdef");
    }

    #[test]
    fn a_store_past_the_end_brings_zeros() {
        let mut file = create();
        file.seek(SeekFrom::Start(2)).unwrap();
        file.write_all(b"x").unwrap();
        file.set_len(5).unwrap();
        assert_eq!(world::read_file(&path()).unwrap(), b"\0\0x\0\0");
        file.set_len(1).unwrap();
        assert_eq!(world::read_file(&path()).unwrap(), b"\0");
    }

    #[test]
    fn only_creation_makes_a_file_and_only_writers_write() {
        world::reset();
        let mut reading = OpenOptions::new();
        reading.read(true);
        assert!(!path().exists());
        assert!(reading.open(&path()).is_err());
        world::write_file(&path(), b"abc");
        assert!(path().exists());
        let mut file = reading.open(&path()).unwrap();
        assert!(file.write_all(b"x").is_err());
        assert!(file.set_len(0).is_err());
        assert_eq!(world::read_file(&path()).unwrap(), b"abc");
        world::remove_file(&path());
        assert!(file.read(&mut [0]).is_err());
    }

    #[test]
    fn after_a_cut_a_file_must_be_opened_anew() {
        let mut file = create();
        file.write_all(&[1; 40]).unwrap();
        let cut = Cut {
            stores: 0,
            bytes: 3,
        };
        let listed = world::list_cut(cut, || {
            assert!(file.write_all(&[2; 40]).is_err());
            assert!(OpenOptions::new().open(&path()).is_err());
        });
        assert_eq!(listed.cut.unwrap().bytes, 3);
        let after = world::read_file(&path()).unwrap();
        assert_eq!(after, [&[1; 40][..], &[2; 3]].concat());

        assert!(file.read(&mut [0]).is_err());
        assert!(file.seek(SeekFrom::End(0)).is_err());
        assert!(file.write_all(&[3]).is_err());
        assert!(file.set_len(0).is_err());
        assert!(file.sync_all().is_err());
        assert_eq!(world::read_file(&path()).unwrap(), after);
        assert!(OpenOptions::new().open(&path()).is_ok());
    }

    #[test]
    fn a_cut_that_the_call_does_not_reach_falls_behind_it() {
        let mut file = create();
        let cut = Cut {
            stores: 1,
            bytes: 0,
        };
        let listed = world::list_cut(cut, || file.write_all(b"abc"));
        assert!(listed.answer.is_ok());
        assert_eq!(listed.stores.len(), 1);
        assert_eq!(listed.cut, None);
        assert!(file.write_all(b"def").is_err());
        assert_eq!(world::read_file(&path()).unwrap(), b"abc");
    }

    #[test]
    fn a_copy_of_the_world_is_a_world_of_its_own() {
        let mut file = create();
        file.write_all(b"abc").unwrap();
        world::queue_salt(7);
        let mut other = world::copy();
        assert!(world::is_like(&other));
        let write = || {
            let mut file = OpenOptions::new().write(true).open(&path()).unwrap();
            file.write_all(b"x").unwrap();
            assert_eq!(world::read_file(&path()).unwrap(), b"xbc");
            file
        };
        let mut of_other = world::within(&mut other, write);
        assert!(!world::is_like(&other));
        assert_eq!(world::read_file(&path()).unwrap(), b"abc");
        world::within(&mut other, || of_other.write_all(b"y").unwrap());
        file.write_all(b"d").unwrap();
        assert_eq!(world::read_file(&path()).unwrap(), b"abcd");
        let panicked = std::panic::catch_unwind(|| {
            world::within(&mut world::copy(), || panic!("in another world"));
        });
        assert!(panicked.is_err());
        assert_eq!(world::read_file(&path()).unwrap(), b"abcd");
        world::within(&mut other, || {
            assert_eq!(world::read_file(&path()).unwrap(), b"xyc");
        });
        world::write_file(&path(), b"xyc");
        assert!(world::is_like(&other));
        world::queue_salt(8);
        assert!(!world::is_like(&other));
    }
}
