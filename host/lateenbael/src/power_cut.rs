//! A disk whose power is cut, for trying things out.
use crate::{Area, Comparison, Disk};
use std::io;
use std::path::PathBuf;

/// A disk whose power goes after so many stored bytes, once it is armed: what comes later is not stored, and every call fails.
/// A new length, and a new name, count as one byte; a file's first 32 bytes are stored together or not at all.
#[derive(Clone, Debug)]
pub struct PowerCut<D> {
    disk: D,
    left: Option<u64>,
}

const UNTORN: usize = 32;

impl<D: Disk> PowerCut<D> {
    /// Not armed yet.
    pub fn new(disk: D) -> PowerCut<D> {
        PowerCut { disk, left: None }
    }

    /// The power goes after so many more bytes.
    pub fn arm(&mut self, bytes: u64) {
        self.left = Some(bytes);
    }

    /// How many of the next bytes are still stored.
    fn draw(&mut self, bytes: usize) -> usize {
        let Some(left) = self.left else { return bytes };
        let stored = left.min(bytes as u64);
        self.left = Some(left - stored);
        stored as usize
    }

    fn answer(stored: usize, asked: usize) -> io::Result<()> {
        if stored < asked {
            return Err(io::Error::other("the power was cut"));
        }
        Ok(())
    }
}

impl<D: Disk> Disk for PowerCut<D> {
    fn name(&self, area: Area) -> PathBuf {
        self.disk.name(area)
    }

    fn drop_cached(&mut self, area: Area) -> io::Result<()> {
        self.disk.drop_cached(area)
    }

    fn compare_with_medium(&mut self, area: Area, bytes: &[u8]) -> io::Result<Comparison> {
        self.disk.compare_with_medium(area, bytes)
    }

    fn read(&mut self, area: Area, buffer: &mut [u8]) -> io::Result<Option<usize>> {
        self.disk.read(area, buffer)
    }

    fn create(&mut self, area: Area) -> io::Result<()> {
        let stored = self.draw(1);
        Self::answer(stored, 1)?;
        self.disk.create(area)
    }

    fn publish(&mut self, area: Area) -> io::Result<()> {
        let stored = self.draw(1);
        Self::answer(stored, 1)?;
        self.disk.publish(area)
    }

    fn remove_left(&mut self) {
        self.disk.remove_left();
    }

    fn write_at(&mut self, area: Area, at: usize, bytes: &[u8]) -> io::Result<()> {
        let stored = self.draw(bytes.len());
        if at + stored >= UNTORN && stored > 0 {
            self.disk.write_at(area, at, &bytes[..stored])?;
        }
        Self::answer(stored, bytes.len())
    }

    fn set_len(&mut self, area: Area, len: usize) -> io::Result<()> {
        let stored = self.draw(1);
        Self::answer(stored, 1)?;
        self.disk.set_len(area, len)
    }

    fn sync(&mut self, area: Area) -> io::Result<()> {
        if self.left == Some(0) {
            return Err(io::Error::other("the power was cut"));
        }
        self.disk.sync(area)
    }

    fn is_intact(&mut self, area: Area) -> io::Result<bool> {
        self.disk.is_intact(area)
    }
}
