//! A disk for dry runs in memory.
use crate::{Area, Comparison, Disk, Files};
use std::io;
use std::path::PathBuf;

/// A disk that reads and never writes: it shows what calls would answer. The files stay open and locked, for the same calls in earnest.
#[derive(Debug)]
pub struct DryRun<'a> {
    files: &'a mut Files,
    /// The log, if it would have been made.
    made: Option<Area>,
}

impl<'a> DryRun<'a> {
    /// Over the files of a store that is there.
    pub fn over(files: &'a mut Files) -> DryRun<'a> {
        DryRun { files, made: None }
    }
}

impl Disk for DryRun<'_> {
    fn name(&self, area: Area) -> PathBuf {
        self.files.name(area)
    }

    fn read(&mut self, area: Area, buffer: &mut [u8]) -> io::Result<Option<usize>> {
        self.files.read(area, buffer)
    }

    fn drop_cached(&mut self, area: Area) -> io::Result<()> {
        self.files.drop_cached(area)
    }

    fn compare_with_medium(&mut self, area: Area, bytes: &[u8]) -> io::Result<Comparison> {
        self.files.compare_with_medium(area, bytes)
    }

    fn create(&mut self, area: Area) -> io::Result<()> {
        self.made = Some(area);
        Ok(())
    }

    fn publish(&mut self, _: Area) -> io::Result<()> {
        Ok(())
    }

    fn write_at(&mut self, _: Area, _: usize, _: &[u8]) -> io::Result<()> {
        Ok(())
    }

    fn set_len(&mut self, _: Area, _: usize) -> io::Result<()> {
        Ok(())
    }

    /// What other programs have written goes to the medium, as it would before the calls in earnest.
    fn sync(&mut self, area: Area) -> io::Result<()> {
        match self.made == Some(area) {
            true => Ok(()),
            false => self.files.sync(area),
        }
    }
}
