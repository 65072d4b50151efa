//! Files in memory, and the power that a cut takes away.

use std::collections::BTreeMap;
use std::io;

use crate::path::Path;
use crate::stores::{Cut, CutStore, Recorder, Store};

#[derive(Default)]
pub struct Disk {
    files: BTreeMap<Path, Vec<u8>>,
    /// The number of cuts so far; what was opened before the last is dead.
    cuts: u64,
    recorder: Option<Recorder>,
}

/// A file as an engine holds it.
#[derive(Debug)]
pub struct Opened {
    path: Path,
    cuts: u64,
}

/// The caller's acts, beside every engine.
impl Disk {
    pub fn reset(&mut self) {
        self.files.clear();
        self.recorder = None;
        self.cut_power();
    }

    /// The files alone.
    pub fn copy(&self) -> Self {
        Self {
            files: self.files.clone(),
            ..Self::default()
        }
    }

    pub fn is_like(&self, other: &Self) -> bool {
        self.files == other.files
    }

    pub fn read_file(&self, path: &Path) -> Option<&Vec<u8>> {
        self.files.get(path)
    }

    pub fn write_file(&mut self, path: &Path, bytes: &[u8]) {
        self.files.insert(path.clone(), bytes.to_vec());
    }

    pub fn remove_file(&mut self, path: &Path) {
        self.files.remove(path);
    }

    pub fn start_recording(&mut self, cut: Option<Cut>) {
        assert!(self.recorder.is_none(), "a listed call inside another");
        self.recorder = Some(Recorder::new(cut));
    }

    pub fn stop_recording(&mut self) -> (Vec<Store>, Option<CutStore>) {
        let recorder = self.recorder.take();
        recorder.expect("a listed call ends once").finish()
    }

    pub fn cut_power(&mut self) {
        self.cuts += 1;
    }
}

/// The engine's acts.
impl Disk {
    /// Opens a file; to make or to empty it is a store, its length 0.
    pub fn open(&mut self, path: &Path, create: bool, truncate: bool) -> io::Result<Opened> {
        if self.is_off() {
            return Err(power_is_off());
        }
        let exists = self.files.contains_key(path);
        if !exists && !create {
            return Err(io::ErrorKind::NotFound.into());
        }
        if !exists || truncate {
            self.store_length(path, 0)?;
        }
        Ok(Opened {
            path: path.clone(),
            cuts: self.cuts,
        })
    }

    pub fn bytes(&mut self, file: &Opened) -> io::Result<&mut Vec<u8>> {
        if file.cuts != self.cuts {
            return Err(power_is_off());
        }
        self.files
            .get_mut(&file.path)
            .ok_or(io::ErrorKind::NotFound.into())
    }

    pub fn write(&mut self, file: &Opened, first: u64, bytes: &[u8]) -> io::Result<()> {
        self.bytes(file)?;
        let length = bytes.len() as u64;
        let kept = match &mut self.recorder {
            Some(recorder) => recorder.write(&file.path, first, length),
            None => length,
        };
        put(self.bytes(file)?, first as usize, &bytes[..kept as usize]);
        self.end_of_store()
    }

    pub fn set_len(&mut self, file: &Opened, length: u64) -> io::Result<()> {
        self.bytes(file)?;
        self.store_length(&file.path, length)
    }

    pub fn flush(&mut self, file: &Opened) -> io::Result<()> {
        self.bytes(file)?;
        if let Some(recorder) = &mut self.recorder {
            recorder.flush(&file.path);
        }
        Ok(())
    }

    fn store_length(&mut self, path: &Path, length: u64) -> io::Result<()> {
        let happens = match &mut self.recorder {
            Some(recorder) => recorder.set_len(path, length),
            None => true,
        };
        if happens {
            let file = self.files.entry(path.clone()).or_default();
            file.resize(length as usize, 0);
        }
        self.end_of_store()
    }

    /// Fails the store that the cut fell on, so that the engine's call ends.
    fn end_of_store(&mut self) -> io::Result<()> {
        if self.is_off() {
            self.cut_power();
            return Err(power_is_off());
        }
        Ok(())
    }

    /// From a cut to the end of its call nothing can be opened either.
    fn is_off(&self) -> bool {
        self.recorder.as_ref().is_some_and(Recorder::is_cut)
    }
}

fn power_is_off() -> io::Error {
    io::Error::other("the power is off")
}

/// Stores bytes as a file takes them: a byte past its end lengthens it, and
/// zeros fill a gap.
fn put(file: &mut Vec<u8>, first: usize, bytes: &[u8]) {
    if bytes.is_empty() {
        return;
    }
    let end = first + bytes.len();
    if file.len() < end {
        file.resize(end, 0);
    }
    file[first..end].copy_from_slice(bytes);
}
