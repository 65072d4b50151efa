//! The port's two files, on which each write is done as a host
//! would, and the cut that may fall on one.

use crate::edit::{File, put};
use crate::side::{Area, Cut, CutWrite, Write};

/// A file's first bytes up to here are wholly old or wholly new.
const UNTORN: usize = 32;

#[derive(Default)]
pub struct Files {
    pub main: File,
    pub log: File,
}

impl Files {
    pub fn get(&self, area: Area) -> Option<&[u8]> {
        match area {
            Area::Main => self.main.as_deref(),
            Area::Log => self.log.as_deref(),
        }
    }

    pub fn get_mut(&mut self, area: Area) -> &mut File {
        match area {
            Area::Main => &mut self.main,
            Area::Log => &mut self.log,
        }
    }
}

/// The writes of one call. The one that the cut falls on is done in
/// part, and the power is off from then on.
pub struct Writer {
    cut: Option<Cut>,
    pub writes: Vec<Write>,
    pub cut_write: Option<CutWrite>,
}

impl Writer {
    pub fn new(cut: Option<Cut>) -> Self {
        Self {
            cut,
            writes: Vec::new(),
            cut_write: None,
        }
    }

    /// Does a write on its file; `bytes` are its own. Says whether
    /// the power is still on.
    pub fn write(&mut self, files: &mut Files, write: Write, bytes: &[u8]) -> bool {
        let file = files.get_mut(write.area);
        match self.cut.filter(|cut| cut.stores == self.writes.len()) {
            None => {
                apply(file, &write, bytes, units(&write));
                self.writes.push(write);
                true
            }
            Some(cut) => {
                let stored = stored_part(&write, cut.bytes);
                apply(file, &write, bytes, stored);
                self.cut_write = Some(CutWrite {
                    write: Write {
                        flush: false,
                        ..write
                    },
                    bytes: stored,
                    file: file.as_ref().map_or(0, Vec::len),
                });
                false
            }
        }
    }
}

/// What a write is counted in: its bytes, but a length is one piece.
fn units(write: &Write) -> usize {
    write.length.max(1)
}

/// How much of a write a cut leaves after so many bytes.
fn stored_part(write: &Write, bytes: u64) -> usize {
    let bytes = bytes.min(units(write) as u64) as usize;
    let untorn = UNTORN.saturating_sub(write.first).min(write.length);
    if bytes < untorn { 0 } else { bytes }
}

fn apply(file: &mut File, write: &Write, bytes: &[u8], stored: usize) {
    if stored == 0 {
        return;
    }
    let file = file.get_or_insert_default();
    if write.is_length() {
        file.resize(write.first, 0);
    } else {
        put(file, write.first, &bytes[..stored]);
    }
}

#[cfg(test)]
mod tests {
    use super::*;

    fn log(first: usize, length: usize) -> Write {
        Write {
            area: Area::Log,
            first,
            length,
            flush: true,
        }
    }

    #[test]
    fn lengths_and_first_bytes_are_whole_or_not_at_all() {
        for (write, bytes, wanted) in [
            (log(0, 32), 31, 0),
            (log(0, 32), 40, 32),
            (log(0, 4_096), 31, 0),
            (log(0, 4_096), 33, 33),
            (log(32, 4_112), 1, 1),
            (log(32, 4_112), u64::MAX, 4_112),
            (log(99, 0), 0, 0),
            (log(99, 0), 7, 1),
        ] {
            assert_eq!(stored_part(&write, bytes), wanted, "{write} {bytes}");
        }
    }

    #[test]
    fn a_cut_ends_the_writing() {
        let mut files = Files::default();
        let mut writer = Writer::new(Some(Cut {
            stores: 1,
            bytes: 2,
        }));
        assert!(writer.write(&mut files, log(3, 0), &[]));
        assert!(!writer.write(&mut files, log(40, 3), &[7, 8, 9]));
        assert_eq!(writer.writes.len(), 1);
        assert_eq!(writer.cut_write.unwrap().file, 42);
        let file = files.log.unwrap();
        assert_eq!(file.len(), 42);
        assert_eq!(file[39..], [0, 7, 8]);
    }
}
