//! The two files, kept as two byte vectors, and a write cut inside.
use crate::writes::LOG_HEADER;
use crate::wrong::Wrong;
use lateenbael::{Area, Write};

/// A write as it was done, with its bytes (none for a length).
#[derive(Clone, Debug)]
pub struct DoneWrite {
    pub write: Write,
    pub bytes: Vec<u8>,
}

impl DoneWrite {
    /// A write with its bytes, taken from the areas.
    pub fn from_areas(write: Write, log: &[u8], main: &[u8]) -> DoneWrite {
        let area = if write.area == Area::Log { log } else { main };
        let bytes = area[write.at..][..write.len].to_vec();
        DoneWrite { write, bytes }
    }
}

#[derive(Clone, Default)]
pub struct MemoryFiles {
    pub main: Vec<u8>,
    pub log: Vec<u8>,
}

/// What a cut write changed: from `from` on the file had these bytes, to its end or to where the
/// write ends.
pub struct Undo {
    area: Area,
    len: usize,
    pub from: usize,
    old: Vec<u8>,
}

impl MemoryFiles {
    pub fn file(&self, area: Area) -> &Vec<u8> {
        match area {
            Area::Log => &self.log,
            Area::Main => &self.main,
        }
    }

    fn file_mut(&mut self, area: Area) -> &mut Vec<u8> {
        match area {
            Area::Log => &mut self.log,
            Area::Main => &mut self.main,
        }
    }

    /// A whole write.
    pub fn write(&mut self, done: &DoneWrite) {
        self.put(done, done.bytes.len().max(1));
    }

    /// The write's first bytes. A length happens if there is one at all. "A byte stored past a
    /// file's end lengthens it."
    fn put(&mut self, done: &DoneWrite, bytes: usize) {
        let Write { area, at, .. } = done.write;
        let file = self.file_mut(area);
        if bytes == 0 {
        } else if done.write.is_length() {
            file.resize(at, 0);
        } else {
            let end = at + bytes;
            file.resize(file.len().max(end), 0);
            file[at..end].copy_from_slice(&done.bytes[..bytes]);
        }
    }

    /// "The one cut has its first bytes new and the rest old, but a length, like a file's first 32
    /// bytes, is wholly old or new."
    pub fn cut(&mut self, done: &DoneWrite, bytes: usize, wrong: Wrong) -> Undo {
        let write = done.write;
        let whole_first = LOG_HEADER.saturating_sub(write.at);
        let torn = !write.is_length() && bytes < whole_first && wrong != Wrong::TornHeader;
        let bytes = if torn { 0 } else { bytes };
        let file = self.file(write.area);
        let len = file.len();
        let from = write.at.min(len);
        let to = if write.is_length() {
            len
        } else {
            len.min(write.at + bytes)
        };
        let undo = Undo {
            area: write.area,
            len,
            from,
            old: file[from..to.max(from)].to_vec(),
        };
        self.put(done, bytes);
        let frame = write.area == Area::Log && !write.is_length();
        if wrong == Wrong::LengthFirst && bytes > 0 && frame {
            let file = self.file_mut(write.area);
            file.resize(file.len().max(write.at + write.len), 0);
        }
        undo
    }

    pub fn undo(&mut self, undo: Undo) {
        let file = self.file_mut(undo.area);
        file.resize(undo.len, 0);
        file[undo.from..][..undo.old.len()].copy_from_slice(&undo.old);
    }
}

#[cfg(test)]
mod tests {
    use super::*;

    fn done(area: Area, at: usize, bytes: &[u8]) -> DoneWrite {
        let write = Write {
            area,
            at,
            len: bytes.len(),
            flush: false,
        };
        DoneWrite {
            write,
            bytes: bytes.to_vec(),
        }
    }

    /// The files after a cut, which must be the same as before once it is undone.
    fn cut(done: &DoneWrite, bytes: usize) -> MemoryFiles {
        let mut files = start();
        let undo = files.cut(done, bytes, Wrong::Not);
        let after = files.clone();
        files.undo(undo);
        assert_eq!((files.main, files.log), (start().main, start().log));
        after
    }

    fn start() -> MemoryFiles {
        MemoryFiles {
            main: vec![1; 40],
            log: vec![2; 34],
        }
    }

    #[test]
    fn bytes_inside_and_past_the_end() {
        let main = done(Area::Main, 36, &[9; 4]);
        assert_eq!(cut(&main, 2).main[34..], [1, 1, 9, 9, 1, 1]);
        let log = done(Area::Log, 34, &[9; 4]);
        assert_eq!(cut(&log, 3).log[33..], [2, 9, 9, 9]);
        let behind = done(Area::Log, 36, &[9; 4]);
        assert_eq!(cut(&behind, 1).log[33..], [2, 0, 0, 9]);
        assert_eq!(cut(&behind, 0).log, start().log);
    }

    #[test]
    fn first_bytes_and_lengths_are_whole_or_old() {
        let header = done(Area::Main, 0, &[9; 36]);
        assert_eq!(cut(&header, 31).main, start().main);
        assert_eq!(cut(&header, 33).main[30..35], [9, 9, 9, 1, 1]);
        let shorter = done(Area::Log, 32, &[]);
        assert_eq!(cut(&shorter, 0).log.len(), 34);
        assert_eq!(cut(&shorter, 1).log.len(), 32);
        let longer = done(Area::Main, 41, &[]);
        assert_eq!(cut(&longer, 1).main[38..], [1, 1, 0]);
    }
}
