//! Stores as document 01 names them, and where a cut falls among them.

use crate::path::Path;

/// The Rust stores a frame with two writes, heading and body; document 01
/// names the whole frame as one store. Nothing else that is written has 16
/// bytes, so a write of that length is a frame's heading.
const FRAME_HEADING: u64 = 16;
const FRAME: u64 = 4_112;

/// A file's first bytes up to here are wholly old or wholly new.
const UNTORN: u64 = 32;

/// One store: a whole frame, main page, header, or a new length.
#[derive(Debug, Clone, PartialEq, Eq)]
pub struct Store {
    pub file: Path,
    /// The first byte, or for a length store the new length.
    pub first: u64,
    /// The number of bytes, or for a length store 0.
    pub length: u64,
    /// Whether a flush follows.
    pub flush: bool,
}

impl Store {
    pub fn is_length(&self) -> bool {
        self.length == 0
    }
}

/// Where a call is cut: after its first `stores` stores, which are whole,
/// and `bytes` bytes of the next. A length store is made if `bytes` is above
/// 0. Of a file's first 32 bytes none is stored if `bytes` doesn't cover
/// them all.
#[derive(Debug, Clone, Copy, PartialEq, Eq)]
pub struct Cut {
    pub stores: usize,
    pub bytes: u64,
}

/// The store that a cut fell on.
#[derive(Debug, Clone, PartialEq, Eq)]
pub struct CutStore {
    /// The store as it would have been, but that no flush followed.
    pub store: Store,
    /// How many of its bytes were stored; for a length 1 (new) or 0 (old).
    pub bytes: u64,
}

impl CutStore {
    pub fn is_whole(&self) -> bool {
        self.bytes == units(&self.store)
    }
}

/// What a store is counted in: its bytes, but a length is one piece.
fn units(store: &Store) -> u64 {
    store.length.max(1)
}

/// Lists the stores of one call and says how much of each is let through.
pub struct Recorder {
    stores: Vec<Store>,
    cut: Option<Cut>,
    /// How much of the last store has been let through.
    done: u64,
}

impl Recorder {
    pub fn new(cut: Option<Cut>) -> Self {
        Self {
            stores: Vec::new(),
            cut,
            done: 0,
        }
    }

    /// How many of the `length` bytes written at `first` are to be stored.
    pub fn write(&mut self, file: &Path, first: u64, length: u64) -> u64 {
        if !self.is_frame_body(file, first) {
            let whole = if length == FRAME_HEADING {
                FRAME
            } else {
                length
            };
            self.begin(file, first, whole);
        }
        self.let_through(length)
    }

    /// Whether the file is to get its new length.
    pub fn set_len(&mut self, file: &Path, length: u64) -> bool {
        self.begin(file, length, 0);
        self.let_through(1) > 0
    }

    /// A flush belongs to the store it follows.
    pub fn flush(&mut self, file: &Path) {
        if let Some(last) = self.stores.last_mut()
            && last.file == *file
        {
            last.flush = true;
        }
    }

    /// Whether the cut's place has been reached.
    pub fn is_cut(&self) -> bool {
        self.limit().is_some_and(|limit| self.done == limit)
    }

    /// The whole stores before the cut, and the store that it fell on.
    pub fn finish(mut self) -> (Vec<Store>, Option<CutStore>) {
        let cut = match self.limit() {
            Some(_) => self.stores.pop().map(|store| CutStore {
                store,
                bytes: self.done,
            }),
            None => None,
        };
        (self.stores, cut)
    }

    fn begin(&mut self, file: &Path, first: u64, length: u64) {
        self.stores.push(Store {
            file: file.clone(),
            first,
            length,
            flush: false,
        });
        self.done = 0;
    }

    fn is_frame_body(&self, file: &Path, first: u64) -> bool {
        self.stores.last().is_some_and(|last| {
            last.length == FRAME
                && self.done == FRAME_HEADING
                && last.file == *file
                && last.first + FRAME_HEADING == first
        })
    }

    fn let_through(&mut self, amount: u64) -> u64 {
        let limit = self.limit().unwrap_or(u64::MAX);
        let passed = amount.min(limit - self.done);
        self.done += passed;
        passed
    }

    /// How much of the last store the cut leaves, if it falls on that one.
    fn limit(&self) -> Option<u64> {
        let cut = self.cut?;
        let last = self.stores.last()?;
        if self.stores.len() <= cut.stores {
            return None;
        }
        let untorn = UNTORN.saturating_sub(last.first).min(last.length);
        Some(if cut.bytes < untorn {
            0
        } else {
            cut.bytes.min(units(last))
        })
    }
}

#[cfg(test)]
mod tests {
    use super::*;

    fn log() -> Path {
        Path::from("log")
    }

    fn store(first: u64, length: u64, flush: bool) -> Store {
        Store {
            file: log(),
            first,
            length,
            flush,
        }
    }

    fn cut_at(stores: usize, bytes: u64) -> Recorder {
        Recorder::new(Some(Cut { stores, bytes }))
    }

    #[test]
    fn heading_and_body_are_one_store() {
        let mut recorder = Recorder::new(None);
        for frame in [32, 4_144] {
            assert_eq!(recorder.write(&log(), frame, 16), 16);
            assert_eq!(recorder.write(&log(), frame + 16, 4_096), 4_096);
        }
        recorder.flush(&log());
        let (stores, cut) = recorder.finish();
        assert_eq!(stores, [store(32, 4_112, false), store(4_144, 4_112, true)]);
        assert_eq!(cut, None);
    }

    #[test]
    fn pages_in_a_row_are_stores_of_their_own() {
        let mut recorder = Recorder::new(None);
        recorder.write(&log(), 0, 4_096);
        recorder.write(&log(), 4_096, 4_096);
        let (stores, _) = recorder.finish();
        assert_eq!(stores, [store(0, 4_096, false), store(4_096, 4_096, false)]);
    }

    #[test]
    fn a_frame_is_cut_after_any_byte() {
        for bytes in [0, 1, 15, 16, 17, 4_111, 4_112, 5_000] {
            let kept = bytes.min(FRAME);
            let mut recorder = cut_at(0, bytes);
            let mut stored = recorder.write(&log(), 32, 16);
            assert_eq!(recorder.is_cut(), kept <= 16);
            if !recorder.is_cut() {
                stored += recorder.write(&log(), 48, 4_096);
            }
            assert!(recorder.is_cut());
            assert_eq!(stored, kept);
            let (stores, cut) = recorder.finish();
            assert_eq!(stores, []);
            let cut = cut.unwrap();
            assert_eq!(cut.store, store(32, 4_112, false));
            assert_eq!(cut.bytes, kept);
            assert_eq!(cut.is_whole(), bytes >= FRAME);
        }
    }

    #[test]
    fn the_first_32_bytes_are_whole_or_not_at_all() {
        for (bytes, kept) in [(0, 0), (1, 0), (31, 0), (32, 32), (33, 33), (9_999, 4_096)] {
            assert_eq!(cut_at(0, bytes).write(&log(), 0, 4_096), kept);
        }
        for (bytes, kept) in [(0, 0), (31, 0), (32, 32), (33, 32)] {
            assert_eq!(cut_at(0, bytes).write(&log(), 0, 32), kept);
        }
    }

    #[test]
    fn a_length_is_old_or_new() {
        for (bytes, new) in [(0, false), (1, true), (99, true)] {
            let mut recorder = cut_at(1, bytes);
            recorder.write(&log(), 0, 4_096);
            assert!(!recorder.is_cut());
            assert_eq!(recorder.set_len(&log(), 8), new);
            assert!(recorder.is_cut());
            let (stores, cut) = recorder.finish();
            assert_eq!(stores, [store(0, 4_096, false)]);
            let cut = cut.unwrap();
            assert!(cut.store.is_length());
            assert_eq!(cut.is_whole(), new);
        }
    }

    #[test]
    fn a_cut_behind_the_last_store_falls_on_none() {
        let mut recorder = cut_at(1, 0);
        assert_eq!(recorder.write(&log(), 0, 32), 32);
        assert!(!recorder.is_cut());
        let (stores, cut) = recorder.finish();
        assert_eq!(stores, [store(0, 32, false)]);
        assert_eq!(cut, None);
    }
}
