//! A commit shown before it is made: it comes to what was shown, refusals included, and to show it alters nothing.
mod common;
use common::*;
use lateenbael::sys::{MAIN_AREA, STAGED_PAGES};
use lateenbael::{BatchBuilder, DbHeader, DryRun, Engine, Error, Files, Mode, PowerCut, Preview, Refusal, Salts, Store, wal_path_for};
use std::fs::{self, OpenOptions};
use std::io::Write;
use std::path::{Path, PathBuf};
use std::sync::Arc;
use std::sync::atomic::{AtomicU32, Ordering};
use std::time::Duration;

/// Numbers at random, the same in every run.
struct Random(u32);

impl Random {
    fn below(&mut self, end: u32) -> u32 {
        self.0 = self.0.wrapping_mul(1_664_525).wrapping_add(1_013_904_223);
        (self.0 >> 8) % end
    }

    /// A header that is mostly one that a commit takes.
    fn header(&mut self, now: DbHeader) -> DbHeader {
        let page_count = match self.below(12) {
            0 => self.below(3) * 512,
            1 => now.page_count - 1,
            2..9 => now.page_count,
            _ => now.page_count + self.below(3),
        };
        DbHeader {
            page_count,
            schema_root_page: self.below(3),
            format_version: if self.below(20) == 0 { 3 } else { 4 + self.below(3) as u16 },
            freelist_head: 0,
        }
    }

    /// A page below the count or right behind it, with one of few contents, so that some are as they were.
    fn page(&mut self, now: DbHeader) -> (u32, [u8; PAGE]) {
        let beyond = self.below(6) == 0;
        let n = if beyond { now.page_count } else { self.below(now.page_count) };
        (n, page(self.below(3) as u8))
    }
}

/// What a commit on a copy of all areas comes to.
fn committed_on_a_copy(engine: &Engine, header: DbHeader) -> Result<Preview, (Refusal, usize)> {
    let mut copy = engine.clone();
    let answer = copy.commit(header, 9)?;
    let sequence = |engine: &Engine| engine.store().wal.header.checkpoint_seq;
    Ok(Preview {
        answer,
        frame_count: copy.store().wal.frame_count,
        log_len: copy.log_file().len(),
        main_len: copy.main_file().len(),
        checkpointed: sequence(&copy) != sequence(engine),
    })
}

/// Shows a commit, which must be what it comes to on a copy; all areas stay.
fn shown(engine: &Engine, header: DbHeader) -> Result<Preview, (Refusal, usize)> {
    let before = engine.clone();
    let shown = engine.preview_commit(header);
    assert_eq!(engine.store(), before.store());
    assert!((&engine.table, &engine.log) == (&before.table, &before.log));
    assert!((&engine.main, &engine.staging) == (&before.main, &before.staging));
    assert_eq!(shown, committed_on_a_copy(engine, header));
    shown
}

/// An engine whose log has so many frames, one batch each.
fn with_frames(frames: usize) -> Engine {
    let mut engine = Engine::new();
    engine.create(7).unwrap();
    for _ in 0..frames {
        engine.append_mvcc_batch(BatchBuilder::new(1).body()).unwrap();
    }
    engine
}

#[test]
fn the_hundredth_frame_brings_a_checkpoint() {
    let unfolded = |answer, frame_count| Preview {
        answer,
        frame_count,
        log_len: 32 + frame_count * FRAME,
        main_len: 2 * PAGE,
        checkpointed: false,
    };
    let folded = |answer, pages| Preview {
        answer,
        frame_count: 0,
        log_len: 32,
        main_len: pages * PAGE,
        checkpointed: true,
    };
    let header = DbHeader::default();
    for (frames, alone, with_a_page) in [
        (0, unfolded(0, 1), unfolded(1, 2)),
        (97, unfolded(0, 98), unfolded(1, 99)),
        (98, unfolded(0, 99), folded(1, 2)),
        (99, folded(0, 2), folded(1, 2)),
        (500, folded(0, 2), folded(1, 2)),
    ] {
        let mut engine = with_frames(frames);
        assert_eq!(shown(&engine, header), Ok(alone));
        engine.stage_page(1, &page(1)).unwrap();
        assert_eq!(shown(&engine, header), Ok(with_a_page));
        engine.stage_page(2, &page(2)).unwrap();
        let grown = if frames < 97 { unfolded(2, frames + 3) } else { folded(2, 3) };
        assert_eq!(shown(&engine, with_count(header, 3)), Ok(grown), "{frames}");
    }
}

#[test]
fn every_refusal_is_shown() {
    let mut engine = with_frames(1024);
    let header = DbHeader::default();
    assert_eq!(shown(&engine, header), Err((Refusal::LogFull, 0)));
    engine.stage_page(2, &page(2)).unwrap();
    assert_eq!(shown(&engine, with_count(header, 9)), Err((Refusal::Joining, 3)));
    assert_eq!(shown(&engine, with_count(header, 0)), Err((Refusal::NewHeader, 0)));
    assert_eq!(shown(&engine, with_count(header, 1025)), Err((Refusal::NewHeader, 0)));
    let mut store = *engine.store();
    store.opening = 2;
    engine.set_store(store);
    assert_eq!(shown(&engine, with_count(header, 0)), Err((Refusal::ReadOnly, 0)));
    store.job.kind = 1;
    engine.set_store(store);
    assert_eq!(shown(&engine, with_count(header, 0)), Err((Refusal::Busy, 0)));
    store.storage.len = MAIN_AREA + 1;
    engine.set_store(store);
    assert_eq!(shown(&engine, with_count(header, 0)), Err((Refusal::Area, 0)));
}

/// Calls at random, with a preview before every commit.
#[test]
fn in_memory_a_commit_comes_to_what_was_shown() {
    let (mut refused, mut folded, mut kept) = (0, 0, 0);
    for seed in 0..6 {
        let mut random = Random(seed);
        let mut engine = with_frames(90 + random.below(9) as usize);
        for _ in 0..40 {
            let now = engine.header().unwrap();
            for _ in 0..random.below(5) {
                let (n, bytes) = random.page(now);
                let _ = engine.stage_page(n, &bytes);
            }
            let header = random.header(now);
            match shown(&engine, header) {
                Ok(preview) if preview.checkpointed => folded += 1,
                Ok(_) => kept += 1,
                Err(_) => refused += 1,
            }
            let _ = engine.commit(header, seed);
            if random.below(2) == 0 {
                engine.clear_staged().unwrap();
            }
        }
    }
    assert!(refused > 30 && folded > 3 && kept > 100, "{refused} {folded} {kept}");
}

/// What a store is, with what it reads as, its files and how many salts were drawn.
#[derive(PartialEq)]
struct State {
    store: String,
    pages: Vec<Option<Vec<u8>>>,
    files: [Option<Vec<u8>>; 2],
    salts: u32,
}

/// A store's files, and a count of the salts that are drawn.
struct Watched {
    path: PathBuf,
    salts: Arc<AtomicU32>,
}

impl Watched {
    fn salts(&self) -> Salts {
        let drawn = self.salts.clone();
        Box::new(move || 1 + drawn.fetch_add(1, Ordering::Relaxed))
    }

    fn open(&self, mode: Mode) -> Store {
        let files = Files::existing(&self.path, mode == Mode::ReadOnly, Duration::ZERO).unwrap();
        Store::open_on(files, mode, self.salts()).unwrap()
    }

    fn state(&self, store: &Store) -> State {
        let read = |n| store.read_page(n).unwrap().map(|bytes| bytes.to_vec());
        State {
            store: format!("{store:?}"),
            pages: (0..12).map(read).collect(),
            files: bytes_of(&self.path),
            salts: self.salts.load(Ordering::Relaxed),
        }
    }

    /// Shows a commit and makes it: what was shown must be what comes, an error word for word; to show it alters nothing.
    fn shown_and_done(&self, store: &mut Store, header: DbHeader) -> Result<Preview, Error> {
        let before = self.state(store);
        let shown = store.preview(header);
        assert!(self.state(store) == before, "a preview has altered something");
        let sequence = store.wal_header().unwrap().checkpoint_seq;
        match (&shown, store.commit(header)) {
            (Ok(shown), Ok(answer)) => {
                let [main_len, log_len] = bytes_of(&self.path).map(|bytes| bytes.unwrap().len());
                let left = Preview {
                    answer,
                    frame_count: store.frame_count().unwrap(),
                    log_len,
                    main_len,
                    checkpointed: store.wal_header().unwrap().checkpoint_seq != sequence,
                };
                assert_eq!(*shown, left);
            }
            (Err(shown), Err(done)) => assert_eq!(format!("{shown:?}"), format!("{done:?}")),
            (shown, done) => panic!("{shown:?} was shown, and {done:?} came"),
        }
        shown
    }
}

/// What came of previews.
#[derive(Default)]
struct Tally {
    kept: usize,
    folded: usize,
    refused: usize,
    beyond: usize,
    torn: usize,
}

impl Tally {
    fn count(&mut self, shown: Result<Preview, Error>) {
        *match shown {
            Ok(preview) if preview.checkpointed => &mut self.folded,
            Ok(_) => &mut self.kept,
            Err(Error::StagedBeyond { .. }) => &mut self.beyond,
            Err(Error::TornTail { .. }) => &mut self.torn,
            Err(_) => &mut self.refused,
        } += 1;
    }
}

/// A log that has so many frames of batches, no commit among them.
fn put_frames(path: &Path, frames: u32) {
    let mut store = Store::create_over(path).unwrap();
    for _ in 0..frames {
        store.append_mvcc_batch(BatchBuilder::new(1).body()).unwrap();
    }
}

/// Some commits of one session.
fn session(watched: &Watched, mode: Mode, random: &mut Random, tally: &mut Tally) {
    let mut store = watched.open(mode);
    for _ in 0..4 {
        let now = store.header().unwrap();
        for _ in 0..random.below(4) {
            let (n, bytes) = random.page(now);
            let _ = store.stage_page(n, &bytes);
        }
        if random.below(3) == 0 {
            let _ = store.append_mvcc_batch(batch(3).body());
        }
        let header = random.header(now);
        let shown = watched.shown_and_done(&mut store, header);
        if shown.is_err() {
            store.clear_staged().unwrap();
        }
        tally.count(shown);
    }
}

/// Histories at random on files: the three openings, logs near 100 frames, and tails that no opening for writing has cut.
#[test]
fn on_files_a_commit_comes_to_what_was_shown() {
    let folder = Folder::new();
    let path = folder.store();
    let mut tally = Tally::default();
    for seed in 0..30 {
        let mut random = Random(seed);
        put_frames(&path, 90 + random.below(9));
        let salts = Arc::default();
        let watched = Watched { path: path.clone(), salts };
        // So that the waiting batches stay.
        session(&watched, Mode::Plain, &mut random, &mut tally);
        for _ in 0..2 {
            let mode = [Mode::Plain, Mode::ReadWrite, Mode::Plain, Mode::ReadOnly][random.below(4) as usize];
            session(&watched, mode, &mut random, &mut tally);
            if random.below(2) == 0 {
                let mut log = OpenOptions::new().append(true).open(wal_path_for(&path)).unwrap();
                log.write_all(&vec![7; 1 + random.below(5000) as usize]).unwrap();
            }
        }
    }
    let Tally {
        kept,
        folded,
        refused,
        beyond,
        torn,
    } = tally;
    let all = format!("{kept} {folded} {refused} {beyond} {torn}");
    assert!(kept > 50 && folded > 10 && refused > 50 && beyond > 20 && torn > 10, "{all}");
}

#[test]
fn staged_pages_stay_staged() {
    let folder = Folder::new();
    let mut store = Store::create(folder.store()).unwrap();
    let header = with_count(store.header().unwrap(), 2 + STAGED_PAGES as u32);
    for n in 2..header.page_count {
        store.stage_page(n, &page(n as u8)).unwrap();
    }
    for _ in 0..3 {
        assert_eq!(store.preview(header).unwrap().answer, STAGED_PAGES);
        assert_eq!(refusal(store.stage_page(1, &page(1))), Some(Refusal::Staging));
    }
    assert_eq!(store.read_page(9).unwrap(), Some(&page(9)));
    assert_eq!(store.commit(header).unwrap(), STAGED_PAGES);
    assert_eq!(store.preview(header).unwrap().answer, 0);
}

/// Files that were taken away stop a commit, and are only told by a preview.
#[test]
fn a_preview_stops_no_store() {
    let folder = Folder::new();
    let path = folder.store();
    let log = wal_path_for(&path);
    seven_pages(&path);
    let mut store = open(&path, Mode::ReadWrite);
    fs::remove_file(&log).unwrap();
    let header = store.header().unwrap();
    for _ in 0..2 {
        assert!(matches!(store.preview(header), Err(Error::Replaced { file }) if file == log));
        assert!(!store.is_stopped() && store.header().is_ok());
    }
    // What needs no file comes first, as it does in a commit.
    store.stage_page(9, &page(9)).unwrap();
    assert!(matches!(store.preview(header), Err(Error::StagedBeyond { page: 9, .. })));
    store.clear_staged().unwrap();
    assert!(matches!(store.commit(header), Err(Error::Replaced { .. })));
    assert!(store.is_stopped() && matches!(store.preview(header), Err(Error::Stopped)));
}

/// The main file matters where a checkpoint may follow, also where none would.
#[test]
fn a_lost_main_file_is_told_where_a_commit_would_tell_it() {
    let folder = Folder::new();
    let path = folder.store();
    let mut store = Store::create(&path).unwrap();
    commit_pages(&mut store, 1, &[1]);
    for _ in 2..97 {
        store.append_mvcc_batch(batch(1).body()).unwrap();
    }
    fs::remove_file(&path).unwrap();
    let header = store.header().unwrap();
    assert_eq!(store.preview(header).unwrap().frame_count, 98);
    assert_eq!(store.commit(header).unwrap(), 0);
    assert_eq!(store.preview(header).unwrap().frame_count, 99);
    // With the bytes that it has: the page adds no frame, so that there would be 99.
    store.stage_page(1, &page(1)).unwrap();
    assert!(matches!(store.preview(header), Err(Error::Replaced { file }) if file == path));
    assert!(!store.is_stopped());
    assert!(matches!(store.commit(header), Err(Error::Replaced { file }) if file == path));
    assert!(store.is_stopped());
}

#[test]
fn other_disks_show_commits_too() {
    let folder = Folder::new();
    let path = folder.store();
    seven_pages(&path);
    let before = bytes_of(&path);
    let mut files = existing(&path);
    let mut store = Store::open_on(DryRun::over(&mut files), Mode::ReadWrite, counting_salts(1)).unwrap();
    let header = store.header().unwrap();
    store.stage_page(3, &page(33)).unwrap();
    let shown = store.preview(header).unwrap();
    assert_eq!((shown.answer, store.commit(header).unwrap()), (1, 1));
    drop(store);
    let mut store = Store::open_on(PowerCut::new(files), Mode::ReadWrite, counting_salts(1)).unwrap();
    store.disk_mut().arm(0);
    store.stage_page(3, &page(33)).unwrap();
    assert_eq!(store.preview(header).unwrap(), shown);
    assert!(matches!(store.commit(header), Err(Error::Io { .. })));
    assert_eq!(bytes_of(&path), before);
}
