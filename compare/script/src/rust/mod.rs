//! The Rust: the published pager over the stand-in's files. What document 01
//! adds by design is put before it, by as little as is needed.

mod copy;
mod judge;
mod model;

use engine::error::{Result, SQLRiteError};
use engine::mvcc::MvccCommitBatch;
use engine::sql::pager::header::DbHeader;
use engine::sql::pager::pager::{AccessMode, Pager};
use engine::sql::pager::wal::Wal;
use lists::{batch, hex, log};
use stand_in::fs::OpenOptions;
use stand_in::path::Path;
use stand_in::world::{self, World};

use crate::call::{Edit, Opening};
use crate::side::{
    Act, Answer, Area, Cut, CutWrite, Performed, Preview, Recovered, Side, State, Write,
};
use copy::{Deed, Past};
pub use judge::MOST_STAGED;
use model::{Model, Pages};

/// One to a thread, since the world is the thread's; but for its copy, which
/// has another.
#[derive(Default)]
pub struct Rust {
    pager: Option<Pager>,
    model: Model,
    /// Of the open store; a copy has none.
    past: Option<Box<Past>>,
}

fn path(area: Area) -> Path {
    Path::from(area.file())
}

fn length_of(area: Area) -> usize {
    world::look_at(&path(area), |file| file.map_or(0, <[u8]>::len))
}

fn main_file() -> Vec<u8> {
    world::read_file(&path(Area::Main)).unwrap_or_default()
}

impl Rust {
    pub fn new() -> Self {
        Self::default()
    }

    fn open_pager(&self) -> &Pager {
        self.pager.as_ref().expect("a store is open")
    }

    /// How many of the staged pages a commit would write.
    pub fn differing(&self) -> usize {
        self.model.differing()
    }

    fn record(&mut self, deed: Deed) {
        if let Some(past) = &mut self.past {
            past.add(deed);
        }
    }

    fn act(&mut self, act: &Act, cut: Option<Cut>) -> Performed {
        let call = || match act {
            Act::Create => self.create(),
            Act::Open(opening) => self.open(*opening),
            Act::Batch(body) => self.batch(body),
            Act::Commit(header) => self.commit(*header),
            Act::Checkpoint => self.checkpoint(),
        };
        let listed = match cut {
            None => world::list(call),
            Some(cut) => world::list_cut(cut, call),
        };
        Performed {
            answer: listed.answer,
            writes: listed.stores.iter().map(write_from).collect(),
            cut: listed.cut.map(|cut| {
                let write = write_from(&cut.store);
                CutWrite {
                    write,
                    bytes: cut.bytes as usize,
                    file: length_of(write.area),
                }
            }),
        }
    }

    fn create(&mut self) -> Answer<usize> {
        let pager = Pager::create(&path(Area::Main)).map_err(|error| judge::of_call(&error))?;
        self.pager = Some(pager);
        self.model = Model::opened(Pages::new(), &main_file(), 2);
        Ok(0)
    }

    /// Plain opening is the Rust's. "A clean opening, read-write only, cuts
    /// the log at the commit point": it is judged by a read-only opening,
    /// which writes nothing; then the log is cut and opened plainly, and the
    /// clock raised.
    fn open(&mut self, opening: Opening) -> Answer<usize> {
        let main = main_file();
        judge::before_opening(&main, length_of(Area::Log))?;
        if opening == Opening::Clean && path(Area::Log).exists() {
            let judged = opened(AccessMode::ReadOnly, &main)?;
            cut_at_commit_point(&judged).map_err(|error| judge::of_call(&error))?;
        }
        let mode = match opening {
            Opening::ReadOnly => AccessMode::ReadOnly,
            Opening::ReadWrite | Opening::Clean => AccessMode::ReadWrite,
        };
        let mut pager = opened(mode, &main)?;
        if opening == Opening::Clean {
            observe_recovered(&mut pager).map_err(|error| judge::of_call(&error))?;
        }
        let count = judge::main_header(&main).map_or(0, |header| header.page_count);
        self.model = Model::opened(log_pages(), &main, count);
        self.pager = Some(pager);
        Ok(0)
    }

    fn batch(&mut self, body: &[u8]) -> Answer<usize> {
        let pager = self.pager.as_mut().expect("a store is open");
        let read_only = pager.access_mode() == AccessMode::ReadOnly;
        let batch = judge::of_batch(body, read_only, length_of(Area::Log))?;
        let appended = pager.append_mvcc_batch(&batch);
        appended.map_err(|error| judge::of_call(&error))?;
        Ok(batch.records.len())
    }

    /// The Rust itself refuses a read-only commit (10), before all else.
    fn commit(&mut self, header: DbHeader) -> Answer<usize> {
        let pager = self.pager.as_mut().expect("a store is open");
        if pager.access_mode() == AccessMode::ReadWrite {
            let log = length_of(Area::Log);
            judge::of_commit(&self.model, pager.header(), header, log)?;
        }
        let answer = pager.commit(header);
        let answer = answer.map_err(|error| judge::of_call(&error))?;
        assert_eq!(answer, self.model.differing(), "the judge's own count");
        self.model.commit(&header);
        if PagerCounts::of(pager).frames == 0 {
            self.model.checkpoint(header.page_count);
        }
        Ok(answer)
    }

    fn checkpoint(&mut self) -> Answer<usize> {
        let pager = self.pager.as_mut().expect("a store is open");
        let frames = PagerCounts::of(pager).frames;
        let answer = pager.checkpoint();
        let answer = answer.map_err(|error| judge::of_call(&error))?;
        if frames > 0 {
            self.model.checkpoint(pager.header().page_count);
        }
        Ok(answer)
    }
}

fn opened(mode: AccessMode, main: &[u8]) -> Answer<Pager> {
    let pager = Pager::open_with_mode(&path(Area::Main), mode);
    let pager = pager.map_err(|error| judge::of_opening(&error, main))?;
    judge::after_opening(pager.header())?;
    Ok(pager)
}

/// The one write of a clean opening, and a flush (DECISIONS.md, 38).
fn cut_at_commit_point(judged: &Pager) -> Result<()> {
    let frames = PagerCounts::of(judged).frames;
    let point = world::look_at(&path(Area::Log), |log| {
        judge::commit_point(log.unwrap_or_default(), frames)
    });
    let log = OpenOptions::new()
        .read(true)
        .write(true)
        .open(&path(Area::Log));
    let cut = log.and_then(|log| log.set_len(point as u64).and_then(|()| log.sync_all()));
    cut.map_err(SQLRiteError::from)
}

/// Document 02, P4: "A clean opening therefore takes the larger of the log
/// header's clock and the greatest commit time among the recovered batches."
/// The batches are those that the Rust itself has recovered, and by its own
/// call a time below its clock is ignored. Nothing is stored.
fn observe_recovered(pager: &mut Pager) -> Result<()> {
    let batches = pager.recovered_mvcc_commits().iter();
    match batches.map(|batch| batch.commit_ts).max() {
        Some(greatest) => pager.observe_clock_high_water(greatest),
        None => Ok(()),
    }
}

/// The log's pages as the pager gets them.
fn log_pages() -> Pages {
    let mut pages = Pages::new();
    if path(Area::Log).exists() {
        Wal::open_with_mode(&path(Area::Log), AccessMode::ReadOnly)
            .and_then(|mut wal| wal.load_committed_into(&mut pages))
            .expect("the pager has opened it");
    }
    pages
}

/// What the pager's debugging text tells.
struct PagerCounts {
    frames: usize,
    log_pages: usize,
    main_pages: usize,
    staged: usize,
}

impl PagerCounts {
    fn of(pager: &Pager) -> Self {
        let text = format!("{pager:?}");
        let number = |name: &str| {
            let (_, after) = text.split_once(name).expect("the field is there");
            let digits = after.split([',', ' ']).next().expect("a number");
            digits.parse().expect("a number")
        };
        Self {
            frames: number("wal_frames: "),
            log_pages: number("wal_pages: "),
            main_pages: number("cached_pages: "),
            staged: number("staged_pages: "),
        }
    }
}

impl Side for Rust {
    fn reset(&mut self) {
        self.close();
        world::reset();
    }

    fn queue_salt(&mut self, salt: u32) {
        world::queue_salt(salt);
        self.record(Deed::Salt(salt));
    }

    fn look_at<T>(&self, area: Area, look: impl FnOnce(Option<&[u8]>) -> T) -> T {
        world::look_at(&path(area), look)
    }

    fn edit(&mut self, edit: &Edit) {
        for area in edit.areas() {
            let mut file = world::read_file(&path(*area));
            edit.apply(&mut file);
            match file {
                Some(bytes) => world::write_file(&path(*area), &bytes),
                None => world::remove_file(&path(*area)),
            }
        }
    }

    /// The listing makes files, too, in a world of its own.
    fn list_log(&self) -> String {
        let log = world::read_file(&path(Area::Log)).unwrap_or_default();
        match judge::before_listing(&log) {
            Ok(()) => world::within(&mut World::default(), || log::oracle::listed(&log)),
            Err(refused) => refused.to_string(),
        }
    }

    fn is_open(&self) -> bool {
        self.pager.is_some()
    }

    fn close(&mut self) {
        self.pager = None;
        self.past = None;
    }

    fn perform(&mut self, act: &Act, cut: Option<Cut>) -> Performed {
        let before = matches!(act, Act::Create | Act::Open(_)).then(world::copy);
        let performed = self.act(act, cut);
        match before {
            _ if performed.answer.is_err() => {}
            Some(world) => self.past = Some(Box::new(Past::new(world, act.clone()))),
            None => self.record(Deed::Act(act.clone())),
        }
        performed
    }

    /// The commit is made on a copy of the store.
    fn preview(&mut self, header: DbHeader) -> Answer<Preview> {
        let mut past = self.past.take().expect("a store is open");
        let preview = past.preview(self, header);
        self.past = Some(past);
        preview
    }

    fn stage(&mut self, page: u32, bytes: &[u8]) -> Answer<()> {
        judge::of_staging(&self.model, page, bytes)?;
        let bytes = model::page_of(bytes);
        let pager = self.pager.as_mut().expect("a store is open");
        pager.stage_page(page, *bytes);
        self.model.staged.insert(page, bytes.clone());
        self.record(Deed::Stage(page, bytes));
        Ok(())
    }

    fn clear(&mut self) {
        self.pager.as_mut().expect("a store is open").clear_staged();
        self.model.staged.clear();
        self.record(Deed::Clear);
    }

    fn observe_clock(&mut self, value: u64) -> u64 {
        let pager = self.pager.as_mut().expect("a store is open");
        let observed = pager.observe_clock_high_water(value);
        observed.expect("a lower one is ignored");
        let clock = pager.clock_high_water();
        self.record(Deed::Clock(value));
        clock
    }

    fn read(&self, page: u32) -> Option<&[u8]> {
        self.open_pager().read_page(page).map(|bytes| &bytes[..])
    }

    fn header(&self) -> DbHeader {
        self.open_pager().header()
    }

    /// "L: pages from 0 to 1,023 that the log has": the Rust's map may have
    /// others, which no call can reach.
    fn state(&self) -> State {
        let pager = self.open_pager();
        let counts = PagerCounts::of(pager);
        assert_eq!(
            counts.log_pages,
            self.model.log.len(),
            "the judge's own model"
        );
        assert_eq!(
            counts.main_pages,
            self.model.main.len(),
            "the judge's own model"
        );
        assert_eq!(
            counts.staged,
            self.model.staged.len(),
            "the judge's own model"
        );
        let reachable = self.model.log.keys().filter(|page| **page < 1_024);
        State {
            frames: counts.frames,
            log_pages: reachable.count(),
            main_pages: counts.main_pages,
            staged: counts.staged,
            clock: pager.clock_high_water(),
        }
    }

    fn recovered(&self) -> Vec<Recovered> {
        let batches = self.open_pager().recovered_mvcc_commits();
        batches.iter().map(recovered).collect()
    }
}

fn recovered(batch: &MvccCommitBatch) -> Recovered {
    let encoded = batch.encode().expect("it came out of a body");
    let mut lines = batch::print::lines(batch);
    lines.push(format!("encoded {}", hex::digits(&encoded[..])));
    Recovered {
        time: batch.commit_ts,
        records: batch.records.len(),
        lines,
        encoded: encoded.to_vec(),
    }
}

fn write_from(store: &world::Store) -> Write {
    let area = match store.file == path(Area::Main) {
        true => Area::Main,
        false => Area::Log,
    };
    Write {
        area,
        first: store.first as usize,
        length: store.length as usize,
        flush: store.flush,
    }
}
