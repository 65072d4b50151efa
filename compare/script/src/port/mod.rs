//! The port through the C interface: the proved store in memory, and two
//! files on which every write that it names is done.

pub(crate) mod batch;
mod listing;
mod probe;
mod writer;

use engine::sql::pager::header::DbHeader;
use lateenbael::{Engine, Refusal, Step, sys};
use stand_in::world::Salts;

use crate::call::{Edit, Opening};
use crate::side::{
    Act, Answer, Area, Cut, Performed, Preview, Recovered, Refused, Side, State, Write,
};
pub use probe::Probe;
use writer::{Files, Writer};

pub struct Port {
    pub engine: Engine,
    open: bool,
    files: Files,
    salts: Salts,
    pub probe: Probe,
}

impl Default for Port {
    fn default() -> Self {
        Self::new()
    }
}

impl Port {
    /// The engine is kept over all lists, so that its areas are full of old
    /// bytes.
    pub fn new() -> Self {
        Self {
            engine: Engine::new(),
            open: false,
            files: Files::default(),
            salts: Salts::default(),
            probe: Probe::default(),
        }
    }

    /// Whether the engine's areas have the files' bytes; a write that was
    /// not named would part them. Read-only without a log there is no file.
    pub fn areas_are_the_files(&self) -> bool {
        self.files.get(Area::Main) == Some(self.engine.main_file())
            && (self.files.get(Area::Log)).is_none_or(|log| log == self.engine.log_file())
    }

    fn write(&mut self, writer: &mut Writer, write: Write) -> bool {
        let area = match write.area {
            Area::Main => &self.engine.main,
            Area::Log => &self.engine.log,
        };
        let bytes = &area[write.first..][..write.length];
        writer.write(&mut self.files, write, bytes)
    }

    /// "creation writes": as the Rust does them, both files
    /// emptied first.
    fn create(&mut self, writer: &mut Writer) -> Answer<usize> {
        self.engine.create(self.salts.peek()).map_err(refused)?;
        self.open = true;
        let on = self.write(writer, length(Area::Main, 0, false))
            && self.write(writer, bytes(Area::Main, 0, 4_096, false))
            && self.write(writer, bytes(Area::Main, 4_096, 4_096, true));
        if on {
            self.write_new_log(writer);
        }
        Ok(0)
    }

    /// The salt is drawn once the log is empty.
    fn write_new_log(&mut self, writer: &mut Writer) {
        if self.write(writer, length(Area::Log, 0, false)) {
            self.salts.draw();
            self.write(writer, bytes(Area::Log, 0, 32, true));
        }
    }

    /// A main file that isn't there has no byte. A file longer than its area
    /// is lent as far as it goes and judged by its length.
    fn open(&mut self, opening: Opening, writer: &mut Writer) -> Answer<usize> {
        let main = self.files.get(Area::Main).unwrap_or_default();
        let log = self.files.get(Area::Log);
        lend(&mut self.engine.main, main);
        lend(&mut self.engine.log, log.unwrap_or_default());
        let (main, log) = (main.len(), log.map(<[u8]>::len));
        let clean = opening == Opening::Clean;
        let read_only = opening == Opening::ReadOnly;
        let salt = self.salts.peek();
        let answer = self.engine.reopen(clean, main, log, read_only, salt);
        answer.map_err(refused)?;
        self.open = true;
        match (opening, log) {
            (Opening::ReadOnly, _) | (Opening::ReadWrite, Some(_)) => {}
            // "cuts the log at the commit point"; DECISIONS, 38.
            (Opening::Clean, Some(_)) => {
                let point = self.engine.store().wal.len;
                self.write(writer, length(Area::Log, point, true));
            }
            // "absent means a fresh log"
            (_, None) => self.write_new_log(writer),
        }
        Ok(0)
    }

    /// The body is decoded by itself too, also where it is refused.
    fn batch(&mut self, body: &[u8], writer: &mut Writer) -> Answer<usize> {
        let records = batch::records(body);
        let write = self.engine.append_mvcc_batch(body).map_err(refused)?;
        self.write(writer, write_from(write));
        records.map_err(Refused::by)
    }

    fn commit(&mut self, header: DbHeader, writer: &mut Writer) -> Answer<usize> {
        let salt = self.salts.peek();
        let header = header_for_port(header);
        self.probe.in_one_call(&self.engine, |twin| {
            twin.commit(header, salt).map_err(refused_with_page)
        });
        let begun = self.engine.begin_commit(header, salt);
        begun.map_err(refused_with_page)?;
        self.steps(writer)
    }

    fn checkpoint(&mut self, writer: &mut Writer) -> Answer<usize> {
        let salt = self.salts.peek();
        self.probe
            .in_one_call(&self.engine, |twin| twin.checkpoint(salt).map_err(refused));
        match self.engine.begin_checkpoint(salt).map_err(refused)? {
            true => self.steps(writer),
            false => Ok(0),
        }
    }

    /// The steps to the end, or to the cut. The salt of a checkpoint is drawn
    /// just before its log length is written.
    fn steps(&mut self, writer: &mut Writer) -> Answer<usize> {
        loop {
            self.probe.is_busy(&mut self.engine);
            let (write, answer) = match self.engine.next_step().map_err(refused)? {
                Step::Idle => panic!("what was begun has a next step"),
                Step::Stored(write) => (write_from(write), None),
                Step::Last(write, answer) => (write_from(write), Some(answer)),
            };
            if write.is_length() && write.area == Area::Log {
                self.salts.draw();
            }
            let on = self.write(writer, write);
            if answer.is_some() || !on {
                return Ok(answer.unwrap_or(0));
            }
        }
    }
}

impl Side for Port {
    fn reset(&mut self) {
        self.open = false;
        self.files = Files::default();
        self.salts = Salts::default();
    }

    fn queue_salt(&mut self, salt: u32) {
        self.salts.queue(salt);
    }

    fn look_at<T>(&self, area: Area, look: impl FnOnce(Option<&[u8]>) -> T) -> T {
        look(self.files.get(area))
    }

    fn edit(&mut self, edit: &Edit) {
        for area in edit.areas() {
            edit.apply(self.files.get_mut(*area));
        }
    }

    fn list_log(&self) -> String {
        listing::listed(self.files.get(Area::Log).unwrap_or_default())
    }

    fn is_open(&self) -> bool {
        self.open
    }

    fn close(&mut self) {
        self.open = false;
    }

    fn perform(&mut self, act: &Act, cut: Option<Cut>) -> Performed {
        let mut writer = Writer::new(cut);
        let answer = match act {
            Act::Create => self.create(&mut writer),
            Act::Open(opening) => self.open(*opening, &mut writer),
            Act::Batch(body) => self.batch(body, &mut writer),
            Act::Commit(header) => self.commit(*header, &mut writer),
            Act::Checkpoint => self.checkpoint(&mut writer),
        };
        let cut = writer.cut_write.is_some();
        self.probe.is_the_same(&self.engine, answer, cut);
        Performed {
            answer,
            writes: writer.writes,
            cut: writer.cut_write,
        }
    }

    fn preview(&mut self, header: DbHeader) -> Answer<Preview> {
        let preview = || self.engine.preview_commit(header_for_port(header));
        let shown = self.probe.unaltered(&self.engine, preview);
        let shown = shown.map_err(refused_with_page)?;
        Ok(Preview {
            answer: shown.answer,
            frames: shown.frame_count,
            log: shown.log_len,
            main: shown.main_len,
            checkpointed: shown.checkpointed,
        })
    }

    fn stage(&mut self, page: u32, bytes: &[u8]) -> Answer<()> {
        self.engine.stage_page(page, bytes).map_err(refused)
    }

    fn clear(&mut self) {
        self.engine.clear_staged().expect("nothing is part done");
    }

    fn observe_clock(&mut self, value: u64) -> u64 {
        let observed = self.engine.observe_clock_high_water(value);
        observed.expect("nothing is part done");
        self.clock()
    }

    fn read(&self, page: u32) -> Option<&[u8]> {
        let page = self.engine.read_page(page).expect("nothing is part done");
        page.map(|bytes| &bytes[..])
    }

    fn header(&self) -> DbHeader {
        let header = self.engine.header().expect("nothing is part done");
        DbHeader {
            page_count: header.page_count,
            schema_root_page: header.schema_root_page,
            format_version: header.format_version,
            freelist_head: header.freelist_head,
        }
    }

    /// A table's entry is twice the place of the page's frame in the log,
    /// and 1 more if the main file has the page.
    fn state(&self) -> State {
        let entries = |test: fn(&u32) -> bool| {
            let entries = self.engine.table.iter();
            entries.copied().filter(test).count()
        };
        State {
            frames: self.engine.store().wal.frame_count,
            log_pages: entries(|entry| entry / 2 != 0),
            main_pages: entries(|entry| entry % 2 != 0),
            staged: self.engine.store().staged.count,
            clock: self.clock(),
        }
    }

    fn recovered(&self) -> Vec<Recovered> {
        let mut batches = Vec::new();
        let mut index = 0;
        while let Some(found) = self.engine.recovered(index).expect("nothing is part done") {
            let body = &self.engine.log[found.body..][..sys::PAGE_SIZE];
            batches.push(batch::printed(body));
            index = found.index + 1;
        }
        batches
    }
}

impl Port {
    fn clock(&self) -> u64 {
        let clock = self.engine.clock_high_water();
        clock.expect("nothing is part done")
    }
}

fn lend(area: &mut [u8], file: &[u8]) {
    let length = file.len().min(area.len());
    area[..length].copy_from_slice(&file[..length]);
}

fn refused(refusal: Refusal) -> Refused {
    Refused::by(refusal.number())
}

/// Beside refusal 14 stands the lowest page that is missing.
fn refused_with_page((refusal, page): (Refusal, usize)) -> Refused {
    Refused {
        page: (refusal == Refusal::Joining).then_some(page as u32),
        ..refused(refusal)
    }
}

fn write_from(write: lateenbael::Write) -> Write {
    Write {
        area: match write.area {
            lateenbael::Area::Main => Area::Main,
            lateenbael::Area::Log => Area::Log,
        },
        first: write.at,
        length: write.len,
        flush: write.flush,
    }
}

fn bytes(area: Area, first: usize, length: usize, flush: bool) -> Write {
    Write {
        area,
        first,
        length,
        flush,
    }
}

fn length(area: Area, length: usize, flush: bool) -> Write {
    bytes(area, length, 0, flush)
}

fn header_for_port(header: DbHeader) -> sys::DbHeader {
    sys::DbHeader {
        page_count: header.page_count,
        schema_root_page: header.schema_root_page,
        format_version: header.format_version,
        freelist_head: header.freelist_head,
    }
}
