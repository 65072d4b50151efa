//! Two things that document 01 says of steps and that the Rust, which has
//! none, cannot tell: between two steps every call but the next step and an
//! opening is refused with 9 and changes nothing; and a commit or checkpoint in
//! one call is its steps run to the end. And one that document 02 says of
//! areas, which the Rust hasn't either: a preview alters nothing in them.

use lateenbael::{Engine, Refusal, sys};

use crate::side::Answer;

/// An empty batch.
const BATCH: [u8; 18] = *b"MVCC0001\0\0\0\0\0\0\0\0\0\0";

#[derive(Default)]
pub struct Probe {
    /// Whether to look at all.
    pub on: bool,
    /// Busy stores that were asked, calls made both ways, and previews over
    /// areas that were compared whole.
    pub asked: u64,
    pub twice: u64,
    pub compared: u64,
    /// What was found wrong.
    pub faults: Vec<String>,
    twin: Option<Box<Engine>>,
    /// What the twin answered in one call.
    answer: Option<Answer<usize>>,
}

impl Probe {
    /// Makes a call on a copy of the store.
    pub fn in_one_call(
        &mut self,
        engine: &Engine,
        call: impl FnOnce(&mut Engine) -> Answer<usize>,
    ) {
        if self.on {
            let twin = self.twin.get_or_insert_with(|| Box::new(Engine::new()));
            copy(engine, twin);
            self.answer = Some(call(twin));
        }
    }

    /// Makes a call that alters nothing in the areas, also behind the files.
    pub fn unaltered<T>(&mut self, engine: &Engine, call: impl FnOnce() -> T) -> T {
        if !self.on {
            return call();
        }
        self.compared += 1;
        let twin = self.twin.get_or_insert_with(|| Box::new(Engine::new()));
        twin.table.copy_from_slice(&engine.table);
        let areas = [&engine.log, &engine.main, &engine.staging];
        let copies = [&mut twin.log, &mut twin.main, &mut twin.staging];
        for (area, copy) in areas.into_iter().zip(copies) {
            copy.copy_from_slice(area);
        }
        let answer = call();
        let same = areas == [&twin.log, &twin.main, &twin.staging];
        if !same || engine.table != twin.table {
            self.faults.push("an area has changed".to_string());
        }
        answer
    }

    /// The steps, if they weren't cut, have come to the same as the one call.
    pub fn is_the_same(&mut self, engine: &Engine, answer: Answer<usize>, cut: bool) {
        let (Some(twin), Some(wanted), false) = (&self.twin, self.answer.take(), cut) else {
            return;
        };
        self.twice += 1;
        let same = wanted == answer
            && twin.store() == engine.store()
            && twin.table == engine.table
            && twin.log_file() == engine.log_file()
            && twin.main_file() == engine.main_file();
        if !same {
            let fault = format!("in one call {wanted:?}, by steps {answer:?}, or another store");
            self.faults.push(fault);
        }
    }

    /// The store is part done.
    pub fn is_busy(&mut self, engine: &mut Engine) {
        if !self.on {
            return;
        }
        self.asked += 1;
        let before = *engine.store();
        let answers = [
            ("header", engine.header().err()),
            ("access mode", engine.is_read_only().err()),
            ("clock", engine.clock_high_water().err()),
            ("clock", engine.observe_clock_high_water(u64::MAX).err()),
            ("read", engine.read_page(1).err()),
            ("recovered", engine.recovered(0).err()),
            ("stage", engine.stage_page(1, &[0; sys::PAGE_SIZE]).err()),
            ("clear", engine.clear_staged().err()),
            ("batch", engine.append_mvcc_batch(&BATCH).err()),
            ("preview", preview(engine)),
            ("commit", begin_commit(engine)),
            ("fold", engine.begin_checkpoint(0).err()),
            ("commit", commit(engine)),
            ("fold", engine.checkpoint(0).err()),
        ];
        for (call, answer) in answers {
            if answer != Some(Refusal::Busy) {
                self.faults.push(format!("busy, {call}: {answer:?}"));
            }
        }
        if *engine.store() != before {
            self.faults.push("busy: the store has changed".to_string());
        }
    }
}

/// A header that a commit takes.
const HEADER: sys::DbHeader = sys::DbHeader {
    page_count: 1,
    schema_root_page: 0,
    format_version: 4,
    freelist_head: 0,
};

/// Its header is a bad one, for 9 comes before 13.
fn preview(engine: &Engine) -> Option<Refusal> {
    let answer = engine.preview_commit(sys::DbHeader {
        page_count: 0,
        ..HEADER
    });
    answer.err().map(|(refusal, _)| refusal)
}

fn begin_commit(engine: &mut Engine) -> Option<Refusal> {
    let answer = engine.begin_commit(HEADER, 0);
    answer.err().map(|(refusal, _)| refusal)
}

fn commit(engine: &mut Engine) -> Option<Refusal> {
    let answer = engine.commit(HEADER, 0);
    answer.err().map(|(refusal, _)| refusal)
}

/// The files' bytes, the table and the staging; the other bytes of the twin
/// stay what they were.
fn copy(from: &Engine, to: &mut Engine) {
    to.set_store(*from.store());
    to.table.copy_from_slice(&from.table);
    to.staging.copy_from_slice(&from.staging);
    to.log[..from.log_file().len()].copy_from_slice(from.log_file());
    to.main[..from.main_file().len()].copy_from_slice(from.main_file());
}
