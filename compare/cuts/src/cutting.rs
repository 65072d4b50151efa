//! Cuts of a world's next call: its writes are done in the port's areas, then in the
//! files up to the cut; the files are opened in other areas and compared with the model.
use crate::call::{Call, Place};
use crate::compare::{Check, compare_batches, compare_header, compare_pages, ensure};
use crate::expected::Expected;
use crate::files::{DoneWrite, MemoryFiles};
use crate::judge::Answer;
use crate::places::places;
use crate::world::World;
use crate::writes::FRAME;
use crate::wrong::Wrong;
use lateenbael::Area;
use splitmix::Random;

/// A cut from which the history may go on, and the world's state at it.
struct CutState {
    files: MemoryFiles,
    expected: Expected,
    committed: Vec<u8>,
    place: Place,
}

impl World {
    /// Begins the call (which isn't refused) and does all its writes in the port's areas, but
    /// neither in the files nor in the model.
    fn dry_run(&mut self, call: &Call) -> Result<Vec<DoneWrite>, String> {
        let Ok(plan) = self.expected.judge(call) else {
            return Err("a refused call has no stores".into());
        };
        let begin = match call {
            Call::Commit(header, salt) => Call::BeginCommit(*header, *salt),
            Call::Checkpoint(salt) => Call::BeginCheckpoint(*salt),
            _ => call.clone(),
        };
        if !matches!(call, Call::Step | Call::Open) {
            let wanted = self.expected.judge(&begin).map(|plan| plan.answer);
            self.ask(&begin, &wanted)?;
        }
        self.start(call, plan);
        let writes = self.expected.todo.len();
        let mut done = Vec::new();
        for i in 0..writes {
            if matches!(call, Call::Commit(..) | Call::Checkpoint(_) | Call::Step) {
                let last = (i + 1 == writes).then_some(self.expected.number);
                let wanted = Answer::Stored(self.expected.todo[i].write, last);
                self.ask(&Call::Step, &Ok(wanted))?;
            }
            done.push(self.in_areas(i));
        }
        Ok(self.reordered(done))
    }

    /// The writes in their order, or in a wrong one.
    fn reordered(&mut self, done: Vec<DoneWrite>) -> Vec<DoneWrite> {
        let wrong = self.expected.wrong;
        let todo = std::mem::take(&mut self.expected.todo);
        let mut both: Vec<_> = todo.into_iter().zip(done).collect();
        both.sort_by_key(|(planned, _)| wrong.rank(&planned.kind));
        let (todo, done): (Vec<_>, Vec<_>) = both.into_iter().unzip();
        self.expected.todo = todo.into();
        done
    }

    /// A cut at one place, after which the history goes on from what the opening found.
    pub(crate) fn cut_at(&mut self, call: &Call, place: &Place) -> Check {
        if self.expected.judge(call).is_err() {
            return self.one_call(call);
        }
        let writes = self.dry_run(call)?;
        for done in writes.iter().take(place.whole_writes) {
            self.write_whole(done);
        }
        let done = writes.get(place.whole_writes);
        // a list of calls that was shrunk may have another, shorter write there
        let most = done.map_or(0, |done| done.write.len.saturating_sub(1));
        let bytes = place.bytes.min(most);
        self.continue_from(done, &Place { bytes, ..*place })
    }

    /// Opens the files cut in the next write and goes on with what was opened.
    fn continue_from(&mut self, done: Option<&DoneWrite>, place: &Place) -> Check {
        self.lend_probe(place.stale);
        let expected = self.expected.opened_after(place.bytes);
        self.open_cut(done, place, &expected)?;
        self.expected = expected;
        self.promised = None;
        if let Some(done) = done {
            self.files.cut(done, place.bytes, self.expected.wrong);
        }
        self.files.log.truncate(self.expected.disk.log_len());
        std::mem::swap(&mut self.live, &mut self.probe);
        self.tally.continued += 1;
        Ok(())
    }

    /// Every write of the call cut after every byte of interest, at most so many cuts, each opened
    /// and compared. Then the history goes on, from one of the cuts or from the call's end.
    pub fn cut_everywhere(&mut self, call: &Call, random: &mut Random, most: usize) -> Check {
        if self.expected.judge(call).is_err() {
            return self.call(call);
        }
        self.tally.call(call);
        self.history.push(call.clone());
        let writes = self.dry_run(call)?;
        let continues_at = random.one_in(2).then(|| random.below(writes.len() + 1));
        let end = self.tally.cuts + most;
        let mut kept = None;
        for (k, done) in writes.iter().map(Some).chain([None]).enumerate() {
            let bytes = done.map_or(vec![0], |done| places(&done.write, writes.len(), random));
            let stale = random.u64();
            let place = |bytes| Place {
                whole_writes: k,
                bytes,
                stale,
                again: None,
            };
            if continues_at == Some(k) {
                kept = Some(self.keep(place(random.pick(&bytes))));
            }
            self.lend_probe(stale);
            let cut = bytes
                .iter()
                .try_for_each(|bytes| self.cut_once(done, place(*bytes), random, end));
            cut.map_err(|(place, what)| self.record_cut(call, place, what))?;
            if let Some(done) = done {
                self.write_whole(done);
            }
        }
        match kept {
            None => self.end_whole(call),
            Some(kept) => self.return_to(call, &writes, kept),
        }
    }

    /// One cut, unless so many are done already.
    fn cut_once(
        &mut self,
        done: Option<&DoneWrite>,
        mut place: Place,
        random: &mut Random,
        end: usize,
    ) -> Result<(), (Place, String)> {
        let left = end.saturating_sub(self.tally.cuts);
        if left == 0 {
            return Ok(());
        }
        let kind = self
            .expected
            .todo
            .front()
            .map_or("the end", |planned| planned.kind.name());
        self.tally
            .cut(kind, done.map(|done| &done.write), place.bytes);
        self.tally
            .seen(self.files.log.len(), self.expected.model.header.page_count);
        place.again = (left > 1 && random.one_in(8)).then(|| random.one_in(2));
        place
            .again
            .into_iter()
            .for_each(|stored| self.tally.opening_cut(stored));
        let expected = self.expected.opened_after(place.bytes);
        self.tally.raised += usize::from(expected.clock_raised());
        self.open_cut(done, &place, &expected)
            .map_err(|what| (place, what))
    }

    fn keep(&self, place: Place) -> CutState {
        CutState {
            files: self.files.clone(),
            expected: self.expected.clone(),
            committed: self.committed.clone(),
            place,
        }
    }

    /// The last call of the history was cut there.
    fn record_cut(&mut self, call: &Call, place: Place, what: String) -> String {
        self.history.pop();
        self.history.push(Call::Cut(Box::new(call.clone()), place));
        what
    }

    /// Back to a cut: the call was cut there after all.
    fn return_to(&mut self, call: &Call, writes: &[DoneWrite], kept: CutState) -> Check {
        let place = kept.place;
        self.files = kept.files;
        self.expected = kept.expected;
        self.committed = kept.committed;
        self.record_cut(call, place, String::new());
        self.continue_from(writes.get(place.whole_writes), &place)?;
        self.compare_live()
    }

    /// All writes are whole and no cut comes: the port's store is the one after the call.
    fn end_whole(&mut self, call: &Call) -> Check {
        if matches!(call, Call::Open) {
            self.ask(call, &Ok(Answer::Nothing))?;
        }
        self.compare_live()
    }

    /// Puts the files into the probe's areas; behind them lies what the seed says.
    fn lend_probe(&mut self, stale: u64) {
        let mut random = Random::new(stale);
        let window = random.pick(&[1, 3, 70]) * FRAME;
        let kind = random.below(4);
        let areas = [
            (&mut self.probe.log, &self.live.log, &self.files.log),
            (&mut self.probe.main, &self.live.main, &self.files.main),
        ];
        for (area, live, file) in areas {
            let behind = file.len()..area.len().min(file.len() + window);
            area[..file.len()].copy_from_slice(file);
            match kind {
                0 => random.fill(&mut area[behind]),
                1 => area[behind].fill(0),
                // the call's own bytes, as if they had been stored
                2 => area[behind.clone()].copy_from_slice(&live[behind]),
                // what lay there
                _ => (),
            }
        }
        let mask = random.pick(&[u32::MAX, 0x3fff, 0]);
        self.probe
            .table
            .iter_mut()
            .for_each(|entry| *entry = random.u32() & mask);
        let at = random.below(self.probe.staging.len() - FRAME);
        random.fill(&mut self.probe.staging[at..][..FRAME]);
    }

    /// Cuts the write, opens the files in the probe's areas, compares with the expected state of
    /// the opened store, and takes the cut back. The areas hold the files as they are, but for an
    /// earlier cut of the same write after fewer bytes.
    fn open_cut(&mut self, done: Option<&DoneWrite>, place: &Place, expected: &Expected) -> Check {
        let Some(done) = done else {
            return self.compare_opening(expected, place);
        };
        let undo = self.files.cut(done, place.bytes, expected.wrong);
        let file = self.files.file(done.write.area);
        let reach = done.write.at + done.write.len;
        let changed = undo.from.min(file.len())..file.len().min(reach);
        let area = match done.write.area {
            Area::Log => &mut self.probe.log,
            Area::Main => &mut self.probe.main,
        };
        area[changed.clone()].copy_from_slice(&file[changed]);
        let found = self.compare_opening(expected, place);
        self.files.undo(undo);
        found
    }

    fn compare_opening(&mut self, expected: &Expected, place: &Place) -> Check {
        self.compare_committed()?;
        self.open_probe(self.files.log.len(), expected)?;
        if let Some(stored) = place.again {
            let len = if stored {
                expected.disk.commit_point()
            } else {
                self.files.log.len()
            };
            self.open_probe(len, expected)?;
        }
        compare_header(&self.probe, expected)?;
        compare_pages(&self.probe, expected)?;
        compare_batches(&self.probe, expected)
    }

    /// A clean opening; "no such opening is ever refused".
    fn open_probe(&mut self, log_len: usize, expected: &Expected) -> Check {
        let clean = expected.wrong != Wrong::PlainOpening;
        let opened = self
            .probe
            .reopen(clean, self.files.main.len(), Some(log_len), false, 1);
        opened.map_err(|refusal| format!("the opening after the cut is {refusal}"))?;
        let (found, wanted) = (self.probe.log_file().len(), expected.disk.commit_point());
        let what =
            || format!("the opening leaves a log of {found} bytes, the commit point is {wanted}");
        ensure(found == wanted || !clean, what)
    }
}
