//! What the random lists have reached, so that a run shows its worth.

use std::collections::BTreeMap;
use std::fmt::{self, Display, Formatter};

use items::Reading;
use opening_clock::Reading as Clocks;

use super::compare::Pair;
use super::draw::Theme;
use super::view::View;
use crate::call::{Call, Edit, Opening};
use crate::run::Outcome;
use crate::rust::MOST_STAGED;
use crate::side::{Area, CutWrite};

#[derive(Default)]
pub struct Tally {
    pub calls: u64,
    /// Calls by name and result, and cases.
    found: BTreeMap<String, u64>,
    /// A plain opening found uncommitted frames, which nothing has ended
    /// since; a commit has taken them in.
    uncommitted: bool,
    committed_since: bool,
    /// A batch's time has raised the clock at the last opening.
    raised: bool,
}

impl Tally {
    pub fn begin(&mut self, theme: Theme) {
        self.case(&format!("list, {}", theme.name()));
        self.uncommitted = false;
        self.committed_since = false;
        self.raised = false;
    }

    pub fn end(&mut self, pair: &Pair) {
        let probe = &pair.port.side.probe;
        for (name, count) in [
            ("case: busy store asked", probe.asked),
            ("case: commit or fold in one call, too", probe.twice),
            ("case: commit as its preview showed", pair.as_previewed),
            ("case: preview, areas compared whole", probe.compared),
        ] {
            self.found.insert(name.to_string(), count);
        }
    }

    /// How often a case was reached.
    pub fn of(&self, name: &str) -> u64 {
        self.found.get(name).copied().unwrap_or(0)
    }

    fn case(&mut self, name: &str) {
        *self.found.entry(format!("case: {name}")).or_insert(0) += 1;
    }

    fn case_if(&mut self, is: bool, name: &str) {
        if is {
            self.case(name);
        }
    }

    pub fn add(&mut self, before: &View, call: &Call, outcome: &Outcome, after: &View) {
        self.calls += 1;
        self.raised_clock(call, outcome);
        let name = match call {
            Call::Open(opening) => format!("open {opening}"),
            call => call.name().to_string(),
        };
        let kind = kind_of(&outcome.result);
        *self.found.entry(format!("call: {name}{kind}")).or_insert(0) += 1;
        if let Some(cut) = &outcome.cut {
            self.cut(call, cut);
        }
        match call {
            Call::Open(opening) if after.open => self.opened(*opening, before, after, outcome),
            Call::Preview(header) => self.previewed(before, header.page_count, &outcome.result),
            Call::Commit(_) if outcome.result.starts_with("ok") => {
                self.committed(before, after, outcome);
            }
            Call::Checkpoint if !outcome.writes.is_empty() => {
                self.uncommitted = false;
                self.case_if(
                    before.header.page_count == 0,
                    "fold of no page, main length 0",
                );
            }
            Call::Batch(body) => self.batch(&body.padded(), outcome),
            Call::BatchRaw(body) => self.batch(&body.bytes(), outcome),
            Call::Batches => self.case_if(!outcome.below.is_empty(), "batches, some recovered"),
            Call::Create => self.uncommitted = false,
            Call::Edit(edit) => self.edited(edit),
            _ => {}
        }
        self.case_if(
            after.state.staged == MOST_STAGED && before.state.staged + 1 == MOST_STAGED,
            "as many pages staged as can be",
        );
    }

    fn opened(&mut self, opening: Opening, before: &View, after: &View, outcome: &Outcome) {
        let how = opening.to_string();
        let log = after.log.unwrap_or(0);
        let has_uncommitted = after.commit_point < after.good_end;
        self.case_if(before.log.is_none(), &format!("open {how}, no log"));
        self.case_if(
            has_uncommitted,
            &format!("open {how}, unsealed frames kept"),
        );
        self.case_if(
            log > after.good_end,
            &format!("open {how}, torn or bad tail kept"),
        );
        let cut = before.log.is_some_and(|before| before > log);
        self.case_if(cut, "open clean, tail cut off");
        self.case_if(after.header.page_count == 0, "open, page count 0");
        self.case_if(after.header.page_count == 1_024, "open, page count 1,024");
        self.case_if(after.state.frames >= 100, "open, 100 frames or more");
        let fresh = outcome.writes.len() > 1;
        self.case_if(fresh, "open, log made");
        self.case_if(
            self.uncommitted && self.committed_since && !fresh,
            "open, after a commit sealed an old tail",
        );
        self.uncommitted =
            opening == Opening::ReadWrite && has_uncommitted && log == after.good_end;
        self.committed_since = false;
    }

    /// By what an opening found in the log about the clock.
    pub fn clock(&mut self, opening: Opening, clocks: &Clocks) {
        let (header, taken) = (clocks.header, clocks.clean());
        let Some(greatest) = clocks.recovered.iter().max() else {
            return;
        };
        let above = *greatest > header;
        if opening != Opening::Clean {
            self.case_if(above, &format!("open {opening}, a time above the clock"));
            return;
        }
        self.raised = above;
        self.case_if(above, "open clean, clock raised");
        self.case_if(
            above && taken >= 1 << 63,
            "open clean, clock raised to 2^63 or more",
        );
        self.case_if(
            above && taken == u64::MAX,
            "open clean, clock raised to 2^64 - 1",
        );
        self.case_if(above && header > 0, "open clean, clock raised from above 0");
        self.case_if(*greatest < header, "open clean, clock above every time");
        self.case_if(
            *greatest == header,
            "open clean, clock as the greatest time",
        );
        let left_out = clocks.unsealed.iter().any(|time| *time > taken);
        self.case_if(left_out, "open clean, a time above the clock cut off");
        let last = clocks.recovered.last();
        self.case_if(
            above && last < Some(greatest),
            "open clean, clock raised, not by the last batch",
        );
    }

    /// What becomes of a clock that an opening has raised: a fold's log header
    /// stores it, and no other opening has it.
    fn raised_clock(&mut self, call: &Call, outcome: &Outcome) {
        let mut writes = outcome.writes.iter();
        let header = writes.any(|write| write.area == Area::Log && write.length == 32);
        let folds = matches!(call, Call::Commit(_) | Call::Checkpoint);
        self.case_if(self.raised && header && folds, "fold stores a raised clock");
        let ends = matches!(call, Call::Create | Call::Open(_) | Call::Drop);
        self.raised &= !header && !ends;
    }

    /// By the store that it is of; if it isn't refused, by what it shows.
    fn previewed(&mut self, before: &View, count: u32, result: &str) {
        let words: Vec<_> = result.split(' ').collect();
        let ["ok", answer, "frames", frames, "log", log, .., ending] = words[..] else {
            return;
        };
        let [answer, frames, log] = [answer, frames, log].map(|word| word.parse().unwrap_or(0));
        let reached = before.state.frames + answer + 1usize;
        let folds = ending == "folded";
        self.case_if(!folds && frames == 99, "preview to 99 frames, kept");
        self.case_if(folds && reached == 100, "preview to 100 frames, folded");
        let off_places = log % 4_112 != 32;
        self.case_if(off_places, "preview behind a torn tail, off the frames");
        let counted = 32 + 4_112 * before.state.frames;
        self.case_if(
            before.log == Some(counted) && counted > before.good_end,
            "preview counts a batch that doesn't decode",
        );
        self.case_if(
            answer < before.state.staged,
            "preview, a staged page not differing",
        );
        self.case_if(
            folds && count < before.header.page_count,
            "preview, folded, shrinking",
        );
        self.case_if(
            folds && count > before.header.page_count,
            "preview, folded, growing",
        );
        let main = before.main.unwrap_or(0);
        self.case_if(
            !folds && main != 4_096 * before.header.page_count as usize,
            "preview, kept, main length unlike the count",
        );
    }

    fn committed(&mut self, before: &View, after: &View, outcome: &Outcome) {
        let frames = outcome.writes.iter();
        let frames = frames.filter(|write| write.length == 4_112).count();
        let checkpointed = outcome.result.ends_with("folded");
        let (kept, count) = (!checkpointed, before.state.frames + frames);
        self.case_if(kept && count == 99, "commit to 99 frames, kept");
        self.case_if(checkpointed && count == 100, "commit to 100 frames, folded");
        self.case_if(
            checkpointed && count > 100,
            "commit to more than 100 frames, folded",
        );
        let (old, new) = (before.header.page_count, after.header.page_count);
        self.case_if(new > old, "commit, growing");
        self.case_if(old == 0, "commit, growing from no page");
        self.case_if(new < old, "commit, shrinking");
        self.case_if(new == 1_024, "commit to 1,024 pages");
        self.case_if(frames == 1, "commit of no differing page");
        self.case_if(
            frames == MOST_STAGED + 1,
            "commit of as many differing pages as can be",
        );
        self.case_if(
            new as usize == old.max(1) as usize + MOST_STAGED,
            "commit, growing by as many pages as can be",
        );
        self.case_if(
            frames - 1 < before.state.staged,
            "commit, a staged page not differing",
        );
        let torn = before.log.is_some_and(|log| log > before.good_end);
        self.case_if(torn, "commit behind a torn or bad tail");
        self.case_if(kept && self.uncommitted, "commit seals an old tail");
        self.committed_since |= kept;
        self.uncommitted &= kept;
        let behind = after.state.log_pages > new as usize;
        self.case_if(behind, "commit, pages at or above the count in the log");
        let length = after.log.unwrap_or(0);
        self.case_if(length > 4_210_720 - 4_112, "commit, the log's area full");
    }

    /// By the items that its body has or is refused behind.
    fn batch(&mut self, body: &[u8], outcome: &Outcome) {
        let Reading {
            outcome: read,
            items,
        } = items::read(body);
        let taken = outcome.result.starts_with("ok");
        let refused = read.is_err_and(|number| outcome.result == format!("refused {number}"));
        let most = items == items::MOST;
        self.case_if(taken && most, "batch of as many items as can be");
        self.case_if(refused && items > 0, "batch refused, items read before");
        self.case_if(
            refused && most,
            "batch refused, as many items read before as can be",
        );
    }

    fn edited(&mut self, edit: &Edit) {
        let name = match edit {
            Edit::Frame(u32::MAX, 0, _) => "frame, a batch",
            Edit::Frame(u32::MAX, ..) => "frame, a batch, with a count",
            Edit::Frame(page, ..) if *page >= 1_024 => "frame, page above 1,023",
            Edit::Frame(0, ..) => "frame, page 0",
            Edit::Frame(_, 0, _) => "frame, a page",
            Edit::Frame(..) => "frame, a page, sealing",
            _ => return,
        };
        self.case(name);
    }

    fn cut(&mut self, call: &Call, cut: &CutWrite) {
        let CutWrite { write, bytes, .. } = cut;
        let kind = match (write.area, write.length) {
            (area, 0) => format!("{} length", area.name()),
            (Area::Log, 32) => "log header".to_string(),
            (Area::Log, _) => "frame".to_string(),
            (Area::Main, _) if write.first == 0 => "main header".to_string(),
            (Area::Main, _) => "main page".to_string(),
        };
        let part = match *bytes {
            0 => "none",
            bytes if bytes == write.length.max(1) => "whole",
            _ => "part",
        };
        self.case(&format!("cut in {}, {kind}, {part}", call.name()));
    }
}

/// What is told of a result: that it is a refusal, and which; or how a
/// commit ended.
fn kind_of(result: &str) -> String {
    let words: Vec<_> = result.split(' ').collect();
    match words[..] {
        ["refused", number, ..] => format!(", refused {number}"),
        ["ok", _, ending] | ["ok", _, "frames", .., ending] => format!(", {ending}"),
        ["cut" | "closed" | "open" | "none"] => format!(", {result}"),
        _ => String::new(),
    }
}

impl Display for Tally {
    fn fmt(&self, f: &mut Formatter<'_>) -> fmt::Result {
        for (name, count) in &self.found {
            writeln!(f, "{count:9} {name}")?;
        }
        Ok(())
    }
}
