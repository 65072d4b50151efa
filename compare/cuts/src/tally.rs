//! What was done, counted and printed.
use crate::call::Call;
use crate::judge::{AUTO_CHECKPOINT_THRESHOLD_FRAMES, LOG_FRAMES};
use lateenbael::Write;
use std::collections::BTreeMap;
use std::fmt;

#[derive(Clone, Debug, Default)]
pub struct Tally {
    pub cuts: usize,
    pub histories: usize,
    /// Cuts from which a history went on.
    pub continued: usize,
    /// Cuts behind which the opening's clock is above the log header's.
    pub raised: usize,
    /// Commits that were held to their previews.
    pub promised: usize,
    pub longest_log: usize,
    pub most_pages: u32,
    cut_places: BTreeMap<(&'static str, &'static str), usize>,
    calls: BTreeMap<&'static str, usize>,
    refusals: BTreeMap<u32, usize>,
    /// Commits by the number of frames they bring the log to, near that of a checkpoint or of a
    /// full log.
    frames: BTreeMap<usize, usize>,
}

/// Where in a write the cut falls, for counting.
fn part(write: Option<&Write>, bytes: usize) -> &'static str {
    match write {
        None => "all stores whole",
        Some(write) if write.is_length() => "length old",
        _ if bytes == 0 => "before it",
        _ if bytes < 16 => "bytes 1 to 15",
        _ if bytes <= 48 => "bytes 16 to 48",
        Some(write) if bytes + 16 >= write.len => "last 16 bytes",
        _ => "inside",
    }
}

impl Tally {
    pub fn call(&mut self, call: &Call) {
        *self.calls.entry(call.kind()).or_default() += 1;
    }

    pub fn refused(&mut self, number: u32) {
        *self.refusals.entry(number).or_default() += 1;
    }

    pub fn cut(&mut self, kind: &'static str, write: Option<&Write>, bytes: usize) {
        self.cuts += 1;
        *self
            .cut_places
            .entry((kind, part(write, bytes)))
            .or_default() += 1;
    }

    /// The clean opening behind a cut was cut too.
    pub fn opening_cut(&mut self, stored: bool) {
        self.cuts += 1;
        let part = if stored { "length new" } else { "length old" };
        *self
            .cut_places
            .entry(("opening's log length", part))
            .or_default() += 1;
    }

    /// A commit brings the log to so many frames.
    pub fn commit(&mut self, frames: usize) {
        if frames.abs_diff(AUTO_CHECKPOINT_THRESHOLD_FRAMES) < 3 || frames.abs_diff(LOG_FRAMES) < 3
        {
            *self.frames.entry(frames).or_default() += 1;
        }
    }

    pub fn seen(&mut self, log_len: usize, pages: u32) {
        self.longest_log = self.longest_log.max(log_len);
        self.most_pages = self.most_pages.max(pages);
    }
}

impl fmt::Display for Tally {
    fn fmt(&self, f: &mut fmt::Formatter<'_>) -> fmt::Result {
        let mut kind = "";
        for ((of, part), count) in &self.cut_places {
            if *of != kind {
                kind = of;
                write!(
                    f,
                    "{}cuts at {kind}:",
                    if f.alternate() { "" } else { "\n" }
                )?;
            }
            write!(f, " {part} {count},")?;
        }
        write!(f, "\ncalls:")?;
        self.calls
            .iter()
            .try_for_each(|(kind, count)| write!(f, " {kind} {count},"))?;
        write!(f, "\nrefusals:")?;
        self.refusals
            .iter()
            .try_for_each(|(number, count)| write!(f, " {number}: {count},"))?;
        write!(f, "\ncommits to frames:")?;
        self.frames
            .iter()
            .try_for_each(|(frames, count)| write!(f, " {frames}: {count},"))?;
        write!(
            f,
            "\n{} histories, {} times gone on from a cut, {} times the clock raised, ",
            self.histories, self.continued, self.raised
        )?;
        write!(f, "{} commits as their previews showed, ", self.promised)?;
        writeln!(
            f,
            "longest log {} bytes, most pages {}",
            self.longest_log, self.most_pages
        )
    }
}
