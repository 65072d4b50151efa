//! How often each export was called and how it answered, and what was wrong.

use std::collections::BTreeMap;

/// Refusals, 0 for none.
const ANSWERS: usize = 22;

/// So many faults are printed.
const PRINTED: usize = 20;

#[derive(Default)]
pub struct Tally {
    pub calls: usize,
    pub faults: usize,
    /// Clean openings that left a clock above the log header's.
    pub raised: usize,
    /// Commits that were held to a preview that was not refused: without a
    /// checkpoint and with one.
    pub previewed: [usize; 2],
    exports: BTreeMap<&'static str, [usize; ANSWERS]>,
}

impl Tally {
    /// A call's answer; a refusal that the papers don't have is a fault.
    pub fn count(&mut self, export: &'static str, refusal: u32) {
        self.calls += 1;
        let counts = self.exports.entry(export).or_default();
        match counts.get_mut(refusal as usize) {
            Some(count) => *count += 1,
            None => self.fault(export, &format!("refusal {refusal}")),
        }
    }

    pub fn fault(&mut self, export: &str, what: &str) {
        self.faults += 1;
        if self.faults <= PRINTED {
            println!("call {}, {export}: {what}", self.calls);
        }
    }

    #[cfg(test)]
    pub fn exports(&self) -> usize {
        self.exports.len()
    }

    pub fn print(&self) {
        for (export, counts) in &self.exports {
            let calls: usize = counts.iter().sum();
            print!("{export}: {calls} calls, {} not refused", counts[0]);
            for (refusal, count) in counts.iter().enumerate().skip(1) {
                if *count > 0 {
                    print!(", {refusal}: {count}");
                }
            }
            println!();
        }
        println!("clean openings that raised the clock: {}", self.raised);
        let [kept, folded] = self.previewed;
        println!("commits as previewed: {kept} kept, {folded} folded");
    }
}
