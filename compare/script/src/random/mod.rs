//! Random lists of calls, run on the port and on the Rust in one process and
//! compared after each call.

pub mod compare;
pub mod draw;
pub mod shrink;
mod tally;
mod view;

use std::fmt::Write;
use std::panic;

use splitmix::Random;

use crate::call::Call;
use compare::{Look, Pair};
use draw::Draw;
pub use tally::Tally;
use view::View;

/// A list on which the two part at its last call, and how.
#[derive(Debug)]
pub struct Difference {
    pub calls: Vec<Call>,
    pub what: String,
}

impl Difference {
    /// The list as it can be run again, and the difference.
    pub fn report(&self) -> String {
        let mut text = String::new();
        for call in &self.calls {
            writeln!(text, "{call}").expect("a string takes all");
        }
        text + "# " + &self.what.replace('\n', "\n# ") + "\n"
    }
}

/// Runs so many calls in lists that are drawn from a seed, up to the first
/// difference, which is shrunk.
pub fn run(seed: u64, count: u64) -> Result<Tally, Box<Difference>> {
    let mut pair = Pair::new();
    let mut tally = Tally::default();
    let mut lists = Random::new(seed);
    while tally.calls < count {
        let list = lists.u64();
        if let Err(difference) = run_list(&mut pair, list, count, &mut tally) {
            return Err(Box::new(shrunk(&mut pair, difference)));
        }
    }
    tally.end(&pair);
    Ok(tally)
}

fn run_list(pair: &mut Pair, seed: u64, most: u64, tally: &mut Tally) -> Result<(), Difference> {
    pair.reset();
    let mut draw = Draw::new(seed);
    let length = draw.length();
    let mut looks = Random::new(!seed);
    let mut calls = Vec::with_capacity(length);
    tally.begin(draw.theme);
    let mut before = View::of(&pair.port.side);
    while calls.len() < length && tally.calls < most {
        let call = draw.next(&before);
        calls.push(call);
        let call = &calls[calls.len() - 1];
        pair.port.side.probe.on = looks.below(8) == 0;
        let look = Look::drawn(call, &mut looks);
        let outcome = match pair.call(call, &look) {
            Ok(outcome) => outcome,
            Err(what) => return Err(Difference { calls, what }),
        };
        let after = View::of(&pair.port.side);
        tally.add(&before, call, &outcome, &after);
        if let (Call::Open(opening), Some(clocks), true) = (call, &pair.clocks, after.open) {
            tally.clock(*opening, clocks);
        }
        before = after;
    }
    Ok(())
}

/// The list with every call left out that it needn't have. All is looked at
/// after every call then. A panic is found at the end, not at every try.
fn shrunk(pair: &mut Pair, found: Difference) -> Difference {
    let hook = panic::take_hook();
    panic::set_hook(Box::new(|_| {}));
    let mut what = found.what;
    let calls = shrink::shrunk(found.calls, |calls| {
        let difference = differs(pair, calls);
        if let Some(now) = &difference {
            what.clone_from(now);
        }
        difference.is_some()
    });
    panic::set_hook(hook);
    Difference { calls, what }
}

/// Whether the two part on a list, and how.
pub fn differs(pair: &mut Pair, calls: &[Call]) -> Option<String> {
    pair.reset();
    pair.port.side.probe = Default::default();
    pair.port.side.probe.on = true;
    let mut all = calls.iter().map(|call| pair.call(call, &Look::all()));
    all.find_map(Result::err)
}

#[cfg(test)]
mod tests {
    use super::*;
    use crate::call::Opening;
    use crate::side::Side;
    use crate::spec::Spec;

    /// Runs a list with something done to the port alone before its last
    /// call, and tells the difference.
    fn with_a_fault(calls: &[Call], fault: impl FnOnce(&mut Pair)) -> String {
        let (last, before) = calls.split_last().unwrap();
        let mut pair = Pair::new();
        for call in before {
            pair.call(call, &Look::all()).unwrap();
        }
        fault(&mut pair);
        pair.call(last, &Look::all()).unwrap_err()
    }

    fn stage(page: u32, seed: u64) -> Call {
        Call::Stage(page, Spec::Seed(seed))
    }

    #[test]
    fn every_kind_of_difference_is_reported() {
        let state = [Call::Create, Call::State];
        let found = with_a_fault(&[Call::Create], |pair| pair.port.side.queue_salt(5));
        assert!(found.starts_with("db.sqlrite-wal"), "{found}");
        let found = with_a_fault(&state, |pair| {
            assert_eq!(pair.port.side.observe_clock(1), 1);
        });
        assert!(found.contains("clock 1"), "{found}");
        let found = with_a_fault(&[Call::Create, Call::Read(1)], |pair| {
            pair.port.side.stage(2, &[1; 4_096]).unwrap();
        });
        assert!(found.starts_with("state"), "{found}");
        let found = with_a_fault(&[Call::Create, stage(1, 1), Call::Clear], |pair| {
            pair.port.side.engine.main[5_000] ^= 1;
        });
        assert!(found.starts_with("the files as"), "{found}");
        let found = with_a_fault(&[Call::Create, stage(2, 1), Call::Read(3)], |pair| {
            pair.port.side.engine.staging[9] ^= 1;
        });
        assert!(found.starts_with("page 2"), "{found}");
        let found = with_a_fault(&state, |pair| pair.rust.side.close());
        assert!(found.contains("closed"), "{found}");
    }

    /// A page whose staged bytes differ at one side only is a frame more.
    #[test]
    fn stores_are_compared() {
        let header = crate::spec::header(&["2", "1", "4", "0"]).unwrap();
        let found = with_a_fault(&[Call::Create, Call::Commit(header)], |pair| {
            pair.port.side.stage(1, &[1; 4_096]).unwrap();
            let same = pair.rust.side.read(1).unwrap().to_vec();
            pair.rust.side.stage(1, &same).unwrap();
        });
        assert!(found.contains("length: 4112, flush: false"), "{found}");
    }

    /// A commit of another page than was there at its preview.
    #[test]
    fn commits_are_held_to_their_previews() {
        let header = crate::spec::header(&["2", "1", "4", "0"]).unwrap();
        let (preview, commit) = (Call::Preview(header), Call::Commit(header));
        let found = with_a_fault(&[Call::Create, preview, commit], |pair| {
            pair.port.side.stage(1, &[1; 4_096]).unwrap();
            pair.rust.side.stage(1, &[1; 4_096]).unwrap();
        });
        let shown = "the preview: ok 0 frames 1 log 4144 main 8192 kept, \
                     the commit: ok 1 frames 2 log 8256 main 8192 kept";
        assert_eq!(found, shown);
    }

    #[test]
    fn a_difference_is_shrunk_to_what_it_needs() {
        let mut pair = Pair::new();
        let calls = vec![
            Call::Create,
            stage(1, 3),
            Call::Clock(4),
            stage(2, 5),
            Call::Open(Opening::ReadOnly),
        ];
        let found = Difference {
            calls,
            what: String::new(),
        };
        // Not the two sides part here, but the test says that they do.
        let needed = [stage(2, 5), Call::Create];
        let shrunk = shrink::shrunk(found.calls, |calls| {
            differs(&mut pair, calls).is_none() && needed.iter().all(|call| calls.contains(call))
        });
        assert_eq!(shrunk, [Call::Create, stage(2, 5)]);
    }
}
