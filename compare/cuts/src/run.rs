//! So many cuts from a seed, until the first difference; and a difference shrunk.
use crate::call::Call;
use crate::draw::{Drawer, Next};
use crate::tally::Tally;
use crate::world::World;
use crate::wrong::Wrong;
use std::time::{Duration, Instant};

const SHRINKING: Duration = Duration::from_secs(15);

/// A difference and the calls, from a newly created store on, that lead to it.
pub struct Difference {
    pub what: String,
    pub history: Vec<Call>,
    /// How many cuts were made before and with it.
    pub cuts: usize,
}

pub fn run(seed: u64, count: usize, wrong: Wrong) -> Result<Tally, Box<Difference>> {
    let mut world = World::new(wrong);
    let mut drawer = Drawer::new(seed);
    while world.tally.cuts < count {
        let next = drawer.next(&world.expected);
        let left = count - world.tally.cuts;
        let found = match next {
            Next::Call(call) => world.call(&call),
            Next::Cut(call) => world.cut_everywhere(&call, &mut drawer.random, left),
            Next::Create => {
                world.create();
                Ok(())
            }
        };
        if let Err(what) = found {
            return Err(Box::new(Difference {
                what,
                history: world.history,
                cuts: world.tally.cuts,
            }));
        }
    }
    Ok(world.tally)
}

/// The first difference of a list of calls, and how many of them it took.
fn replay(world: &mut World, calls: &[Call]) -> Option<(String, usize)> {
    world.create();
    let mut answers = calls.iter().map(|call| world.call(call)).zip(1..);
    answers.find_map(|(found, calls)| found.err().map(|what| (what, calls)))
}

/// Leaves out calls as long as some difference stays: first many at once, then fewer, for a time.
pub fn shrink(mut found: Difference, wrong: Wrong) -> Difference {
    let mut world = World::new(wrong);
    let mut size = found.history.len() / 2;
    let end = Instant::now() + SHRINKING;
    while size > 0 && Instant::now() < end {
        let mut at = 0;
        while at < found.history.len() && Instant::now() < end {
            let mut fewer = found.history.clone();
            fewer.drain(at..(at + size).min(fewer.len()));
            match replay(&mut world, &fewer) {
                Some((what, calls)) => {
                    fewer.truncate(calls);
                    found.history = fewer;
                    found.what = what;
                }
                None => at += size,
            }
        }
        size /= 2;
    }
    found
}
