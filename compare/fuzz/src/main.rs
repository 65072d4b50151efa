//! Hands bad input to every export of the port's static library and looks
//! whether any byte outside the areas, or inside beside a refusal, is altered.
//! `fuzz SEED COUNT [exact]`; with `exact` the areas have no guards, so that
//! valgrind sees every access outside them.

mod area;
mod batch_calls;
mod closed;
mod edges;
mod forge;
mod log_calls;
mod made_log;
mod store_calls;
mod tally;
mod world;

use std::env;
use std::process::ExitCode;

use world::{Call, World};

/// So many bytes or numbers stand before and behind each area.
const GUARD_LEN: usize = 256;

/// Their places among the store's calls.
const NEXT_STEP: usize = 15;
const COMMIT: usize = 16;

fn main() -> ExitCode {
    let words: Vec<String> = env::args().skip(1).collect();
    let numbers: Vec<u64> = words.iter().filter_map(|word| word.parse().ok()).collect();
    let exact = words.get(2).is_some_and(|word| word == "exact");
    let (&[seed, count], true) = (&numbers[..], words.len() == 2 || exact) else {
        eprintln!("fuzz SEED COUNT [exact]");
        return ExitCode::from(2);
    };
    let world = run(seed, count as usize, if exact { 0 } else { GUARD_LEN });
    world.tally.print();
    println!("{} calls, {} faults", world.tally.calls, world.tally.faults);
    ExitCode::from(u8::from(world.tally.faults > 0))
}

/// Makes so many calls.
fn run(seed: u64, count: usize, guard: usize) -> World {
    let mut world = World::new(seed, guard);
    for _ in 0..count {
        let (export, call) = pick(&mut world);
        call(&mut world, export);
    }
    world.compare("the last call");
    world
}

/// Any export, but mostly the next step where something is part done.
fn pick(world: &mut World) -> Call {
    let random = &mut world.random;
    if world.store.job.kind != 0 && random.percent(60) {
        return store_calls::CALLS[NEXT_STEP];
    }
    match random.below(10) {
        0..=5 => match random.pick(&store_calls::CALLS) {
            // Else stores would not grow old.
            ("create", _) if random.percent(90) => store_calls::CALLS[COMMIT],
            call => call,
        },
        6 | 7 => random.pick(&log_calls::CALLS),
        _ => random.pick(&batch_calls::CALLS),
    }
}

#[cfg(test)]
mod tests {
    use super::*;

    #[test]
    fn no_call_does_harm() {
        for guard in [0, GUARD_LEN] {
            let world = run(7, 20_000, guard);
            assert_eq!(world.tally.faults, 0);
            assert_eq!(world.tally.exports(), 52);
            assert!(world.tally.raised >= 5, "{}", world.tally.raised);
            let previewed = world.tally.previewed;
            assert!(previewed.iter().all(|times| *times >= 10), "{previewed:?}");
        }
    }

    #[test]
    fn every_call_stands_at_its_index() {
        assert_eq!(store_calls::CALLS[NEXT_STEP].0, "next_step");
        assert_eq!(store_calls::CALLS[COMMIT].0, "commit");
    }
}
