//! Samples in turns, and their medians.

use std::hint::black_box;
use std::time::{Duration, Instant};

use bench::timing::median;

/// Takes one sample: nanoseconds per call.
pub type Sampler<'a> = Box<dyn FnMut() -> f64 + 'a>;

/// Samples all in turns, so that what slows the machine slows all: the medians.
pub fn in_turns(rounds: usize, mut samplers: Vec<Sampler>) -> Vec<f64> {
    let mut samples = vec![Vec::new(); samplers.len()];
    for _ in 0..rounds {
        for (sampler, times) in samplers.iter_mut().zip(&mut samples) {
            times.push(sampler());
        }
    }
    samples.into_iter().map(median).collect()
}

/// How long it takes.
pub fn clock<T>(call: impl FnOnce() -> T) -> Duration {
    let start = Instant::now();
    let answer = call();
    let time = start.elapsed();
    black_box(answer);
    time
}

/// Nanoseconds of one of so many calls.
pub fn each(time: Duration, calls: usize) -> f64 {
    time.as_nanos() as f64 / calls as f64
}
