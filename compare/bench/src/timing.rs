//! Medians of many runs.

use std::hint::black_box;
use std::time::{Duration, Instant};

/// How often each function is timed.
const RUNS: usize = 401;

/// About how long one timing takes: long for the clock, and short enough
/// that most are undisturbed.
const RUN: Duration = Duration::from_micros(200);

/// A function to be called so many times in a row, and timed.
pub type Timed<'a> = Box<dyn FnMut(u32) -> Duration + 'a>;

pub fn timed<'a>(mut call: impl FnMut() -> u64 + 'a) -> Timed<'a> {
    Box::new(move |calls| {
        let start = Instant::now();
        for _ in 0..calls {
            black_box(call());
        }
        start.elapsed()
    })
}

/// The median time of a call of each function, in nanoseconds. They are
/// timed in turns, so that what slows the machine slows all.
pub fn medians<'a: 'b, 'b>(functions: impl Iterator<Item = &'b mut Timed<'a>>) -> Vec<f64> {
    let mut functions: Vec<_> = functions
        .map(|function| {
            let calls = calls_for_a_run(function);
            (function, calls, Vec::new())
        })
        .collect();
    for _ in 0..RUNS {
        for (function, calls, times) in &mut functions {
            times.push(function(*calls).as_nanos() as f64 / f64::from(*calls));
        }
    }
    functions
        .into_iter()
        .map(|(_, _, times)| median(times))
        .collect()
}

/// Doubled until they take long enough, which also warms up.
fn calls_for_a_run(function: &mut Timed) -> u32 {
    let mut calls = 1;
    while function(calls) < RUN && calls < 1 << 24 {
        calls *= 2;
    }
    calls
}

pub fn median(mut times: Vec<f64>) -> f64 {
    times.sort_by(f64::total_cmp);
    times[times.len() / 2]
}

#[cfg(test)]
mod tests {
    use super::*;

    #[test]
    fn the_median_is_in_the_middle() {
        assert_eq!(median(vec![9.0, 1.0, 100.0]), 9.0);
    }
}
