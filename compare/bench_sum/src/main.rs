//! Times the checksum over pages, frames and headings of several kinds: the
//! Rust's loop, and with the feature `port` the port's serial sum and its
//! sum in blocks.

mod pages;
#[cfg(feature = "port")]
mod port;
mod rust;
mod side;

use bench::timing::{self, timed};

use pages::{FRAME_SIZE, HEADING_SIZE, PAGE_SIZE};
use side::Side;

/// Slowest first: the last one's ratios are to the others' times.
fn sides() -> Vec<Side> {
    vec![
        rust::SIDE,
        #[cfg(feature = "port")]
        port::SERIAL,
        #[cfg(feature = "port")]
        port::BLOCKS,
    ]
}

fn main() {
    for (name, frames) in pages::all() {
        assert_agreed(&frames);
        println!("{name}");
        bench("heading", &frames, |side, frame| {
            (side.sum)(&frame[..HEADING_SIZE])
        });
        bench("page", &frames, |side, frame| {
            (side.sum)(&frame[..PAGE_SIZE])
        });
        bench("frame", &frames, |side, frame| (side.frame)(frame));
    }
}

/// What is as fast as you like must also be right.
fn assert_agreed(frames: &[[u8; FRAME_SIZE]]) {
    for side in sides() {
        for frame in frames {
            assert_eq!((side.frame)(frame), (rust::SIDE.frame)(frame));
            assert_eq!((side.sum)(frame), (rust::SIDE.sum)(frame));
        }
        for length in 0..600 {
            let part = &frames[0][length % 16..][..length];
            assert_eq!((side.sum)(part), (rust::SIDE.sum)(part));
        }
    }
}

/// Prints each side's time for one sum, the frames taken in turn, and by how
/// much the last side is faster than the others.
fn bench(what: &str, frames: &[[u8; FRAME_SIZE]], sum: fn(&Side, &[u8; FRAME_SIZE]) -> u32) {
    let sides = sides();
    let mut calls: Vec<_> = sides
        .iter()
        .map(|side| {
            let mut frames = frames.iter().cycle();
            timed(move || {
                let frame = frames.next().expect("there are frames");
                u64::from(sum(side, frame))
            })
        })
        .collect();
    let medians = timing::medians(calls.iter_mut());
    let times: Vec<_> = sides
        .iter()
        .zip(&medians)
        .map(|(side, median)| format!("{} {median:6.1} ns", side.name))
        .collect();
    print!("  {what:7} {}", times.join(", "));
    if let [others @ .., last] = &medians[..] {
        for (side, median) in sides.iter().zip(others) {
            print!(", {:.2} times as fast as {}", median / last, side.name);
        }
    }
    println!();
}
