//! Times the check that bytes are text: Rust's `str::from_utf8`, the same with
//! the characters counted behind it, and with the feature `port` the port's
//! check, which gives their number too.

#[cfg(feature = "port")]
mod port;
mod rust;
mod texts;

use bench::timing::{self, timed};

/// A function that is timed, with its name. Its answer is only there to be
/// used, so that no compiler leaves the work out.
type Side = (&'static str, fn(&[u8]) -> u64);

/// The Rust's first: the port's ratios are to their times.
const SIDES: &[Side] = &[
    ("from_utf8", rust::CHECK),
    ("from_utf8 and count", rust::COUNT),
    #[cfg(feature = "port")]
    ("port", port::CHECK),
];

fn main() {
    heading();
    for (name, text) in texts::all() {
        assert_agreed(text.as_bytes());
        row(name, &text);
    }
}

/// What is as fast as you like must also be right. The check alone has no
/// number of characters; it answers with the bytes.
fn assert_agreed(text: &[u8]) {
    let answers: Vec<_> = SIDES.iter().map(|(_, call)| call(text)).collect();
    assert_eq!(answers[0], text.len() as u64);
    for answer in &answers[1..] {
        assert_eq!(*answer, answers[1], "{text:02x?}");
    }
}

fn heading() {
    let names: Vec<_> = SIDES.iter().map(|(name, _)| *name).collect();
    let mut line = format!("| text | bytes | characters | {}", names.join(" | "));
    for name in &names[2..] {
        line += &format!(" | {name} / {} | {name} / {}", names[0], names[1]);
    }
    println!("{line} |");
    println!("{}|", "|---".repeat(line.matches(" | ").count() + 1));
}

/// A text's times, in nanoseconds; of the port's also the ratios to the Rust's.
fn row(name: &str, text: &str) {
    let bytes = text.as_bytes();
    let mut calls: Vec<_> = SIDES
        .iter()
        .map(|(_, call)| timed(move || call(bytes)))
        .collect();
    let medians = timing::medians(calls.iter_mut());
    print!("| {name} | {} | {} |", bytes.len(), text.chars().count());
    for median in &medians {
        print!(" {median:.1} ns |");
    }
    for median in &medians[2..] {
        print!(" {:.2} | {:.2} |", median / medians[0], median / medians[1]);
    }
    println!();
}
