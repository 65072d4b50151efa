//! Times `MvccCommitBatch::decode` and `encode` on three bodies, and with
//! the feature `port` the port's functions on the same ones.

#[cfg(feature = "port")]
mod port;
mod rust;
mod side;

use bench::bodies;
use bench::timing::{self, Timed, timed};
use engine::mvcc::MvccCommitBatch;
use engine::sql::pager::page::PAGE_SIZE;

use side::Side;

/// The Rust first: the others' ratios are to its times.
fn sides() -> Vec<Side> {
    vec![
        rust::SIDE,
        #[cfg(feature = "port")]
        port::SIDE,
    ]
}

fn main() {
    for (name, batch) in bodies::all() {
        let body = batch.encode().expect("a batch that fits");
        println!("{name}");
        assert_agreed(&batch, &body);
        print(&bench(&batch, &body));
    }
}

/// The body with a record more claimed: one that is full is refused at its
/// end, when all of it is read.
fn claiming_more(body: &[u8; PAGE_SIZE]) -> [u8; PAGE_SIZE] {
    let mut more = *body;
    let count = u16::from_le_bytes([body[16], body[17]]) + 1;
    more[16..18].copy_from_slice(&count.to_le_bytes());
    more
}

/// What is as fast as you like must also be right.
fn assert_agreed(batch: &MvccCommitBatch, body: &[u8; PAGE_SIZE]) {
    for side in sides() {
        let mut out = [0xee; PAGE_SIZE];
        (side.canonical)(body, &mut out);
        assert!(out == *body, "{} writes another body", side.name);
        let more = claiming_more(body);
        let refused = (rust::SIDE.refuse)(&more);
        assert_eq!((side.refuse)(&more), refused, "{}, refused", side.name);
    }
    for side in sides().iter().skip(1) {
        let mut out = [0xee; PAGE_SIZE];
        (side.encode)(batch, &mut out);
        assert!(out == *body, "{} builds another body", side.name);
    }
}

const DECODE: &str = "decode";
const REFUSE: &str = "decode, refused";
const ENCODE: &str = "encode";
const CHECKED: &str = "check and encode";
const BOTH: &str = "decode and encode";

/// What was timed, on which side, and a call's median in nanoseconds.
struct Row {
    what: &'static str,
    side: &'static str,
    median: f64,
}

fn bench(batch: &MvccCommitBatch, body: &[u8; PAGE_SIZE]) -> Vec<Row> {
    let mut calls: Vec<(&str, &str, Timed)> = Vec::new();
    for Side { name, decode, .. } in sides() {
        calls.push((DECODE, name, timed(move || decode(body))));
    }
    let more = claiming_more(body);
    let refusing = sides().into_iter().filter(|side| (side.refuse)(&more));
    for Side { name, refuse, .. } in refusing {
        calls.push((REFUSE, name, timed(move || refuse(&more).into())));
    }
    for Side { name, encode, .. } in sides() {
        let mut out = [0; PAGE_SIZE];
        calls.push((ENCODE, name, timed(move || encode(batch, &mut out))));
    }
    let checked = timed(|| rust::checked_encode(batch));
    calls.push((CHECKED, rust::SIDE.name, checked));
    for side in sides() {
        let mut out = [0; PAGE_SIZE];
        let call = timed(move || (side.canonical)(body, &mut out));
        calls.push((BOTH, side.name, call));
    }
    let medians = timing::medians(calls.iter_mut().map(|(_, _, timed)| timed));
    calls
        .iter()
        .zip(medians)
        .map(|(&(what, side, _), median)| Row { what, side, median })
        .collect()
}

/// The times, and ratios to the Rust's time for the same. The port's encoding
/// is given bytes and checks that they are texts, so it is also held to what
/// the Rust takes for both; what starts from a body also to what the Rust
/// takes to encode a batch that is decoded already.
fn print(rows: &[Row]) {
    let rusts = |what: &str| {
        rows.iter()
            .find(|row| row.what == what && row.side == rust::SIDE.name)
            .map_or(f64::NAN, |row| row.median)
    };
    for Row { what, side, median } in rows {
        print!("  {what:18} {side:5} {median:10.1} ns");
        if *side != rust::SIDE.name {
            print!(", {:.2} of the Rust's", median / rusts(what));
            if *what == ENCODE {
                print!(", {:.2} of its {CHECKED}", median / rusts(CHECKED));
            }
            if *what == BOTH {
                print!(", {:.2} of its {ENCODE}", median / rusts(ENCODE));
            }
        }
        println!();
    }
}
