//! Times the opening of a full log: `Wal::open` of the Rust, the checksum
//! alone, and with the feature `port` the port's opening of the same bytes.

mod logs;
#[cfg(feature = "port")]
mod port;
mod rust;

use bench::timing::{self, Timed, timed};
use stand_in::path::Path;
use stand_in::world;

/// A function that is timed, with its name.
type TimedCall<'a> = (&'static str, Timed<'a>);

fn main() {
    for (name, log) in logs::all() {
        println!("{name}");
        let file = rust::File::new(&log);
        print(rusts(&log, &file), ports(&log, &file));
    }
}

/// What the Rust does with a log: the ratios are to these times.
fn rusts<'a>(log: &'a [u8], file: &'a rust::File) -> Vec<TimedCall<'a>> {
    let path = Path::from("log");
    world::write_file(&path, log);
    vec![
        ("Rust, a file", timed(checked(|| file.open()))),
        (
            "Rust, a file in memory",
            timed(checked(move || rust::open_in_memory(&path))),
        ),
        ("Rust, checksum alone", timed(checked(|| rust::sums(log)))),
    ]
}

/// What the port does with it, where the log lies, and with all of it read
/// from the file before.
#[cfg(feature = "port")]
fn ports<'a>(log: &'a [u8], file: &'a rust::File) -> Vec<TimedCall<'a>> {
    let mut area = vec![0; log.len()];
    let from_file = move || {
        file.read(&mut area);
        port::open(&area)
    };
    vec![
        ("port", timed(checked(|| port::open(log)))),
        ("port, a file read before", timed(checked(from_file))),
    ]
}

#[cfg(not(feature = "port"))]
fn ports<'a>(_: &[u8], _: &rust::File) -> Vec<TimedCall<'a>> {
    Vec::new()
}

/// What is as fast as you like must also be right: all find all frames.
fn checked(mut call: impl FnMut() -> u64) -> impl FnMut() -> u64 {
    move || {
        let frames = call();
        assert_eq!(frames, logs::FRAMES.into());
        frames
    }
}

/// The times; of the port's also the ratios to each of the Rust's.
fn print<'a>(mut rusts: Vec<TimedCall<'a>>, mut ports: Vec<TimedCall<'a>>) {
    let count = rusts.len();
    let all = rusts.iter_mut().chain(&mut ports);
    let medians = timing::medians(all.map(|(_, timed)| timed));
    let (to, _) = medians.split_at(count);
    for (index, (name, _)) in rusts.iter().chain(&ports).enumerate() {
        let median = medians[index];
        print!("  {name:26} {:8.1} µs", median / 1_000.0);
        if index >= count {
            let ratios = to.iter().map(|rust| format!("{:.2}", median / rust));
            let ratios: Vec<_> = ratios.collect();
            print!(", {} of the Rust's", ratios.join(", "));
        }
        println!();
    }
}
