//! `script port|rust FILE DIR [--stores]` runs a written list of calls on
//! one side; `script random SEED COUNT` runs drawn ones on both and compares;
//! `script desk KIND FILE` prints what the port tells of a file's bytes.

use std::env;
use std::fs;
use std::io::{self, Write};
use std::path::Path;
use std::process::ExitCode;

use script::port::Port;
use script::run::Runner;
use script::rust::Rust;
use script::side::Side;
use script::{desk, random, written};

fn main() -> ExitCode {
    let words: Vec<String> = env::args().skip(1).collect();
    let words: Vec<&str> = words.iter().map(String::as_str).collect();
    let done = match &words[..] {
        ["random", seed, count] => compare(seed, count),
        ["desk", kind, file] => at_desk(kind, file),
        [side, file, folder] => one_side(side, file, folder, false),
        [side, file, folder, "--stores"] => one_side(side, file, folder, true),
        _ => Err(USAGE.to_string()),
    };
    match done {
        Ok(()) => ExitCode::SUCCESS,
        Err(message) => {
            eprintln!("{message}");
            ExitCode::FAILURE
        }
    }
}

const USAGE: &str = "usage: script (port | rust) FILE DIR [--stores]
       script random SEED COUNT
       script desk (chars | items) FILE";

fn one_side(side: &str, file: &str, folder: &str, stores: bool) -> Result<(), String> {
    match side {
        "port" => run(Port::new(), file, folder, stores),
        "rust" => run(Rust::new(), file, folder, stores),
        _ => Err(USAGE.to_string()),
    }
}

fn run<S: Side>(side: S, file: &str, folder: &str, stores: bool) -> Result<(), String> {
    let folder = Path::new(folder);
    let list = fs::read_to_string(file).map_err(|error| format!("{file}: {error}"))?;
    let of_folder = |error| format!("{}: {error}", folder.display());
    written::remove_files(folder).map_err(of_folder)?;
    let mut runner = Runner::new(side);
    print!("{}", written::lines(&list, &mut runner, stores)?);
    written::write_files(folder, &runner.side).map_err(of_folder)
}

fn compare(seed: &str, count: &str) -> Result<(), String> {
    let (Ok(seed), Ok(count)) = (seed.parse(), count.parse()) else {
        return Err(USAGE.to_string());
    };
    match random::run(seed, count) {
        Ok(tally) => {
            print!("{tally}");
            println!("{} calls, 0 differences", tally.calls);
            Ok(())
        }
        Err(difference) => {
            print!("{}", difference.report());
            Err("a difference".to_string())
        }
    }
}

fn at_desk(kind: &str, file: &str) -> Result<(), String> {
    let kind = desk::kind(kind).ok_or(USAGE)?;
    let bytes = fs::read(file).map_err(|error| format!("{file}: {error}"))?;
    let printed = io::stdout().write_all(&kind(&bytes));
    printed.map_err(|error| format!("standard output: {error}"))
}
