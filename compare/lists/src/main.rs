//! Writes and checks the fixed lists that the proved test programs replay.
//!
//! A list is two files in its program's folder: `stdin`, the cases, and
//! `stdout`, what the Rust answers to them. Both are made here from nothing
//! but this source, the same at every run.
//!
//! With the feature `port`, also compares any number of logs, drawn from a
//! seed, with the port's own listing.

use std::env;
use std::process::ExitCode;

use lists::list::List;
#[cfg(feature = "port")]
use lists::{log, port};

fn main() -> ExitCode {
    let words: Vec<String> = env::args().skip(1).collect();
    let words: Vec<&str> = words.iter().map(String::as_str).collect();
    match &words[..] {
        ["write", names @ ..] => each(List::write, names),
        ["check", names @ ..] => each(List::check, names),
        #[cfg(feature = "port")]
        ["logs", seed, count] => logs(seed, count),
        _ => usage(),
    }
}

/// Acts on the lists that are named; on all if none is.
fn each(act: fn(&List) -> Result<(), String>, names: &[&str]) -> ExitCode {
    let mut lists = lists::lists();
    if !names
        .iter()
        .all(|name| lists.iter().any(|list| list.name == *name))
    {
        return usage();
    }
    lists.retain(|list| names.is_empty() || names.contains(&list.name));
    let mut code = ExitCode::SUCCESS;
    for list in lists {
        println!("{}: {} cases", list.name, list.cases.len());
        if let Err(message) = act(&list) {
            eprintln!("{message}");
            code = ExitCode::FAILURE;
        }
    }
    code
}

/// Compares so many logs from a seed.
#[cfg(feature = "port")]
fn logs(seed: &str, count: &str) -> ExitCode {
    let (Ok(seed), Ok(count)) = (seed.parse(), count.parse()) else {
        return usage();
    };
    match log::at_scale::compare(seed, count, port::listed) {
        Ok(found) => {
            println!("{count} logs from seed {seed}: no difference");
            print!("{found}");
            ExitCode::SUCCESS
        }
        Err(difference) => {
            eprintln!("{difference}");
            ExitCode::FAILURE
        }
    }
}

fn usage() -> ExitCode {
    eprintln!("usage: lists (write | check) [LIST ..]");
    eprintln!("       lists logs SEED COUNT (with the feature port)");
    ExitCode::FAILURE
}
