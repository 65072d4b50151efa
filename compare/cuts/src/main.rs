//! `cuts SEED COUNT [--wrong NAME]`: so many cuts from a seed, compared with the model.
//! `cuts kill DIR COUNT`: a process that commits to files in the folder, killed so many times.
use cuts::kill;
use cuts::run::{Difference, run, shrink};
use cuts::wrong::{ALL, Wrong};
use std::path::Path;
use std::process::ExitCode;

fn main() -> ExitCode {
    let words: Vec<String> = std::env::args().skip(1).collect();
    let words: Vec<&str> = words.iter().map(String::as_str).collect();
    match &words[..] {
        ["kill", folder, count] => kills(folder, count),
        [kill::CHILD, path, seed, longest] => child(path, seed, longest),
        [seed, count] => cuts(seed, count, Some(Wrong::Not)),
        [seed, count, "--wrong", name] => cuts(seed, count, Wrong::from_name(name)),
        _ => usage(),
    }
}

fn usage() -> ExitCode {
    eprintln!("usage: cuts SEED COUNT [--wrong NAME]");
    eprintln!("       cuts kill DIR COUNT");
    let names: Vec<&str> = ALL.iter().map(|(name, _)| *name).collect();
    eprintln!("NAME: {}", names.join(", "));
    ExitCode::from(2)
}

fn cuts(seed: &str, count: &str, wrong: Option<Wrong>) -> ExitCode {
    let (Ok(seed), Ok(count), Some(wrong)) = (seed.parse(), count.parse(), wrong) else {
        return usage();
    };
    match run(seed, count, wrong) {
        Ok(tally) => {
            println!("{tally}{} cuts, 0 differences", tally.cuts);
            ExitCode::SUCCESS
        }
        Err(found) => {
            let Difference {
                what,
                history,
                cuts,
            } = shrink(*found, wrong);
            println!("a newly created store");
            history.iter().for_each(|call| println!("{call}"));
            println!("difference, at cut {cuts}: {what}");
            ExitCode::FAILURE
        }
    }
}

fn kills(folder: &str, count: &str) -> ExitCode {
    let (Ok(count), Ok(exe)) = (count.parse(), std::env::current_exe()) else {
        return usage();
    };
    match kill::run(exe, Path::new(folder), count) {
        Ok(found) => {
            println!("{found}");
            ExitCode::SUCCESS
        }
        Err(what) => {
            println!("difference: {what}");
            ExitCode::FAILURE
        }
    }
}

fn child(path: &str, seed: &str, longest: &str) -> ExitCode {
    let (Ok(seed), Ok(longest)) = (seed.parse(), longest.parse()) else {
        return usage();
    };
    if let Err(error) = kill::child(Path::new(path), seed, longest) {
        eprintln!("{error}");
    }
    ExitCode::FAILURE
}
