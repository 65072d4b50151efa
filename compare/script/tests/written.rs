//! The written lists beside their outcomes, on both sides.

use std::fs;
use std::path::{Path, PathBuf};

use script::port::Port;
use script::run::Runner;
use script::rust::Rust;
use script::side::{Area, Side};
use script::written;

fn lists() -> Vec<PathBuf> {
    let folder = concat!(env!("CARGO_MANIFEST_DIR"), "/lists");
    let files = fs::read_dir(folder).expect("the lists' folder");
    let mut lists: Vec<_> = files
        .map(|file| file.expect("a file").path())
        .filter(|path| path.extension().is_some_and(|kind| kind == "calls"))
        .collect();
    lists.sort();
    assert!(lists.len() >= 20, "{lists:?}");
    lists
}

fn holds<S: Side>(runner: &mut Runner<S>, list: &Path) {
    let calls = fs::read_to_string(list).expect("a list");
    let wanted = fs::read_to_string(list.with_extension("out")).expect("its outcome");
    let lines = written::lines(&calls, runner, true).expect("calls only");
    for (line, wanted) in lines.lines().zip(wanted.lines()) {
        assert_eq!(line, wanted, "{}", list.display());
    }
    assert_eq!(lines.len(), wanted.len(), "{}", list.display());
}

#[test]
fn the_port_does_as_written() {
    let mut port = Runner::new(Port::new());
    lists().iter().for_each(|list| holds(&mut port, list));
}

#[test]
fn the_rust_does_as_written() {
    let mut rust = Runner::new(Rust::new());
    lists().iter().for_each(|list| holds(&mut rust, list));
}

/// Each refusal that a list's calls can meet has a list that meets it.
#[test]
fn every_refusal_has_its_list() {
    for number in [1, 2, 3, 4, 5, 6, 7, 8, 10, 11, 12, 13, 14, 15, 17, 18, 19] {
        let name = format!("/lists/refused_{number:02}.out");
        let wanted = fs::read_to_string(env!("CARGO_MANIFEST_DIR").to_string() + &name);
        let met = wanted.expect("its outcome");
        let refused = format!("=> refused {number} ");
        assert!(met.contains(&refused), "{name}");
    }
}

/// The calls of a list behind which something is told, that, and the outcome.
fn told(list: &str) -> Vec<(String, String, String)> {
    let list = format!("{}/lists/{list}", env!("CARGO_MANIFEST_DIR"));
    let read = |kind: &str| fs::read_to_string(format!("{list}.{kind}")).expect("a list");
    let (calls, outcomes) = (read("calls"), read("out"));
    let calls = calls.lines().filter(|line| !line.starts_with('#'));
    let outcomes = outcomes.lines().filter(|line| !line.starts_with(' '));
    calls
        .zip(outcomes)
        .filter_map(|(call, outcome)| {
            let (call, told) = call.split_once(" # ")?;
            Some((call.to_string(), told.to_string(), outcome.to_string()))
        })
        .collect()
}

/// Behind a call of the clock's list stands the clock that its outcome shows.
#[test]
fn the_clocks_are_as_told() {
    let told = told("clock_after_cut");
    for (call, clock, outcome) in &told {
        let shown = format!("clock {clock} | main ");
        assert!(outcome.contains(&shown), "{call}: {outcome}");
    }
    assert!(told.len() >= 40, "{}", told.len());
}

/// Behind every preview of its list stands what it shows.
#[test]
fn the_previews_are_as_told() {
    let told = told("preview");
    for (call, preview, outcome) in &told {
        let shown = format!("{call} => {preview} | main ");
        assert!(outcome.starts_with(&shown), "{call}: {outcome}");
    }
    let list = include_str!("../lists/preview.calls");
    let previews = list.lines().filter(|line| line.starts_with("preview"));
    assert_eq!(told.len(), previews.count());
    assert!(told.len() >= 60, "{}", told.len());
}

/// What a list leaves stands in its folder, and what was there before goes.
#[test]
fn the_folder_has_the_files() {
    let folder = std::env::temp_dir().join(format!("script-{}", std::process::id()));
    let file = |area: Area| folder.join(area.file());
    let mut port = Runner::new(Port::new());
    for (list, log) in [("create", true), ("create\ndrop\nrm-log", false)] {
        written::remove_files(&folder).expect("the folder");
        written::lines(list, &mut port, false).expect("calls only");
        written::write_files(&folder, &port.side).expect("the folder");
        assert_eq!(
            fs::read(file(Area::Main)).expect("the main file").len(),
            8_192
        );
        assert_eq!(file(Area::Log).exists(), log);
    }
    fs::remove_dir_all(&folder).expect("the folder");
}
