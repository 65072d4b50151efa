//! A written list, run on one side and printed line by line.

use std::fmt::Write;
use std::fs;
use std::io;
use std::path::Path;

use crate::call;
use crate::run::{Outcome, Runner};
use crate::side::{Area, Side};

/// The longest that a call is shown.
const LONGEST_CALL: usize = 100;

/// All lines of a list. A line that is no call ends it.
pub fn lines<S: Side>(list: &str, runner: &mut Runner<S>, writes: bool) -> Result<String, String> {
    runner.reset();
    let mut lines = String::new();
    for (index, line) in list.lines().enumerate() {
        let call = call::parse(line).map_err(|error| format!("line {}: {error}", index + 1))?;
        let Some(call) = call else { continue };
        let outcome = runner.call(&call);
        let shown = shown(line.split('#').next().unwrap_or_default().trim());
        let line = format!("{shown} => {} | {}", outcome.result, runner.files());
        add(&mut lines, &line, &outcome, writes);
    }
    Ok(lines)
}

fn add(lines: &mut String, line: &str, outcome: &Outcome, writes: bool) {
    let mut below = outcome.below.clone();
    if writes {
        below.extend(outcome.writes.iter().map(ToString::to_string));
        below.extend(outcome.cut.iter().map(ToString::to_string));
    }
    writeln!(lines, "{line}").expect("a string takes all");
    for line in below {
        writeln!(lines, "  {line}").expect("a string takes all");
    }
}

fn shown(call: &str) -> String {
    match call.chars().count() {
        0..=LONGEST_CALL => call.to_string(),
        _ => call
            .chars()
            .take(LONGEST_CALL - 3)
            .chain("...".chars())
            .collect(),
    }
}

/// Removes both files from a folder, which is made if it isn't there.
pub fn remove_files(folder: &Path) -> io::Result<()> {
    fs::create_dir_all(folder)?;
    for area in [Area::Main, Area::Log] {
        match fs::remove_file(folder.join(area.file())) {
            Err(error) if error.kind() != io::ErrorKind::NotFound => return Err(error),
            _ => {}
        }
    }
    Ok(())
}

/// Writes the files as the list has left them.
pub fn write_files<S: Side>(folder: &Path, side: &S) -> io::Result<()> {
    for area in [Area::Main, Area::Log] {
        side.look_at(area, |bytes| match bytes {
            Some(bytes) => fs::write(folder.join(area.file()), bytes),
            None => Ok(()),
        })?;
    }
    Ok(())
}
