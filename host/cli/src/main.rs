//! The program `lateenbael` for the service desk: makes, shows, writes and checks a store on two files.
mod args;
mod backup;
mod batch_json;
mod batch_text;
mod commands;
mod dump_text;
mod failure;
mod help;
mod hex_view;
mod input;
mod json;
mod output;
mod showing;
mod writing;

use std::ffi::OsString;
use std::process::ExitCode;

fn main() -> ExitCode {
    let words: Vec<OsString> = std::env::args_os().skip(1).collect();
    ExitCode::from(match commands::run(&words) {
        Ok(answer) => answer.print(),
        Err(failure) => output::complain(&failure),
    })
}
