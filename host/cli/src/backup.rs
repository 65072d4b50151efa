//! The commands that carry a whole store elsewhere: a copy of its files, or a text and back.
use crate::args::Args;
use crate::dump_text;
use crate::failure::Failure;
use crate::input::Source;
use crate::json::Json;
use crate::output::{Answer, write_new_file};
use crate::showing::open_read_only;
use lateenbael::{Log, Snapshot, SnapshotError};
use std::path::Path;

/// 1,024 pages are under 9 MiB of text, and a log's batches under 28 MiB.
const DUMP_LIMIT: usize = 64 << 20;

pub fn copy(args: &Args) -> Result<Answer, Failure> {
    let [path, new] = args.words()?;
    let store = open_read_only(path, args)?;
    store.copy_to(new)?;
    let (main_len, log_len) = (store.main_file()?.len(), store.log()?.as_ref().map(Log::file_len));
    let object = Json::object([
        ("command", "copy".into()),
        ("main_len", main_len.into()),
        ("log_len", log_len.into()),
    ]);
    let log = log_len.map_or("- (there is no log)".to_string(), |len| len.to_string());
    let text = format!("copied; main length: {main_len}; log length: {log}\n");
    Ok(Answer::report_as(args.has("json"), object, text))
}

pub fn dump(args: &Args) -> Result<Answer, Failure> {
    let (path, out) = args.first_and_rest()?;
    let out = match out {
        [] => None,
        [out] => Some(out).filter(|out| *out != "-"),
        _ => return Err(args.expected()),
    };
    let text = dump_text::print(&Snapshot::of(&open_read_only(path, args)?)?);
    match out {
        None => Ok(Answer::shown(text)),
        Some(out) => write_new_file(path, Path::new(out), text.as_bytes()).map(|()| Answer::shown("")),
    }
}

pub fn restore(args: &Args) -> Result<Answer, Failure> {
    let [file, new] = args.words()?;
    let source = Source(file);
    let snapshot = dump_text::parse(&source.name(), &source.text(DUMP_LIMIT)?)?;
    snapshot.create(new).map_err(|error| match error {
        SnapshotError::Store(error) => error.into(),
        other => Failure::Refused(other.to_string()).about(source.name()),
    })?;
    let (pages, batches) = (snapshot.header.page_count, snapshot.batches.len());
    let object = Json::object([
        ("command", "restore".into()),
        ("page_count", pages.into()),
        ("batches_committed", batches.into()),
    ]);
    let text = format!("restored; pages: {pages}; batches: {batches}\n");
    Ok(Answer::report_as(args.has("json"), object, text))
}
