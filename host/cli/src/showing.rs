//! The commands that show a store: each opens it read-only and alters nothing.
use crate::args::{Args, number};
use crate::failure::Failure;
use crate::hex_view::hex_view;
use crate::json::Json;
use crate::output::{Answer, write_new_file};
use crate::{batch_json, batch_text};
use lateenbael::{Frame, Log, LogFile, Mode, OpenOptions, Store};
use std::ffi::OsStr;
use std::fmt::Write;
use std::path::Path;

/// Opens a store to look at it.
pub fn open_read_only(path: &OsStr, args: &Args) -> Result<Store, Failure> {
    Ok(OpenOptions::new().mode(Mode::ReadOnly).wait(args.wait()?).open(path)?)
}

pub fn info(args: &Args) -> Result<Answer, Failure> {
    let [path] = args.words()?;
    let store = open_read_only(path, args)?;
    Ok(Answer::shown(match args.has("json") {
        true => info_json(&store)?.line(),
        false => info_text(&store)?,
    }))
}

fn info_text(store: &Store) -> Result<String, Failure> {
    let header = store.header()?;
    let mut lines = String::new();
    let mut line = |name: &str, value: String| lines += &format!("{name:<14} {value}\n");
    line("page count", header.page_count.to_string());
    line("schema root", header.schema_root_page.to_string());
    line("version", header.format_version.to_string());
    line("freelist head", header.freelist_head.to_string());
    line("clock", store.clock_high_water()?.to_string());
    line("main length", store.main_file()?.len().to_string());
    match store.log()? {
        None => line("log length", "- (there is no log)".to_string()),
        Some(log) => {
            line("log length", log.file_len().to_string());
            line("log version", log.header().version.to_string());
            line("log salt", format!("{:08x}", log.header().salt));
            line("log sequence", log.header().checkpoint_seq.to_string());
            line("frames", log.frame_count().to_string());
            line("commit point", log.commit_point().to_string());
            line("until a fold", store.frames_before_checkpoint()?.to_string());
        }
    }
    Ok(lines)
}

fn info_json(store: &Store) -> Result<Json, Failure> {
    let header = store.header()?;
    let log = store.log()?;
    let log = log.as_ref();
    Ok(Json::object([
        ("page_count", header.page_count.into()),
        ("schema_root_page", header.schema_root_page.into()),
        ("format_version", header.format_version.into()),
        ("freelist_head", header.freelist_head.into()),
        ("clock_high_water", store.clock_high_water()?.into()),
        ("main_len", store.main_file()?.len().into()),
        ("log_len", log.map(Log::file_len).into()),
        ("log_version", log.map(|log| log.header().version).into()),
        ("salt", log.map(|log| log.header().salt).into()),
        ("checkpoint_seq", log.map(|log| log.header().checkpoint_seq).into()),
        ("frame_count", log.map(Log::frame_count).into()),
        ("commit_point", log.map(Log::commit_point).into()),
        ("frames_before_checkpoint", log.and(Some(store.frames_before_checkpoint()?)).into()),
    ]))
}

pub fn check(args: &Args) -> Result<Answer, Failure> {
    let [path] = args.words()?;
    let store = open_read_only(path, args)?;
    let missing = missing_pages(&store)?;
    let shown = match args.has("json") {
        true => check_json(&store, &missing)?.line(),
        false => check_text(&store, &missing)?,
    };
    let finding = format!("{}: pages below the page count that are nowhere: {}", path.display(), missing.len());
    let finding = (!missing.is_empty()).then_some(Failure::Refused(finding));
    Ok(Answer::shown(shown).with_finding(finding))
}

fn missing_pages(store: &Store) -> Result<Vec<u32>, Failure> {
    let mut missing = Vec::new();
    for page in 1..store.header()?.page_count {
        if store.read_page(page)?.is_none() {
            missing.push(page);
        }
    }
    Ok(missing)
}

fn check_text(store: &Store, missing: &[u32]) -> Result<String, Failure> {
    let count = store.header()?.page_count;
    let recovered = store.recovered_mvcc_commits()?.count();
    let mut lines = format!("opens; pages: {count}; batches recovered: {recovered}\n");
    for page in missing {
        let _ = writeln!(lines, "page {page} is nowhere");
    }
    lines += &store
        .log()?
        .map_or("tail: none, there is no log\n".to_string(), |log| uncommitted_text(&log));
    Ok(lines)
}

fn uncommitted_frames<'a>(log: &Log<'a>) -> impl Iterator<Item = Frame<'a>> {
    let commit_point = log.commit_point();
    log.frames().filter(move |frame| frame.offset >= commit_point)
}

/// What lies behind the commit point: document 01's tail.
fn uncommitted_text(log: &Log) -> String {
    let bytes = log.file_len() - log.commit_point();
    if bytes == 0 {
        return "tail: none\n".to_string();
    }
    let torn = log.file_len() - log.good_end();
    let mut lines = format!(
        "tail: {bytes} bytes behind the commit point {}, which a clean opening drops\n",
        log.commit_point()
    );
    for frame in uncommitted_frames(log) {
        let what = frame.batch().map_or(format!("page {}", frame.page_num), |batch| {
            format!("a batch of {} records", batch.record_count())
        });
        let _ = writeln!(lines, "tail: frame {} is good and unsealed: {what}", frame.index);
    }
    if torn > 0 {
        let _ = writeln!(lines, "tail: {torn} bytes are no good frame");
    }
    lines
}

fn check_json(store: &Store, missing: &[u32]) -> Result<Json, Failure> {
    let log = store.log()?;
    let log = log.as_ref();
    let frames = log.map(|log| Json::list(uncommitted_frames(log).map(frame_json)));
    Ok(Json::object([
        ("page_count", store.header()?.page_count.into()),
        ("batches_recovered", store.recovered_mvcc_commits()?.count().into()),
        ("missing_pages", Json::list(missing.iter().map(|page| (*page).into()))),
        ("commit_point", log.map(Log::commit_point).into()),
        ("uncommitted_len", log.map(|log| log.file_len() - log.commit_point()).into()),
        ("uncommitted_frames", frames.into()),
        ("torn_len", log.map(|log| log.file_len() - log.good_end()).into()),
    ]))
}

pub fn log(args: &Args) -> Result<Answer, Failure> {
    let [path] = args.words()?;
    let file = LogFile::read(path)?;
    let log = file.log()?;
    Ok(Answer::shown(match args.has("json") {
        true => log_json(&log).line(),
        false => log.listing(),
    }))
}

fn log_json(log: &Log) -> Json {
    let header = log.header();
    Json::object([
        ("log_len", log.file_len().into()),
        ("log_version", header.version.into()),
        ("salt", header.salt.into()),
        ("checkpoint_seq", header.checkpoint_seq.into()),
        ("clock_high_water", header.clock_high_water.into()),
        ("frames", Json::list(log.frames().map(frame_json))),
        ("frame_count", log.frame_count().into()),
        ("commit_point", log.commit_point().into()),
        ("last_commit_page_count", log.last_commit_page_count().into()),
    ])
}

fn frame_json(frame: Frame) -> Json {
    let batch = frame.batch();
    Json::object([
        ("index", frame.index.into()),
        ("offset", frame.offset.into()),
        ("page_num", batch.is_none().then_some(frame.page_num).into()),
        ("record_count", batch.map(|batch| batch.record_count()).into()),
        ("commit_page_count", frame.commit_page_count.into()),
    ])
}

pub fn batches(args: &Args) -> Result<Answer, Failure> {
    let [path] = args.words()?;
    let store = open_read_only(path, args)?;
    let batches = store.recovered_mvcc_commits()?;
    Ok(Answer::shown(match args.has("json") {
        true => Json::object([("batches", Json::list(batches.map(|batch| batch_json::of(&batch))))]).line(),
        false => batches.map(|batch| batch_text::print(&batch)).collect(),
    }))
}

pub fn read(args: &Args) -> Result<Answer, Failure> {
    let [path, page, out] = args.words()?;
    let bytes = page_of(path, page, args)?;
    if out == "-" {
        return Ok(Answer::shown(bytes));
    }
    write_new_file(path, Path::new(out), &bytes)?;
    Ok(Answer::shown(""))
}

pub fn page(args: &Args) -> Result<Answer, Failure> {
    let [path, page] = args.words()?;
    Ok(Answer::shown(hex_view(&page_of(path, page, args)?)))
}

fn page_of(path: &OsStr, page: &OsStr, args: &Args) -> Result<Vec<u8>, Failure> {
    let page = number(page).map_err(|f| f.about("PAGE"))?;
    let store = open_read_only(path, args)?;
    let nowhere = match (store.read_page(page)?, page) {
        (Some(bytes), _) => return Ok(bytes.to_vec()),
        (None, 0) => "page 0 is the header's, and reads only while the log has it".to_string(),
        (None, page) => format!("page {page} is nowhere"),
    };
    Err(Failure::Refused(nowhere).about(path.display()))
}
