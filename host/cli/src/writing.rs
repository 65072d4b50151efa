//! The commands that write: each is a dry run in memory first, so that a refused one alters no file. Of a preview it is all.
use crate::args::Args;
use crate::failure::Failure;
use crate::input::{Source, at_most_one_standard_input, batches_of, each_page_once, page_word};
use crate::json::Json;
use crate::output::Answer;
use lateenbael::sys::PAGE_SIZE;
use lateenbael::{BatchBuilder, DbHeader, Disk, DryRun, Error, Files, Log, Mode, PowerCut, Preview, Refusal, Store, salts_of_the_clock};
use std::ffi::OsStr;
use std::path::{Path, PathBuf};
use std::time::Duration;

pub fn create(args: &Args) -> Result<Answer, Failure> {
    let [path] = args.words()?;
    let begin = if args.has("over") { Files::overwriting } else { Files::fresh };
    let store = Store::create_on(begin(Path::new(path), args.wait()?)?, salts_of_the_clock())?;
    let count = store.header()?.page_count;
    let object = Json::object([("command", "create".into()), ("page_count", count.into())]);
    Ok(Answer::report_as(args.has("json"), object, format!("created; pages: {count}\n")))
}

pub fn commit(args: &Args) -> Result<Answer, Failure> {
    let (path, words) = args.first_and_rest()?;
    let pages = words.iter().map(|word| page_word(word)).collect::<Result<Vec<_>, Failure>>()?;
    let batches: Vec<Source> = args.all("batch").map(Source).collect();
    at_most_one_standard_input(pages.iter().map(|(_, source)| source).chain(&batches))?;
    each_page_once(pages.iter().map(|(page, _)| *page))?;
    let mut operation = Commit {
        command: "commit",
        store: path.into(),
        count: args.number("count")?,
        root: args.number("root")?,
        version: args.number("version")?,
        freelist: args.number("freelist")?,
        ..Commit::default()
    };
    let opening = Opening::of(args)?;
    operation.check_pages(pages.iter().map(|(page, _)| *page))?;
    let bytes = pages.into_iter().map(|(page, source)| Ok((page, source.page()?)));
    operation.pages = bytes.collect::<Result<_, Failure>>()?;
    operation.batches = batches_of(&batches)?;
    execute_or_show(path, &opening, &operation)
}

pub fn append(args: &Args) -> Result<Answer, Failure> {
    let (path, files) = args.first_and_rest()?;
    let sources: Vec<Source> = files.iter().map(|file| Source(file)).collect();
    at_most_one_standard_input(sources.iter())?;
    let opening = Opening::of(args)?;
    let operation = Commit {
        command: "append",
        store: path.into(),
        batches: batches_of(&sources)?,
        ..Commit::default()
    };
    if operation.batches.is_empty() {
        return Err(Failure::Usage("no batch to append".to_string()));
    }
    execute_or_show(path, &opening, &operation)
}

pub fn checkpoint(args: &Args) -> Result<Answer, Failure> {
    let [path] = args.words()?;
    let operation = Checkpoint { store: path.into() };
    execute(path, &Opening::of(args)?, &operation)
}

/// How the store is opened, what its clock is raised to, after how many bytes its power is cut, whether batches may go, whether it is only
/// shown what would happen, and how the report looks.
struct Opening {
    mode: Mode,
    wait: Duration,
    clock: Option<u64>,
    power_cut: Option<u64>,
    may_drop: bool,
    preview: bool,
    json: bool,
}

impl Opening {
    fn of(args: &Args) -> Result<Opening, Failure> {
        let opening = Opening {
            mode: if args.has("plain") { Mode::Plain } else { Mode::ReadWrite },
            wait: args.wait()?,
            clock: args.number("clock")?,
            power_cut: args.number("cut-after-bytes")?,
            may_drop: args.has("fold"),
            preview: args.has("preview"),
            json: args.has("json"),
        };
        match opening.preview && opening.power_cut.is_some() {
            true => Err(Failure::Usage(
                "--preview writes nothing that --cut-after-bytes could cut".to_string(),
            )),
            false => Ok(opening),
        }
    }

    /// The store that lies on a disk, its clock raised; and the clock given if it rose to that, for a lower one is ignored.
    fn open<D: Disk>(&self, disk: D) -> Result<(Store<D>, Option<u64>), Error> {
        let mut store = Store::open_on(disk, self.mode, salts_of_the_clock())?;
        let opened = store.clock_high_water()?;
        let risen = self.clock.filter(|clock| *clock > opened);
        risen.map_or(Ok(()), |clock| store.observe_clock_high_water(clock))?;
        Ok((store, risen))
    }
}

/// Refuses a clock to which a store's rose and that its calls have not brought to the log's header, for it would be lost.
fn check_clock<D: Disk>(risen: Option<u64>, store: &Store<D>) -> Result<(), Failure> {
    let stored = store.log()?.map_or(0, |log| log.header().clock_high_water);
    match risen.filter(|clock| *clock > stored) {
        Some(clock) => Err(clock_lost(clock)),
        None => Ok(()),
    }
}

/// What an operation did.
struct Report {
    object: Json,
    text: String,
    /// The batches that a checkpoint took away which was not asked for.
    dropped: usize,
}

/// Calls on an open store, and the report of them.
trait Operation {
    fn run<D: Disk>(&self, store: &mut Store<D>) -> Result<Report, Failure>;
}

/// A store's files, locked, and the report of the operation on a dry run of them, where nothing speaks against doing it in earnest.
fn try_out(path: &OsStr, opening: &Opening, operation: &impl Operation) -> Result<(Files, Report), Failure> {
    let mut files = Files::existing(Path::new(path), false, opening.wait)?;
    let (mut tried, risen) = opening.open(DryRun::over(&mut files))?;
    let report = operation.run(&mut tried)?;
    if report.dropped > 0 && !opening.may_drop {
        return Err(would_drop(path, report.dropped));
    }
    check_clock(risen, &tried)?;
    drop(tried);
    Ok((files, report))
}

/// Does the operation on a dry run, then on the files, under one lock.
fn execute(path: &OsStr, opening: &Opening, operation: &impl Operation) -> Result<Answer, Failure> {
    let (files, _) = try_out(path, opening, operation)?;
    let (mut store, _) = opening.open(PowerCut::new(files))?;
    if let Some(bytes) = opening.power_cut {
        store.disk_mut().arm(bytes);
    }
    let report = operation.run(&mut store)?;
    Ok(Answer::report_as(opening.json, report.object, report.text))
}

/// Makes the commit, or a dry run alone that shows it.
fn execute_or_show(path: &OsStr, opening: &Opening, commit: &Commit) -> Result<Answer, Failure> {
    if !opening.preview {
        return execute(path, opening, commit);
    }
    let (_, report) = try_out(path, opening, &Shown(commit))?;
    Ok(Answer::shown_as(opening.json, report.object, report.text))
}

fn would_drop(path: &OsStr, dropped: usize) -> Failure {
    Failure::Refused(format!(
        "{}: this commit brings the log to 100 frames, so a fold follows, and batches end with a fold: {dropped} would be gone. Read them \
         out and fold first (lateenbael batches, lateenbael fold), or give --fold to let them go. Nothing was altered",
        path.display()
    ))
}

fn clock_lost(clock: u64) -> Failure {
    Failure::Refused(format!(
        "--clock {clock}: a clock is stored with a fold alone, and none with something to write follows, so it would be lost. Nothing was \
         altered"
    ))
}

/// A commit: what of the header is given, pages to stage and batches to append.
#[derive(Default)]
struct Commit {
    command: &'static str,
    store: PathBuf,
    count: Option<u32>,
    root: Option<u32>,
    version: Option<u16>,
    freelist: Option<u32>,
    pages: Vec<(u32, [u8; PAGE_SIZE])>,
    batches: Vec<BatchBuilder>,
}

impl Commit {
    /// The present header with what is given; the count is raised over the pages if it isn't given.
    fn header(&self, now: DbHeader) -> DbHeader {
        let needed = self.pages.iter().map(|(page, _)| page.saturating_add(1)).max().unwrap_or(0);
        DbHeader {
            page_count: self.count.unwrap_or(now.page_count.max(needed)),
            schema_root_page: self.root.unwrap_or(now.schema_root_page),
            format_version: self.version.unwrap_or(now.format_version),
            freelist_head: self.freelist.unwrap_or(now.freelist_head),
        }
    }

    /// Refuses a page that would be committed and never read: page 0, which every commit makes of the header, and one that the given count
    /// leaves out. A count of 0 has a refusal of its own.
    fn check_pages(&self, mut pages: impl Iterator<Item = u32>) -> Result<(), Failure> {
        let count = self.count.filter(|count| *count > 0).map_or(u64::MAX, u64::from);
        match pages.find(|page| *page == 0 || u64::from(*page) >= count) {
            Some(0) => Err(Failure::Refused("page 0 is the header's, which the options tell".to_string())),
            Some(page) => Err(Failure::Refused(format!("page {page}: --count {count} would leave it out"))),
            None => Ok(()),
        }
    }

    fn stage_pages<D: Disk>(&self, store: &mut Store<D>) -> Result<(), Failure> {
        for (page, bytes) in &self.pages {
            let staged = store.stage_page(*page, bytes);
            staged.map_err(|error| Failure::from(error).about(format!("page {page}")))?;
        }
        Ok(())
    }

    fn append_batches<D: Disk>(&self, store: &mut Store<D>) -> Result<(), Failure> {
        for (n, batch) in (1..).zip(&self.batches) {
            let appended = store.append_mvcc_batch(batch.body());
            appended.map_err(|error| Failure::from(error).about(format!("batch {n} of {}", self.batches.len())))?;
        }
        Ok(())
    }

    /// A refused commit, with what it is about.
    fn refused(&self, error: Error) -> Failure {
        let about = match (error.refusal(), self.count, self.version) {
            (Some(Refusal::NewHeader), Some(count), _) if !(1..=1024).contains(&count) => format!("--count {count}"),
            (Some(Refusal::NewHeader), _, Some(version)) => format!("--version {version}"),
            _ => return Failure::of_store(&self.store, error),
        };
        Failure::from(error).about(about)
    }

    /// Stages and appends what is given: the header to commit it with.
    fn prepare<D: Disk>(&self, store: &mut Store<D>) -> Result<DbHeader, Failure> {
        self.stage_pages(store)?;
        self.append_batches(store)?;
        Ok(self.header(store.header()?))
    }

    fn commit<D: Disk>(&self, store: &mut Store<D>, header: DbHeader) -> Result<Committed, Failure> {
        let (sequence, batches) = (store.wal_header()?.checkpoint_seq, store.batch_count()?);
        let differed = store.commit(header).map_err(|error| self.refused(error))?;
        let checkpointed = store.wal_header()?.checkpoint_seq != sequence;
        let dropped = if checkpointed { batches } else { 0 };
        Ok(Committed {
            differed,
            checkpointed,
            dropped,
        })
    }

    /// The report as text, in words for what was done or for what would be.
    fn text_of(&self, done: &Committed, committed: &str, folded: &str) -> String {
        let mut text = format!("{committed}: {}", done.differed);
        if !self.batches.is_empty() {
            text += &format!("; batches sealed: {}", self.batches.len());
        }
        if done.checkpointed {
            text += &format!("; {folded}; batches gone with it: {}", done.dropped);
        }
        text
    }

    /// The report's fields as JSON.
    fn fields_of(&self, done: &Committed) -> [(&'static str, Json); 5] {
        [
            ("command", self.command.into()),
            ("pages_that_differed", done.differed.into()),
            ("batches_committed", self.batches.len().into()),
            ("checkpointed", done.checkpointed.into()),
            ("batches_dropped", done.dropped.into()),
        ]
    }
}

/// What a commit came to.
struct Committed {
    differed: usize,
    checkpointed: bool,
    /// The batches that a checkpoint took away.
    dropped: usize,
}

impl Operation for Commit {
    fn run<D: Disk>(&self, store: &mut Store<D>) -> Result<Report, Failure> {
        let header = self.prepare(store)?;
        let done = self.commit(store, header)?;
        Ok(Report {
            object: Json::object(self.fields_of(&done)),
            text: self.text_of(&done, "committed; pages that differed", "the log was folded") + "\n",
            dropped: done.dropped,
        })
    }
}

/// A commit that is shown before it is made. For a dry run: there it is made too, and must be what was shown.
struct Shown<'a>(&'a Commit);

impl Shown<'_> {
    /// The commit's own report, and what would be there afterwards.
    fn report(&self, shown: Preview, done: &Committed) -> Report {
        let Preview {
            frame_count,
            log_len,
            main_len,
            ..
        } = shown;
        let text = self.0.text_of(done, "would commit; pages that differ", "the log would be folded");
        let afterwards = format!("; frames afterwards: {frame_count}; log length: {log_len}; main length: {main_len}\n");
        let more = [
            ("preview", true.into()),
            ("frame_count", frame_count.into()),
            ("log_len", log_len.into()),
            ("main_len", main_len.into()),
        ];
        Report {
            object: Json::object(self.0.fields_of(done).into_iter().chain(more)),
            text: text + &afterwards,
            dropped: done.dropped,
        }
    }
}

impl Operation for Shown<'_> {
    fn run<D: Disk>(&self, store: &mut Store<D>) -> Result<Report, Failure> {
        let header = self.0.prepare(store)?;
        let shown = store.preview(header).map_err(|error| self.0.refused(error))?;
        let done = self.0.commit(store, header)?;
        let left = Preview {
            answer: done.differed,
            frame_count: store.frame_count()?,
            log_len: store.log()?.as_ref().map_or(0, Log::file_len),
            main_len: store.main_file()?.len(),
            checkpointed: done.checkpointed,
        };
        assert_eq!(left, shown, "the commit is not what was shown");
        Ok(self.report(shown, &done))
    }
}

/// A checkpoint: document 01's fold.
struct Checkpoint {
    store: PathBuf,
}

impl Operation for Checkpoint {
    fn run<D: Disk>(&self, store: &mut Store<D>) -> Result<Report, Failure> {
        let batches = store.batch_count()?;
        let written = store.checkpoint().map_err(|error| Failure::of_store(&self.store, error))?;
        let object = Json::object([
            ("command", "checkpoint".into()),
            ("pages_written", written.into()),
            ("batches_dropped", batches.into()),
        ]);
        let text = format!("folded; pages written: {written}; batches gone with it: {batches}\n");
        let dropped = 0;
        Ok(Report { object, text, dropped })
    }
}
