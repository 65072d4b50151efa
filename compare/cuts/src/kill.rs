//! The real one: a child process commits numbered pages to two real files and acknowledges each
//! commit; it is killed (SIGKILL) at a random moment, and what lies in the files is opened cleanly
//! and compared with the model of the acknowledged commits, or of those and the one under way.
use crate::batch;
use crate::call::{Call, page_bytes};
use crate::compare::{Check, compare_batches, compare_header, compare_pages};
use crate::expected::Expected;
use crate::judge::STAGED;
use crate::model::{Header, PAGE};
use crate::port::{from_port, to_port};
use crate::writes::{FRAME, LOG_HEADER};
use crate::wrong::Wrong;
use lateenbael::{
    Area, Comparison, DEFAULT_WAIT, Disk, Engine, Files, Mode, Store, salts_of_the_clock,
    wal_path_for,
};
use splitmix::Random;
use std::io::{self, Read, Write};
use std::os::unix::process::ExitStatusExt;
use std::path::{Path, PathBuf};
use std::process::{Command, Stdio};
use std::time::{Duration, SystemTime, UNIX_EPOCH};
use std::{fmt, fs, thread};

/// The hidden word for the child.
pub const CHILD: &str = "kill-child";
const SIGKILL: i32 = 9;
const LONGEST_MICROSECONDS: usize = 30_000;

/// Other pages than those that join, at most, in a commit.
const OTHERS: usize = 5;

/// Never so many that those which join can't be staged with the others.
fn page_count(seed: u64, number: u32) -> u32 {
    match number {
        0 => 2,
        _ => 2 + Random::new(seed ^ u64::from(number / 5)).u32() % (STAGED - OTHERS) as u32,
    }
}

/// The calls of the commit with that number, always the same ones: now and then a checkpoint,
/// batches, the pages that join, some others, and the commit, whose freelist head is the number.
fn calls(seed: u64, number: u32) -> Vec<Call> {
    let random = &mut Random::new(seed.wrapping_mul(31).wrapping_add(number.into()));
    let mut calls = Vec::new();
    if random.one_in(25) {
        calls.push(Call::Checkpoint(0));
    }
    for _ in 0..random.below(3) {
        calls.push(Call::Append(batch::encode_short(&batch::draw(random))));
    }
    let (old, new) = (page_count(seed, number - 1), page_count(seed, number));
    let others: Vec<u32> = (0..random.below(OTHERS + 1))
        .map(|_| random.between(1, new as usize - 1) as u32)
        .collect();
    for page in (old..new).chain(others) {
        calls.push(Call::Stage(
            page,
            u64::from(number) << 16 | u64::from(page),
            PAGE,
        ));
    }
    let header = Header {
        page_count: new,
        schema_root: 1,
        version: 4,
        freelist_head: number,
    };
    calls.push(Call::Commit(header, 0));
    calls
}

/// Real files that are written in pieces, so that a kill can fall inside one. A file's
/// first 32 bytes are one piece.
struct Pieces {
    files: Files,
    random: Random,
    longest: usize,
}

impl Disk for Pieces {
    fn read(&mut self, area: Area, buffer: &mut [u8]) -> io::Result<Option<usize>> {
        self.files.read(area, buffer)
    }

    fn drop_cached(&mut self, area: Area) -> io::Result<()> {
        self.files.drop_cached(area)
    }

    fn compare_with_medium(&mut self, area: Area, bytes: &[u8]) -> io::Result<Comparison> {
        self.files.compare_with_medium(area, bytes)
    }

    fn create(&mut self, area: Area) -> io::Result<()> {
        self.files.create(area)
    }

    fn publish(&mut self, area: Area) -> io::Result<()> {
        self.files.publish(area)
    }

    fn write_at(&mut self, area: Area, at: usize, bytes: &[u8]) -> io::Result<()> {
        let mut done = 0;
        while done < bytes.len() {
            let piece = self
                .random
                .between(LOG_HEADER, self.longest)
                .min(bytes.len() - done);
            self.files
                .write_at(area, at + done, &bytes[done..done + piece])?;
            done += piece;
        }
        Ok(())
    }

    fn set_len(&mut self, area: Area, len: usize) -> io::Result<()> {
        self.files.set_len(area, len)
    }

    fn sync(&mut self, area: Area) -> io::Result<()> {
        self.files.sync(area)
    }

    fn is_intact(&mut self, area: Area) -> io::Result<bool> {
        self.files.is_intact(area)
    }
}

fn now() -> u64 {
    SystemTime::now()
        .duration_since(UNIX_EPOCH)
        .map_or(0, |since| since.as_nanos() as u64)
}

/// Opens the store and commits on and on; each commit's number goes to the standard output as
/// soon as the commit is done. Ends only by an error.
pub fn child(path: &Path, seed: u64, longest: usize) -> Result<(), Box<dyn std::error::Error>> {
    let disk = Pieces {
        files: Files::existing(path, false, DEFAULT_WAIT)?,
        random: Random::new(now()),
        longest,
    };
    let mut store = Store::open_on(disk, Mode::ReadWrite, salts_of_the_clock())?;
    let mut out = io::stdout().lock();
    loop {
        let number = store.header()?.freelist_head + 1;
        for call in calls(seed, number) {
            match call {
                Call::Stage(page, seed, len) => {
                    let bytes = page_bytes(seed, len);
                    store.stage_page(page, bytes[..].try_into()?)?;
                }
                Call::Append(body) => store.append_mvcc_batch(&body)?,
                Call::Checkpoint(_) => store.checkpoint().map(drop)?,
                Call::Commit(header, _) => store.commit(to_port(&header)).map(drop)?,
                _ => (),
            }
        }
        writeln!(out, "{number}")?;
        out.flush()?;
    }
}

/// What was found after the kills.
#[derive(Default)]
pub struct Found {
    kills: usize,
    acknowledged: u32,
    committed: usize,
    uncommitted: usize,
    uncommitted_logs: usize,
    torn_logs: usize,
    emptied: usize,
}

impl fmt::Display for Found {
    fn fmt(&self, f: &mut fmt::Formatter<'_>) -> fmt::Result {
        let Found {
            acknowledged,
            committed,
            uncommitted,
            ..
        } = self;
        writeln!(f, "{acknowledged} commits acknowledged")?;
        writeln!(
            f,
            "commit under way found sealed {committed} times, not sealed {uncommitted} times"
        )?;
        write!(
            f,
            "logs with frames behind the commit point {}, ",
            self.uncommitted_logs
        )?;
        writeln!(
            f,
            "with a torn tail {}, emptied by a fold {}",
            self.torn_logs, self.emptied
        )?;
        write!(f, "{} kills, 0 differences", self.kills)
    }
}

struct Killing {
    exe: PathBuf,
    path: PathBuf,
    seed: u64,
    engine: Engine,
    expected: Expected,
    random: Random,
    found: Found,
}

/// Kills the child so many times, with the same files in the folder.
pub fn run(exe: PathBuf, folder: &Path, count: usize) -> Result<Found, String> {
    let in_folder = |error: &dyn fmt::Display| format!("{}: {error}", folder.display());
    fs::create_dir_all(folder).map_err(|error| in_folder(&error))?;
    let path = folder.join("db.sqlrite");
    Store::create_over(&path).map_err(|error| in_folder(&error))?;
    let seed = now();
    let mut killing = Killing {
        exe,
        path,
        seed,
        engine: Engine::new(),
        expected: Expected::created(Wrong::Not),
        random: Random::new(seed),
        found: Found::default(),
    };
    for kill in 1..=count {
        killing
            .once()
            .map_err(|what| format!("seed {seed}, kill {kill}: {what}"))?;
    }
    Ok(killing.found)
}

impl Killing {
    fn once(&mut self) -> Check {
        let last = self
            .kill_child()
            .map_err(|error| format!("the child: {error}"))?;
        let (main, log) = (fs::read(&self.path), fs::read(wal_path_for(&self.path)));
        let (Ok(main), Ok(log)) = (main, log) else {
            return Err("the files can't be read".into());
        };
        let opened = self.engine.open_clean(&main, Some(&log), false, 1);
        opened.map_err(|refusal| format!("the opening is {refusal}"))?;
        self.expected = self.matching(last, &main)?;
        self.count(last, log.len());
        Ok(())
    }

    /// Starts the child and kills it after a while; the last number that it acknowledged, else the
    /// one that the files had.
    fn kill_child(&mut self) -> io::Result<u32> {
        let longest = self.random.pick(&[100, 600, PAGE + FRAME]);
        let mut child = Command::new(&self.exe)
            .args([
                CHILD,
                &self.path.to_string_lossy(),
                &self.seed.to_string(),
                &longest.to_string(),
            ])
            .stdout(Stdio::piped())
            .spawn()?;
        thread::sleep(Duration::from_micros(
            self.random.below(LONGEST_MICROSECONDS) as u64,
        ));
        child.kill()?;
        let mut output = String::new();
        child
            .stdout
            .take()
            .map(|mut out| out.read_to_string(&mut output))
            .transpose()?;
        let status = child.wait()?;
        if status.signal() != Some(SIGKILL) {
            return Err(io::Error::other(format!("ended by itself, {status}")));
        }
        let whole_lines = output.rsplit_once('\n').map_or("", |(lines, _)| lines);
        let last = whole_lines.lines().last().map(str::parse);
        last.unwrap_or(Ok(self.expected.model.header.freelist_head))
            .map_err(io::Error::other)
    }

    /// The expected state when all commits up to the acknowledged one are done and some writes of
    /// the next one's calls, for the first number of them that agrees with what was opened.
    fn matching(&self, last: u32, main: &[u8]) -> Result<Expected, String> {
        let mut expected = self.expected.clone();
        for number in expected.model.header.freelist_head + 1..=last {
            for call in calls(self.seed, number) {
                start(&mut expected, &call)?;
                while expected.busy() {
                    expected.whole();
                }
            }
        }
        let mut reason = String::new();
        for call in calls(self.seed, last + 1) {
            start(&mut expected, &call)?;
            loop {
                let opened = expected.opened_after(0);
                match self.agrees(&opened, main) {
                    Ok(()) => return Ok(opened),
                    Err(what) => reason = what,
                }
                if !expected.busy() {
                    break;
                }
                expected.whole();
            }
        }
        let header = from_port(&self.engine.store().current_header);
        Err(format!(
            "acknowledged {last}, found a store with {header} that is no moment's of the next commit: {reason}"
        ))
    }

    fn agrees(&self, expected: &Expected, main: &[u8]) -> Check {
        compare_header(&self.engine, expected)?;
        if self.engine.log_file().len() != expected.disk.commit_point() {
            return Err("another log length".into());
        }
        if main[20..24] != expected.disk.main_count.to_le_bytes() {
            return Err("another page count in the main file".into());
        }
        compare_pages(&self.engine, expected)?;
        compare_batches(&self.engine, expected)
    }

    fn count(&mut self, last: u32, log_len: usize) {
        let found = &mut self.found;
        found.kills += 1;
        found.acknowledged = last;
        match self.expected.model.header.freelist_head > last {
            true => found.committed += 1,
            false => found.uncommitted += 1,
        }
        let behind = log_len - self.expected.disk.commit_point();
        found.uncommitted_logs += usize::from(behind >= FRAME);
        found.torn_logs += usize::from(!behind.is_multiple_of(FRAME));
        found.emptied += usize::from(log_len == LOG_HEADER);
    }
}

fn start(expected: &mut Expected, call: &Call) -> Check {
    let plan = expected
        .judge(call)
        .map_err(|(number, _)| format!("{call} would be refused {number}"))?;
    expected.start(call, plan);
    Ok(())
}
