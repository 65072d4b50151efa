//! The port and the Rust side by side, compared after each call.

use std::any::Any;
use std::panic::{self, AssertUnwindSafe};

use commit_preview::Before;
use engine::sql::pager::header::DbHeader;
use opening_clock::Reading;
use splitmix::Random;

use crate::call::{Call, Opening};
use crate::port::Port;
use crate::run::{Outcome, PAGES, Runner};
use crate::rust::Rust;
use crate::side::{Area, Preview, Side};

/// What is compared besides answers, writes, files, header and state: the
/// readings of all pages or of some, and the batches.
pub struct Look {
    /// Some, if not all.
    pages: Option<Vec<u32>>,
    batches: bool,
}

impl Look {
    pub fn all() -> Self {
        Self {
            pages: None,
            batches: true,
        }
    }

    /// All that the call can have changed, some of the rest, and now and
    /// then everything.
    pub fn drawn(call: &Call, random: &mut Random) -> Self {
        let changes = matches!(
            call,
            Call::Create | Call::Open(_) | Call::Commit(_) | Call::Checkpoint | Call::Clear
        );
        if changes || random.below(16) == 0 {
            return Self::all();
        }
        let mut pages: Vec<_> = (0..4).map(|_| random.below(40) as u32).collect();
        pages.push(random.below(PAGES as usize) as u32);
        if let Call::Stage(page, _) | Call::Read(page) = call {
            pages.push(*page);
        }
        Self {
            pages: Some(pages),
            batches: random.below(8) == 0,
        }
    }
}

pub struct Pair {
    pub port: Runner<Port>,
    pub rust: Runner<Rust>,
    /// What the last opening found in the log about the clock; none if there
    /// was no log.
    pub clocks: Option<Reading>,
    /// The last call, if it was a preview, and its result. A cut may stand
    /// behind it.
    previewed: Option<(DbHeader, String)>,
    /// Commits that were held to their previews.
    pub as_previewed: u64,
}

impl Default for Pair {
    fn default() -> Self {
        Self::new()
    }
}

impl Pair {
    pub fn new() -> Self {
        Self {
            port: Runner::new(Port::new()),
            rust: Runner::new(Rust::new()),
            clocks: None,
            previewed: None,
            as_previewed: 0,
        }
    }

    pub fn reset(&mut self) {
        self.port.reset();
        self.rust.reset();
        self.previewed = None;
    }

    /// Makes a call on both; the outcome, or how they part. A panic of one
    /// is a difference too.
    pub fn call(&mut self, call: &Call, look: &Look) -> Result<Outcome, String> {
        let compared = AssertUnwindSafe(|| {
            if matches!(call, Call::Open(_)) {
                let read = |log: Option<&[u8]>| log.and_then(opening_clock::read);
                self.clocks = self.port.side.look_at(Area::Log, read);
            }
            let port = self.port.call(call);
            let rust = self.rust.call(call);
            if port != rust {
                return Err(format!("port {port:?}\nRust {rust:?}"));
            }
            self.same(look)?;
            self.clock_as_read(call)?;
            self.preview_as_read(call, &port)?;
            self.commit_as_previewed(call, &port).map(|()| port)
        });
        panic::catch_unwind(compared).unwrap_or_else(|panic| Err(message(panic.as_ref())))
    }

    fn same(&self, look: &Look) -> Result<(), String> {
        let (port, rust) = (&self.port.side, &self.rust.side);
        unless_same("faults", &port.probe.faults, &Vec::new())?;
        for area in [Area::Main, Area::Log] {
            port.look_at(area, |port| {
                rust.look_at(area, |rust| same_file(area, port, rust))
            })?;
        }
        unless_same("an open store", &port.is_open(), &rust.is_open())?;
        if !port.is_open() {
            return Ok(());
        }
        let as_written = port.areas_are_the_files();
        unless_same("the files as the stores were named", &as_written, &true)?;
        unless_same("header", &port.header(), &rust.header())?;
        unless_same("state", &port.state(), &rust.state())?;
        match &look.pages {
            Some(pages) => self.same_pages(pages.iter().copied())?,
            None => self.same_pages((0..=PAGES).chain([u32::MAX]))?,
        }
        if look.batches {
            unless_same("batches", &port.recovered(), &rust.recovered())?;
        }
        Ok(())
    }

    /// The clock behind an opening, which is also told by the bytes of the
    /// log that it found; without a log it is 0.
    fn clock_as_read(&self, call: &Call) -> Result<(), String> {
        let (Call::Open(opening), true) = (call, self.port.side.is_open()) else {
            return Ok(());
        };
        let read = self.clocks.as_ref().map_or(0, |clocks| match opening {
            Opening::Clean => clocks.clean(),
            Opening::ReadWrite | Opening::ReadOnly => clocks.plain(),
        });
        let clock = self.port.side.state().clock;
        match clock == read {
            true => Ok(()),
            false => Err(format!("clock: both {clock}, by the log's bytes {read}")),
        }
    }

    /// A preview that isn't refused, which is also told by what the Rust's
    /// store and files are before the commit.
    fn preview_as_read(&self, call: &Call, outcome: &Outcome) -> Result<(), String> {
        let (Call::Preview(header), true) = (call, outcome.result.starts_with("ok")) else {
            return Ok(());
        };
        let before = Before {
            frames: self.rust.side.state().frames as u64,
            log: self.length(Area::Log) as u64,
            main: self.length(Area::Main) as u64,
            differing: self.rust.side.differing() as u64,
            page_count: header.page_count,
        };
        let told = before.preview();
        let told = Preview {
            answer: told.answer as usize,
            frames: told.frames as usize,
            log: told.log as usize,
            main: told.main as usize,
            checkpointed: told.folds,
        };
        match outcome.result == told.to_string() {
            true => Ok(()),
            false => Err(format!(
                "preview: both {}, by the papers {told}",
                outcome.result
            )),
        }
    }

    /// A commit is what its preview showed, unless it was cut: refused alike, or
    /// with that answer and ending, and with these frames and lengths left.
    fn commit_as_previewed(&mut self, call: &Call, outcome: &Outcome) -> Result<(), String> {
        let previewed = match call {
            Call::Cut(_) => return Ok(()),
            _ => self.previewed.take(),
        };
        if let Call::Preview(header) = call {
            self.previewed = Some((*header, outcome.result.clone()));
        }
        let (Call::Commit(header), Some((shown_for, shown))) = (call, previewed) else {
            return Ok(());
        };
        if *header != shown_for || outcome.result == "cut" {
            return Ok(());
        }
        self.as_previewed += 1;
        let made = self.commit_in_full(&outcome.result);
        match made == shown {
            true => Ok(()),
            false => Err(format!("the preview: {shown}, the commit: {made}")),
        }
    }

    /// A commit's result with the frames and lengths that it has left, as a
    /// preview shows it.
    fn commit_in_full(&self, result: &str) -> String {
        let words: Vec<_> = result.split(' ').collect();
        let ["ok", answer, ending] = words[..] else {
            return result.to_string();
        };
        let frames = self.rust.side.state().frames;
        let (log, main) = (self.length(Area::Log), self.length(Area::Main));
        format!("ok {answer} frames {frames} log {log} main {main} {ending}")
    }

    /// A file's length; both sides have the same.
    fn length(&self, area: Area) -> usize {
        let length = |file: Option<&[u8]>| file.map_or(0, <[u8]>::len);
        self.rust.side.look_at(area, length)
    }

    fn same_pages(&self, pages: impl Iterator<Item = u32>) -> Result<(), String> {
        for page in pages {
            let (port, rust) = (self.port.side.read(page), self.rust.side.read(page));
            if port != rust {
                let of = |bytes: Option<&[u8]>| bytes.map(crate::hash::of);
                return unless_same(&format!("page {page}"), &of(port), &of(rust));
            }
        }
        Ok(())
    }
}

fn same_file(area: Area, port: Option<&[u8]>, rust: Option<&[u8]>) -> Result<(), String> {
    if port == rust {
        return Ok(());
    }
    let length = |file: Option<&[u8]>| file.map(<[u8]>::len);
    unless_same(area.file(), &length(port), &length(rust))?;
    let pairs = port
        .unwrap_or_default()
        .iter()
        .zip(rust.unwrap_or_default());
    let alike = pairs.take_while(|(port, rust)| port == rust).count();
    Err(format!("{}: from byte {alike} on", area.file()))
}

fn message(panic: &(dyn Any + Send)) -> String {
    let text = match panic.downcast_ref::<String>() {
        Some(text) => text,
        None => panic.downcast_ref::<&str>().copied().unwrap_or_default(),
    };
    format!("a panic: {text}")
}

fn unless_same<T: PartialEq + std::fmt::Debug>(
    what: &str,
    port: &T,
    rust: &T,
) -> Result<(), String> {
    match port == rust {
        true => Ok(()),
        false => Err(format!("{what}: port {port:?}, Rust {rust:?}")),
    }
}
