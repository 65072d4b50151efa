//! How a store on files is opened.
use crate::{Engine, Error, Files, Store, salts_of_the_clock};
use std::path::Path;
use std::time::Duration;

/// How a store is opened.
#[derive(Clone, Copy, Debug, Default, PartialEq, Eq, Hash)]
pub enum Mode {
    /// For reading and writing; the log is cut at its commit point, so that nothing uncommitted is ever taken in. The clock is the larger
    /// of the log header's and the greatest time among the batches that were found; in the other modes it is the log header's.
    #[default]
    ReadWrite,
    /// For reading and writing as the Rust does: uncommitted frames (document 01's tail) stay, and a later commit takes them in. Behind
    /// bytes that are no frame nothing is committed ([`Error::TornTail`]).
    Plain,
    /// Nothing is written and no file is made.
    ReadOnly,
}

/// How long an opening waits for another program's lock, unless it is told: a program that only looks is soon done.
pub const DEFAULT_WAIT: Duration = Duration::from_secs(1);

/// How a store on files is opened: the mode, whether it is made if it isn't there, and how long a lock is waited for.
///
/// ```
/// use lateenbael::{Mode, OpenOptions};
/// use std::time::Duration;
///
/// # fn main() -> Result<(), Box<dyn std::error::Error>> {
/// # let folder = std::env::temp_dir().join(format!("lateenbael-options-{}", std::process::id()));
/// # std::fs::create_dir_all(&folder)?;
/// let path = folder.join("grips");
/// drop(OpenOptions::new().create(true).open(&path)?);
/// let store = OpenOptions::new().mode(Mode::ReadOnly).wait(Duration::from_secs(5)).open(&path)?;
/// assert_eq!(store.header()?.page_count, 2);
/// # drop(store);
/// # std::fs::remove_dir_all(&folder)?;
/// # Ok(())
/// # }
/// ```
#[derive(Clone, Copy, Debug, PartialEq, Eq, Hash)]
pub struct OpenOptions {
    mode: Mode,
    wait: Duration,
    create: bool,
}

impl Default for OpenOptions {
    fn default() -> Self {
        Self::new()
    }
}

impl OpenOptions {
    /// [`Mode::ReadWrite`], a wait of [`DEFAULT_WAIT`], and a store that is missing is not made.
    pub fn new() -> OpenOptions {
        OpenOptions {
            mode: Mode::ReadWrite,
            wait: DEFAULT_WAIT,
            create: false,
        }
    }

    /// For what it is opened.
    pub fn mode(mut self, mode: Mode) -> OpenOptions {
        self.mode = mode;
        self
    }

    /// How long another program's lock is waited for; zero: not at all.
    pub fn wait(mut self, wait: Duration) -> OpenOptions {
        self.wait = wait;
        self
    }

    /// Whether a store that isn't there is made, unless it is opened read-only. A creation that was cut has left no store, and is done
    /// again.
    pub fn create(mut self, create: bool) -> OpenOptions {
        self.create = create;
        self
    }

    /// Opens the store.
    pub fn open(self, path: impl AsRef<Path>) -> Result<Store, Error> {
        self.open_in(Engine::new(), path)
    }

    /// The same in the areas of an earlier store, whatever they hold: who opens often need not touch new memory each time.
    pub fn open_in(self, engine: Engine, path: impl AsRef<Path>) -> Result<Store, Error> {
        let (path, mode, salts) = (path.as_ref(), self.mode, salts_of_the_clock());
        if !self.create || mode == Mode::ReadOnly {
            let files = Files::existing(path, mode == Mode::ReadOnly, self.wait)?;
            return Store::open_on_in(engine, files, mode, salts);
        }
        match Files::existing_or_fresh(path, self.wait)? {
            (files, true) => Store::create_on(files, salts),
            (files, false) => Store::open_on_in(engine, files, mode, salts),
        }
    }
}
