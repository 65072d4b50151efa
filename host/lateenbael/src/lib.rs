//! Lateenbael for programs in Rust: a log and pager whose every function is proved.
//!
//! [`Store`] is a store on two real files; [`Engine`] is the same in memory, with the areas that the proved calls work in.
//!
//! A commit that has returned is on the medium. Batches end with a checkpoint, and a commit that brings the log to 100 frames brings one
//! on: [`Store::frames_before_checkpoint`] tells how near it is, and [`Store::preview`] shows a commit before it is made. A store whose
//! disk has failed stops, and is opened again. What else is promised on files stands in host/README.
//!
//! ```
//! use lateenbael::{BatchBuilder, Mode, Store, Value};
//!
//! # fn main() -> Result<(), Box<dyn std::error::Error>> {
//! # let folder = std::env::temp_dir().join(format!("lateenbael-doc-{}", std::process::id()));
//! # std::fs::create_dir_all(&folder)?;
//! let path = folder.join("grips");
//! let mut store = Store::create(&path)?;
//!
//! let mut batch = BatchBuilder::new(1);
//! batch.begin_present("grips", 7)?;
//! batch.add_column("force", Value::Integer(412))?;
//! store.append_mvcc_batch(batch.body())?;
//! store.stage_page(2, &[7; 4096])?;
//! let mut header = store.header()?;
//! header.page_count = 3;
//! assert_eq!(store.commit(header)?, 1);
//! drop(store);
//!
//! let store = Store::open(&path, Mode::ReadOnly)?;
//! assert_eq!(store.read_page(2)?, Some(&[7; 4096]));
//! assert_eq!(store.recovered_mvcc_commits()?.count(), 1);
//! # drop(store);
//! # std::fs::remove_dir_all(&folder)?;
//! # Ok(())
//! # }
//! ```
#![warn(missing_docs, clippy::undocumented_unsafe_blocks)]

mod batch;
mod creation;
mod direct;
mod disk;
mod dry_run;
mod engine;
mod error;
mod files;
mod lock;
mod log;
mod named;
mod options;
mod power_cut;
mod refusal;
mod salts;
mod settle;
mod snapshot;
mod store;
mod text;

pub use batch::{Batch, BatchBuilder, Column, Columns, Record, Report, Value, Vector};
pub use disk::{Comparison, Disk};
pub use dry_run::DryRun;
pub use engine::{Area, Engine, Preview, RecoveredBatch, Step, Write};
pub use error::Error;
pub use files::Files;
pub use lateenbael_sys as sys;
pub use lateenbael_sys::DbHeader;
pub use log::{Frame, Log, LogFile};
pub use named::wal_path_for;
pub use options::{DEFAULT_WAIT, Mode, OpenOptions};
pub use power_cut::PowerCut;
pub use refusal::Refusal;
pub use salts::{Salts, salts_of_the_clock};
pub use snapshot::{Page, Snapshot, SnapshotError};
pub use store::Store;
pub use text::Text;

/// The crate's version.
pub const VERSION: &str = env!("CARGO_PKG_VERSION");
