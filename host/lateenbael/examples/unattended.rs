//! How a controller that nobody attends to keeps its store. The last force of each of 40 grips stands in page 2; a reading is committed
//! as a batch, which is quicker than the page. At the start the page and the batches are read, and before a checkpoint takes the batches
//! away, the page is written. After a failure the store is opened anew.
//!
//!     cargo run --offline --example unattended -- FOLDER/grips
use lateenbael::{BatchBuilder, DbHeader, Error, OpenOptions, Store, Value};
use std::env;
use std::path::{Path, PathBuf};
use std::process::ExitCode;
use std::time::Duration;

const TRIES: usize = 3;
const GRIPS: usize = 40;
const PAGE: u32 = 2;

fn main() -> ExitCode {
    let Some(path) = env::args_os().nth(1).map(PathBuf::from) else {
        eprintln!("unattended: which file?");
        return ExitCode::from(2);
    };
    for _ in 0..TRIES {
        match run(&path) {
            Ok(()) => return ExitCode::SUCCESS,
            // A store that has stopped is opened again: it then goes by what is on the medium.
            Err(error @ (Error::Io { .. } | Error::Stopped | Error::Locked { .. })) => eprintln!("unattended: {error}; trying again"),
            Err(error) => {
                eprintln!("unattended: {error}");
                return ExitCode::FAILURE;
            }
        }
    }
    ExitCode::FAILURE
}

fn run(path: &Path) -> Result<(), Error> {
    let mut store = OpenOptions::new().create(true).wait(Duration::from_secs(10)).open(path)?;
    let mut forces = read_forces(&store)?;
    println!("found {} readings, {} batches", forces.iter().sum::<i64>(), store.batch_count()?);
    for reading in 0..230 {
        let grip = reading % GRIPS;
        forces[grip] += 1;
        // Two frames: the batch's and the commit's.
        if store.frames_before_checkpoint()? < 2 {
            keep(&mut store, &forces)?;
        } else {
            record(&mut store, grip, forces[grip])?;
        }
    }
    Ok(())
}

/// What page 2 says, and what the committed batches say since.
fn read_forces(store: &Store) -> Result<[i64; GRIPS], Error> {
    let mut forces = [0; GRIPS];
    if let Some(page) = store.read_page(PAGE)? {
        for (force, bytes) in forces.iter_mut().zip(page.as_chunks().0) {
            *force = i64::from_le_bytes(*bytes);
        }
    }
    for record in store.recovered_mvcc_commits()?.flat_map(|batch| batch.records()) {
        if let Some(Value::Integer(force)) = record.columns.and_then(|mut columns| columns.next()).map(|column| column.value) {
            forces[record.rowid as usize % GRIPS] = force;
        }
    }
    Ok(forces)
}

/// Commits one grip's force as a batch.
fn record(store: &mut Store, grip: usize, force: i64) -> Result<(), Error> {
    let mut batch = BatchBuilder::new(force as u64);
    batch.begin_present("grips", grip as i64)?;
    batch.add_column("force", force.into())?;
    store.append_mvcc_batch(batch.body())?;
    let header = store.header()?;
    store.commit(header).map(drop)
}

/// Writes all forces to page 2; with the checkpoint behind it the batches go.
fn keep(store: &mut Store, forces: &[i64; GRIPS]) -> Result<(), Error> {
    let mut page = [0; 4096];
    for (bytes, force) in page.chunks_exact_mut(8).zip(forces) {
        bytes.copy_from_slice(&force.to_le_bytes());
    }
    store.stage_page(PAGE, &page)?;
    let header = store.header()?;
    store.commit(DbHeader {
        page_count: header.page_count.max(PAGE + 1),
        ..header
    })?;
    store.checkpoint().map(drop)
}
