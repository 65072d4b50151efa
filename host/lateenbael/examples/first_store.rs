//! A store made, written and read back: pages, a batch of rows, and what a refusal looks like.
//!
//!     cargo run --offline --example first_store -- FOLDER/grips
use lateenbael::{BatchBuilder, Error, Mode, Store};
use std::env;
use std::path::Path;
use std::process::ExitCode;

fn main() -> ExitCode {
    let Some(path) = env::args_os().nth(1) else {
        eprintln!("first_store: which file? The store is made there, and must not be there yet");
        return ExitCode::from(2);
    };
    match run(Path::new(&path)) {
        Ok(()) => ExitCode::SUCCESS,
        Err(error) => {
            eprintln!("first_store: {error}");
            ExitCode::FAILURE
        }
    }
}

fn run(path: &Path) -> Result<(), Error> {
    let mut store = Store::create(path)?;
    let mut header = store.header()?;
    println!("created with {} pages", header.page_count);

    // A new store has pages 0, which is the header's, and 1. A commit that raises the count brings its new pages.
    for page in [2, 3] {
        store.stage_page(page, &[page as u8; 4096])?;
    }
    header.page_count = 4;
    store.append_mvcc_batch(readings()?.body())?;
    let differed = store.commit(header)?;
    println!(
        "committed: {differed} pages; {} frames before a checkpoint",
        store.frames_before_checkpoint()?
    );

    // A refusal names its reason, and changes nothing.
    header.page_count = 9;
    match store.commit(header) {
        Err(Error::Joining { page }) => println!("refused: page {page} is missing"),
        other => println!("{other:?}"),
    }
    drop(store);
    show(path)
}

/// Two rows: one that is there, with its columns, and one that is gone.
fn readings() -> Result<BatchBuilder, Error> {
    let mut batch = BatchBuilder::new(1);
    batch.begin_present("grips", 7)?;
    batch.add_column("force", 412.into())?;
    batch.add_column("note", "after lunch".into())?;
    batch.add_tombstone("cabins", 41)?;
    Ok(batch)
}

/// What an opening finds.
fn show(path: &Path) -> Result<(), Error> {
    let store = Store::open(path, Mode::ReadOnly)?;
    for page in 1..store.header()?.page_count {
        match store.read_page(page)? {
            Some(bytes) => println!("page {page} begins with {:?}", &bytes[..4]),
            None => println!("page {page} is nowhere"),
        }
    }
    for batch in store.recovered_mvcc_commits()? {
        for record in batch.records() {
            println!("row {} of {}: {:?}", record.rowid, record.table, record.columns);
        }
    }
    Ok(())
}
