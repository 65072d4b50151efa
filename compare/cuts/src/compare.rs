//! An open store against the model.
use crate::batch;
use crate::expected::Expected;
use crate::judge::{Answer, Refused, STAGED};
use crate::port;
use crate::writes::FRAME;
use crate::wrong::Wrong;
use lateenbael::{Engine, sys};

/// What was found different, in words.
pub type Check = Result<(), String>;

pub fn ensure(holds: bool, what: impl FnOnce() -> String) -> Check {
    if holds { Ok(()) } else { Err(what()) }
}

fn first_bytes(page: Option<&[u8]>) -> String {
    page.map_or("no page".into(), |bytes| {
        format!("a page {:02x?} ..", &bytes[..8])
    })
}

/// An answer, in words.
fn shown(answer: &Result<Answer, Refused>) -> String {
    match answer {
        Err((14, page)) => format!("refused 14 {page}"),
        Err((number, _)) => format!("refused {number}"),
        Ok(Answer::Page(page)) => first_bytes(page.as_deref()),
        Ok(Answer::Status(header, clock, read_only)) => {
            format!("{header}, clock {clock}, read-only {read_only}")
        }
        Ok(answer) => format!("{answer:?}"),
    }
}

/// The port's answer against the document's.
pub fn compare_answers(found: &Result<Answer, Refused>, wanted: &Result<Answer, Refused>) -> Check {
    ensure(found == wanted, || {
        format!(
            "the port answers {}, the document {}",
            shown(found),
            shown(wanted)
        )
    })
}

/// What a call leaves that alters nothing: the store, table and staging, and behind the files more
/// of their areas than a commit may write. (The files' own bytes are compared after every call.)
#[derive(PartialEq)]
pub struct Untouched {
    store: sys::Store,
    table: Box<[u32]>,
    staging: Box<[u8]>,
    behind: [Vec<u8>; 2],
}

impl Untouched {
    pub fn new(engine: &Engine) -> Untouched {
        let files = [
            (&engine.log, engine.log_file()),
            (&engine.main, engine.main_file()),
        ];
        Untouched {
            store: *engine.store(),
            table: engine.table.clone(),
            staging: engine.staging.clone(),
            behind: files.map(|(area, file)| {
                let behind = &area[file.len()..];
                behind[..behind.len().min(FRAME * (STAGED + 2))].to_vec()
            }),
        }
    }
}

/// Header and clock, and that the store can be written.
pub fn compare_header(engine: &Engine, expected: &Expected) -> Check {
    let wanted = Answer::Status(expected.model.header, expected.clock, false);
    compare_answers(&port::query(engine), &Ok(wanted))
}

/// Every page's reading from 1 to 1,023.
pub fn compare_pages(engine: &Engine, expected: &Expected) -> Check {
    for page in 1..1024 {
        let found = engine
            .read_page(page)
            .map_err(|refusal| format!("page {page}: {refusal}"))?;
        let found = found.map(|bytes| &bytes[..]);
        let wanted = expected.model.read(page).map(|bytes| &bytes[..]);
        let what = || {
            format!(
                "page {page} reads {}, by the book {}",
                first_bytes(found),
                first_bytes(wanted)
            )
        };
        ensure(found == wanted, what)?;
    }
    Ok(())
}

/// The recovered batches, in order, each as `encode` writes it and as the port reads it.
pub fn compare_batches(engine: &Engine, expected: &Expected) -> Check {
    let mut index = 0;
    let mut wanted = expected.model.committed.iter();
    loop {
        let found = engine
            .recovered(index)
            .map_err(|refusal| format!("batches: {refusal}"))?;
        let (found, batch) = match (found, wanted.next()) {
            (None, None) => return Ok(()),
            (None, Some(batch)) => {
                return Err(format!("the batch of time {} is lost", batch.commit_time));
            }
            (Some(found), None) => {
                return Err(format!(
                    "a batch at index {} that the book hasn't",
                    found.index
                ));
            }
            (Some(found), Some(batch)) => (found, batch),
        };
        let body = &engine.log[found.body..][..batch::BODY];
        let same = batch::decode(body).as_ref() == Ok(&**batch) && body == batch::encode(batch);
        let what = || {
            format!(
                "the batch at index {} isn't the book's of time {}",
                found.index, batch.commit_time
            )
        };
        ensure(same, what)?;
        compare_reading(body, batch, expected.wrong)?;
        index = found.index + 1;
    }
}

/// What the port reads in a batch's bytes: the same batch, and the number of its items and of the
/// characters of each of its texts.
fn compare_reading(body: &[u8], batch: &batch::Batch, wrong: Wrong) -> Check {
    let time = batch.commit_time;
    let read = port::read_batch(body)
        .map_err(|(number, _)| format!("the port refuses the batch of time {time}: {number}"))?;
    ensure(read.batch == *batch, || {
        format!(
            "the port reads the batch of time {time} as {:?}",
            read.batch
        )
    })?;
    compare_items(read.items, batch, wrong)?;
    compare_chars(&read.chars, batch, wrong)
}

/// By the records and columns of the model's batch.
fn compare_items(found: usize, batch: &batch::Batch, wrong: Wrong) -> Check {
    let items = match wrong {
        Wrong::RecordsCounted => batch.records.len(),
        _ => batch.items(),
    };
    ensure(found == items, || {
        let time = batch.commit_time;
        format!("the batch of time {time} has {items} items, with the port {found}")
    })
}

/// By the Standard's rule.
fn compare_chars(found: &[usize], batch: &batch::Batch, wrong: Wrong) -> Check {
    let count = |text: &str| match wrong {
        Wrong::BytesCounted => Some(text.len()),
        _ => characters::count(text.as_bytes()),
    };
    let texts = batch.texts();
    let counts: Vec<_> = texts.iter().filter_map(|text| count(text)).collect();
    ensure(found == counts, || {
        format!("{texts:?} have {counts:?} characters, with the port {found:?}")
    })
}
