//! Document 01's refusals that the Rust has not, judged before it is asked,
//! and the numbers of those it has, told from its errors.

use engine::error::SQLRiteError;
use engine::mvcc::{MVCC_FRAME_MARKER, MvccCommitBatch};
use engine::sql::pager::header::{DbHeader, decode_header};
use engine::sql::pager::page::PAGE_SIZE;
use lists::{batch, log, refusal};

use super::model::Model;
use crate::side::{Answer, Refused};

const LOG_AREA: usize = 4_210_720;
const MAIN_AREA: usize = 4_194_304;
const FRAME: usize = 4_112;
const MOST_PAGES: u32 = 1_024;
/// Document 02, P9: "refusal 12 when 24 other pages are staged". The Rust has no such limit.
pub const MOST_STAGED: usize = 24;

fn unless(number: u32, refused: bool) -> Answer<()> {
    match refused {
        true => Err(Refused::by(number)),
        false => Ok(()),
    }
}

/// What comes before the Rust's own opening. "Area | 1 | .. a file length
/// above its area".
///
/// The Rust asks for memory by the main header's page count before it reads
/// a page; for a huge one the process would end. So where no main file can
/// be long enough, "MainShort | 7 | main below page count × 4,096" is told
/// without it (DIFFERENCES.md, "opening a main file with a huge page count").
pub fn before_opening(main: &[u8], log: usize) -> Answer<()> {
    unless(1, main.len() > MAIN_AREA || log > LOG_AREA)?;
    let count = main_header(main).map_or(0, |header| header.page_count);
    unless(7, count > 64 * MOST_PAGES)
}

/// "a log read without the pager may be any bytes up to the log area's
/// length"; a longer one is refused with 1.
pub fn before_listing(log: &[u8]) -> Answer<()> {
    unless(1, log.len() > LOG_AREA)
}

/// The main file's own header, if it has one.
pub fn main_header(main: &[u8]) -> Option<DbHeader> {
    decode_header(main.get(..PAGE_SIZE)?).ok()
}

/// "6 for the final count": "Limit | 6 | opening: a page count above 1,024".
pub fn after_opening(header: DbHeader) -> Answer<()> {
    unless(6, header.page_count > MOST_PAGES)
}

/// The number of an opening that the Rust refuses. Its words for a main
/// header and for the log's page 0 are the same: it is page 0 ("PageZero | 8
/// | the log's page 0 has refusal 3, 4 or 5") if the main header is good.
pub fn of_opening(error: &SQLRiteError, main: &[u8]) -> Refused {
    let page_zero = main_header(main).is_some();
    let header = |number| if page_zero { 8 } else { number };
    let short = if main.len() < PAGE_SIZE { 2 } else { 7 };
    let mut parts = vec![
        ("failed to fill whole buffer", short),
        ("entity not found", short),
        ("(bad magic bytes)", header(3)),
        ("unsupported SQLRite format version", header(4)),
        ("unsupported page size", header(5)),
        POWER_IS_OFF,
    ];
    parts.extend(log::oracle::REFUSALS);
    Refused::by(refusal::number(error, &parts))
}

/// A call that was cut ends with an error, too.
const POWER_IS_OFF: (&str, u32) = ("the power is off", 0);

/// The number of another call that the Rust refuses.
pub fn of_call(error: &SQLRiteError) -> Refused {
    let parts = [("database is opened read-only", 10), POWER_IS_OFF];
    Refused::by(refusal::number(error, &parts))
}

/// "The commit point is the end of the last seal, else 32." The frames are
/// as many as the Rust counts; "a final undecodable batch frame" is counted
/// but isn't good, so it is no commit frame.
pub fn commit_point(log: &[u8], frames: usize) -> usize {
    let places = (0..frames).rev().map(|index| 32 + FRAME * index);
    let last = places
        .into_iter()
        .find(|place| is_commit_frame(&log[*place..place + FRAME]));
    last.map_or(32, |place| place + FRAME)
}

fn is_commit_frame(frame: &[u8]) -> bool {
    let number = |at: usize| u32::from_le_bytes(frame[at..at + 4].try_into().expect("four bytes"));
    number(4) != 0
        && (number(0) != MVCC_FRAME_MARKER || MvccCommitBatch::decode(&frame[16..]).is_ok())
}

/// "Area | 1 | a wrong area length" for what isn't a page; "Page | 11 |
/// staging above 1,023"; "Staging | 12 |", as many other pages are staged
/// as can be.
pub fn of_staging(model: &Model, page: u32, bytes: &[u8]) -> Answer<()> {
    unless(1, bytes.len() != PAGE_SIZE)?;
    unless(11, page >= MOST_PAGES)?;
    let others = model.staged.keys().filter(|staged| **staged != page);
    unless(12, others.count() >= MOST_STAGED)
}

/// "a body lent for it is decoded first, with decoding's refusals", and
/// "Lowest number first": 1, 2 and 3 come before 10 and 15, and 17 to 19
/// after these. The Rust's own call takes a batch that has been decoded.
pub fn of_batch(body: &[u8], read_only: bool, log: usize) -> Answer<MvccCommitBatch> {
    unless(1, body.len() > PAGE_SIZE)?;
    let decoded = MvccCommitBatch::decode(body)
        .map_err(|error| Refused::by(refusal::number(&error, &batch::REFUSALS)));
    if let Err(refused) = decoded
        && refused.number < 10
    {
        return Err(refused);
    }
    unless(10, read_only)?;
    room(log, 1)?;
    decoded
}

/// "LogFull | 15 | length + 4,112 × frames to add is above 4,210,720".
fn room(log: usize, frames: usize) -> Answer<()> {
    unless(15, log + FRAME * frames > LOG_AREA)
}

/// "NewHeader | 13 | commit count 0 or above 1,024, version not 4..6";
/// "Joining, lowest page | 14 | a page, 1 or higher, from old count to below
/// new count isn't staged"; then 15 for the differing pages and the commit
/// frame.
pub fn of_commit(model: &Model, old: DbHeader, new: DbHeader, log: usize) -> Answer<()> {
    let count = new.page_count;
    unless(13, count == 0 || count > MOST_PAGES)?;
    unless(13, !(4..=6).contains(&new.format_version))?;
    let missing = (old.page_count.max(1)..count).find(|page| !model.staged.contains_key(page));
    if missing.is_some() {
        return Err(Refused {
            number: 14,
            page: missing,
        });
    }
    room(log, model.differing() + 1)
}
