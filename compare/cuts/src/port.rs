//! One call, given to the port through its C interface; and a batch as the port reads it.
use crate::batch;
use crate::call::{AreaName, Call, Fault, page_bytes};
use crate::expected::encode_header;
use crate::judge::{Answer, Preview, Refused};
use crate::model::{Header, PAGE};
use crate::writes::{FRAME, LOG_HEADER};
use lateenbael::sys::{DbHeader, LOG_AREA, MAIN_AREA};
use lateenbael::{Engine, Refusal, Step, Text, Value};

fn refused(refusal: Refusal) -> Refused {
    (refusal.number(), 0)
}

fn refused_commit((refusal, missing): (Refusal, usize)) -> Refused {
    let missing = if refusal == Refusal::Joining {
        missing
    } else {
        0
    };
    (refusal.number(), missing)
}

pub fn to_port(header: &Header) -> DbHeader {
    DbHeader {
        page_count: header.page_count,
        schema_root_page: header.schema_root,
        format_version: header.version,
        freelist_head: header.freelist_head,
    }
}

pub fn from_port(header: &DbHeader) -> Header {
    Header {
        page_count: header.page_count,
        schema_root: header.schema_root_page,
        version: header.format_version,
        freelist_head: header.freelist_head,
    }
}

/// Gives the call to the engine as it stands. A cut is not a call of its own.
pub fn run(engine: &mut Engine, call: &Call) -> Result<Answer, Refused> {
    let nothing = |()| Answer::Nothing;
    match call {
        Call::Stage(page, seed, len) => engine
            .stage_page(*page, &page_bytes(*seed, *len))
            .map(nothing),
        Call::DropStaging => engine.clear_staged().map(nothing),
        Call::Read(page) => engine
            .read_page(*page)
            .map(|bytes| Answer::Page(bytes.map(|bytes| bytes[..].into()))),
        Call::Query => return query(engine),
        Call::Clock(value) => engine.observe_clock_high_water(*value).map(nothing),
        Call::Append(body) => engine
            .append_mvcc_batch(body)
            .map(|write| Answer::Stored(write, None)),
        Call::Preview(header) => return preview(engine, header).map(Answer::Preview),
        Call::BeginCommit(header, salt) => {
            let begun = engine.begin_commit(to_port(header), *salt);
            return begun.map(|()| Answer::Begun(true)).map_err(refused_commit);
        }
        Call::Commit(header, salt) => {
            let number = engine.commit(to_port(header), *salt);
            return number.map(Answer::Number).map_err(refused_commit);
        }
        Call::BeginCheckpoint(salt) => engine.begin_checkpoint(*salt).map(Answer::Begun),
        Call::Checkpoint(salt) => engine.checkpoint(*salt).map(Answer::Number),
        Call::Step => step(engine),
        Call::Open => reopen(engine, None, None, false).map(nothing),
        Call::BadOpen(fault, read_only) => bad_open(engine, *fault, *read_only).map(nothing),
        Call::Short(area, call) => return short(engine, *area, call),
        Call::Cut(..) => unreachable!("a cut is made by the one who carries the stores"),
    }
    .map_err(refused)
}

/// Header, clock and mode.
pub fn query(engine: &Engine) -> Result<Answer, Refused> {
    let header = from_port(&engine.header().map_err(refused)?);
    let clock = engine.clock_high_water().map_err(refused)?;
    Ok(Answer::Status(
        header,
        clock,
        engine.is_read_only().map_err(refused)?,
    ))
}

fn preview(engine: &Engine, header: &Header) -> Result<Preview, Refused> {
    let shown = engine.preview_commit(to_port(header));
    let shown = shown.map_err(refused_commit)?;
    Ok(Preview {
        answer: shown.answer,
        frames: shown.frame_count,
        log_len: shown.log_len,
        main_len: shown.main_len,
        checkpoints: shown.checkpointed,
    })
}

fn step(engine: &mut Engine) -> Result<Answer, Refusal> {
    Ok(match engine.next_step()? {
        Step::Idle => Answer::Idle,
        Step::Stored(write) => Answer::Stored(write, None),
        Step::Last(write, answer) => Answer::Stored(write, Some(answer)),
    })
}

/// A clean opening of what lies in the areas, of these lengths or those that the engine has.
fn reopen(
    engine: &mut Engine,
    main: Option<usize>,
    log: Option<usize>,
    read_only: bool,
) -> Result<(), Refusal> {
    let main = main.unwrap_or(engine.store().storage.len);
    let log = log.unwrap_or(engine.store().wal.len);
    engine.reopen(true, main, Some(log), read_only, 1)
}

fn bad_open(engine: &mut Engine, fault: Fault, read_only: bool) -> Result<(), Refusal> {
    match fault {
        Fault::ReadOnly => reopen(engine, None, None, read_only),
        Fault::MainAboveArea => reopen(engine, Some(MAIN_AREA + 1), None, read_only),
        Fault::LogAboveArea => reopen(engine, None, Some(LOG_AREA + 1), read_only),
        Fault::MainUnderPage => reopen(engine, Some(PAGE - 1), None, read_only),
        Fault::LogUnderHeader => reopen(engine, None, Some(LOG_HEADER - 1), read_only),
        Fault::MainByte(at, _) => {
            engine.main[at] ^= 0x40;
            let answer = reopen(engine, None, None, read_only);
            engine.main[at] ^= 0x40;
            answer
        }
        Fault::LogByte(at, _) => {
            engine.log[at] ^= 0x40;
            let answer = reopen(engine, None, None, read_only);
            engine.log[at] ^= 0x40;
            answer
        }
        Fault::MainBelowCount => {
            let count = u32::from_le_bytes(engine.main[20..24].try_into().unwrap());
            reopen(engine, Some(count as usize * PAGE - 1), None, read_only)
        }
        Fault::PageZeroBad => open_with_page_zero(engine, &[7; PAGE], read_only),
        Fault::PageZeroCount(page_count) => {
            let mut header = from_port(&engine.store().current_header);
            header.page_count = page_count;
            open_with_page_zero(engine, &encode_header(&header), read_only)
        }
    }
}

/// Behind the log's length stands a good commit frame of page 0, and the opening is given
/// a length that includes it.
fn open_with_page_zero(engine: &mut Engine, body: &[u8], read_only: bool) -> Result<(), Refusal> {
    let len = engine.store().wal.len;
    let mut heading = [0u32.to_le_bytes(), 2u32.to_le_bytes()].concat();
    heading.extend(&engine.log[16..20]);
    // "Start at 0; for each of 12 heading bytes, then 4,096 body bytes, rotate the 32-bit sum left
    // by 1 and add the byte, wrapping."
    let add = |sum: u32, byte: &u8| sum.rotate_left(1).wrapping_add((*byte).into());
    let sum = heading.iter().chain(body).fold(0, add);
    heading.extend(sum.to_le_bytes());
    engine.log[len..][..FRAME].copy_from_slice(&[&heading, body].concat());
    reopen(engine, None, Some(len + FRAME), read_only)
}

fn short(engine: &mut Engine, area: AreaName, call: &Call) -> Result<Answer, Refused> {
    fn without_last<T: Clone + Default>(area: &mut Box<[T]>) -> Box<[T]> {
        let less = vec![T::default(); area.len() - 1];
        std::mem::replace(area, less.into())
    }
    let answer = match area {
        AreaName::Table => {
            let whole = without_last(&mut engine.table);
            engine.check_readable();
            let answer = run(engine, call);
            engine.table = whole;
            answer
        }
        _ => {
            let whole = without_last(area_bytes(engine, area));
            engine.check_readable();
            let answer = run(engine, call);
            *area_bytes(engine, area) = whole;
            answer
        }
    };
    engine.check_readable();
    answer
}

fn area_bytes(engine: &mut Engine, area: AreaName) -> &mut Box<[u8]> {
    match area {
        AreaName::Log => &mut engine.log,
        AreaName::Main => &mut engine.main,
        AreaName::Table | AreaName::Staging => &mut engine.staging,
    }
}

/// A batch, and the numbers that come with it.
#[derive(Debug, PartialEq, Eq)]
pub struct Reading {
    pub batch: batch::Batch,
    /// Of characters, one with each of its texts.
    pub chars: Vec<usize>,
    pub items: usize,
}

pub fn read_batch(body: &[u8]) -> Result<Reading, Refused> {
    let read = lateenbael::Batch::decode(body).map_err(refused)?;
    let mut chars = Vec::new();
    let mut text = |text: Text| {
        chars.push(text.char_count());
        text.to_string()
    };
    let mut records = Vec::new();
    for record in read.records() {
        let table = text(record.table);
        let columns = record.columns.map(|columns| {
            let column = |column: lateenbael::Column| {
                let name = text(column.name);
                (name, value(column.value, &mut text))
            };
            columns.map(column).collect()
        });
        records.push(batch::Record {
            table,
            row_id: record.rowid,
            columns,
        });
    }
    let commit_time = read.commit_ts();
    Ok(Reading {
        batch: batch::Batch {
            commit_time,
            records,
        },
        chars,
        items: read.item_count(),
    })
}

fn value(value: Value, text: impl FnOnce(Text) -> String) -> batch::Value {
    match value {
        Value::Null => batch::Value::Null,
        Value::Integer(number) => batch::Value::Integer(number),
        Value::Real(real) => batch::Value::Real(real.to_bits()),
        Value::Text(of) => batch::Value::Text(text(of)),
        Value::Bool(is) => batch::Value::Bool(is),
        Value::Vector(vector) => {
            batch::Value::Vector(vector.elements().map(f32::to_bits).collect())
        }
    }
}

#[cfg(test)]
mod tests {
    use super::*;

    #[test]
    fn a_batch_is_read_with_its_numbers() {
        let columns = [
            ("–", batch::Value::Text("🚡 7, pylône".to_string())),
            ("", batch::Value::Vector(vec![0x7f80_0001, 3])),
            ("雪", batch::Value::Bool(true)),
        ];
        let columns = columns.map(|(name, value)| (name.to_string(), value));
        let record = |table: &str, columns| batch::Record {
            table: table.to_string(),
            row_id: -1,
            columns,
        };
        let batch = batch::Batch {
            commit_time: 9,
            records: vec![
                record("Süd", None),
                record("e\u{301}", Some(columns.into())),
            ],
        };
        assert_eq!(batch.items(), 5);
        let read = read_batch(&batch::encode(&batch));
        let wanted = Reading {
            batch,
            chars: vec![3, 2, 1, 11, 0, 1],
            items: 5,
        };
        assert_eq!(read, Ok(wanted));
    }
}
