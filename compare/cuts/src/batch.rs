//! A batch by document 01: `MVCC0001`, commit time, records; read, written, and drawn at random.
use crate::judge::Number;
use splitmix::Random;

pub const BODY: usize = 4096;
const HEAD: usize = 18;

#[derive(Clone, Debug, PartialEq, Eq)]
pub struct Batch {
    pub commit_time: u64,
    pub records: Vec<Record>,
}

/// Without columns (`None`) a tombstone, else present.
#[derive(Clone, Debug, PartialEq, Eq)]
pub struct Record {
    pub table: String,
    pub row_id: i64,
    pub columns: Option<Vec<(String, Value)>>,
}

/// "A float is its bits."
#[derive(Clone, Debug, PartialEq, Eq)]
pub enum Value {
    Null,
    Integer(i64),
    Real(u64),
    Text(String),
    Bool(bool),
    Vector(Vec<u32>),
}

impl Batch {
    /// Document 02, P14: a record is an item, and each of its columns.
    pub fn items(&self) -> usize {
        let columns = self.records.iter().flat_map(|record| &record.columns);
        self.records.len() + columns.map(Vec::len).sum::<usize>()
    }

    /// All its texts: each record's table, then its columns' names and texts.
    pub fn texts(&self) -> Vec<&str> {
        let mut texts: Vec<&str> = Vec::new();
        for record in &self.records {
            texts.push(&record.table);
            for (name, value) in record.columns.iter().flatten() {
                texts.push(name);
                if let Value::Text(text) = value {
                    texts.push(text);
                }
            }
        }
        texts
    }
}

/// Reads a body byte by byte.
struct Cursor<'a>(&'a [u8]);

impl<'a> Cursor<'a> {
    /// "17: a batch field runs past the body".
    fn bytes(&mut self, count: usize) -> Result<&'a [u8], Number> {
        let (field, rest) = self.0.split_at_checked(count).ok_or(17u32)?;
        self.0 = rest;
        Ok(field)
    }

    /// A little-endian number of so many bytes.
    fn number(&mut self, bytes: usize) -> Result<u64, Number> {
        let field = self.bytes(bytes)?;
        Ok(field
            .iter()
            .rev()
            .fold(0, |n, &byte| n << 8 | u64::from(byte)))
    }

    /// "19: not UTF-8".
    fn text(&mut self, length_bytes: usize) -> Result<String, Number> {
        let length = self.number(length_bytes)? as usize;
        let bytes = self.bytes(length)?;
        String::from_utf8(bytes.to_vec()).map_err(|_| 19)
    }

    /// "Value tag: 0 null; 1 integer (8, signed); 2 real (8); 3 text with a 4-byte length; 4 bool
    /// (1, nonzero is true); 5 vector, count (4) and f32s."
    fn value(&mut self) -> Result<Value, Number> {
        Ok(match self.number(1)? {
            0 => Value::Null,
            1 => Value::Integer(self.number(8)? as i64),
            2 => Value::Real(self.number(8)?),
            3 => Value::Text(self.text(4)?),
            4 => Value::Bool(self.number(1)? != 0),
            5 => {
                let count = self.number(4)? as usize;
                let mut floats = Cursor(self.bytes(count * 4)?);
                let each = (0..count).map(|_| floats.number(4).map(|bits| bits as u32));
                Value::Vector(each.collect::<Result<_, _>>()?)
            }
            _ => return Err(18),
        })
    }

    /// "Record: op (1: 0 tombstone, 1 present), table text, row id (8, signed); if present a
    /// column count (2) and columns, each a name text and a value." "An op is judged after table
    /// and row id are read."
    fn record(&mut self) -> Result<Record, Number> {
        let op = self.number(1)?;
        let table = self.text(2)?;
        let row_id = self.number(8)? as i64;
        let columns = match op {
            0 => None,
            1 => {
                let count = self.number(2)?;
                let each = (0..count).map(|_| Ok((self.text(2)?, self.value()?)));
                Some(each.collect::<Result<_, Number>>()?)
            }
            _ => return Err(18),
        };
        Ok(Record {
            table,
            row_id,
            columns,
        })
    }
}

/// "2: batch body under 18"; "3: wrong leading bytes".
pub fn judge_head(body: &[u8]) -> Result<(), Number> {
    match body {
        _ if body.len() < HEAD => Err(2),
        [b'M', b'V', b'C', b'C', b'0', b'0', b'0', b'1', ..] => Ok(()),
        _ => Err(3),
    }
}

/// "Body: `MVCC0001`, commit time (8), record count (2), records." "Bytes after the last record
/// are ignored on reading".
pub fn decode(body: &[u8]) -> Result<Batch, Number> {
    judge_head(body)?;
    let mut cursor = Cursor(&body[8..]);
    let commit_time = cursor.number(8)?;
    let count = cursor.number(2)?;
    let records = (0..count).map(|_| cursor.record());
    Ok(Batch {
        commit_time,
        records: records.collect::<Result<_, _>>()?,
    })
}

fn put_text(out: &mut Vec<u8>, text: &str) {
    out.extend((text.len() as u16).to_le_bytes());
    out.extend(text.as_bytes());
}

fn put_value(out: &mut Vec<u8>, value: &Value) {
    match value {
        Value::Null => out.push(0),
        Value::Integer(n) => {
            out.push(1);
            out.extend(n.to_le_bytes());
        }
        Value::Real(bits) => {
            out.push(2);
            out.extend(bits.to_le_bytes());
        }
        Value::Text(text) => {
            out.push(3);
            out.extend((text.len() as u32).to_le_bytes());
            out.extend(text.as_bytes());
        }
        Value::Bool(b) => out.extend([4, u8::from(*b)]),
        Value::Vector(floats) => {
            out.push(5);
            out.extend((floats.len() as u32).to_le_bytes());
            out.extend(floats.iter().flat_map(|bits| bits.to_le_bytes()));
        }
    }
}

fn put_record(out: &mut Vec<u8>, record: &Record) {
    out.push(u8::from(record.columns.is_some()));
    put_text(out, &record.table);
    out.extend(record.row_id.to_le_bytes());
    if let Some(columns) = &record.columns {
        out.extend((columns.len() as u16).to_le_bytes());
        for (name, value) in columns {
            put_text(out, name);
            put_value(out, value);
        }
    }
}

/// The batch's bytes without the zeros that fill the body.
pub fn encode_short(batch: &Batch) -> Vec<u8> {
    let mut out = b"MVCC0001".to_vec();
    out.extend(batch.commit_time.to_le_bytes());
    out.extend((batch.records.len() as u16).to_le_bytes());
    for record in &batch.records {
        put_record(&mut out, record);
    }
    out
}

/// "Bytes after the last record are .. zero on writing."
pub fn encode(batch: &Batch) -> Vec<u8> {
    let mut out = encode_short(batch);
    assert!(out.len() <= BODY);
    out.resize(BODY, 0);
    out
}

fn draw_text(random: &mut Random) -> String {
    let parts = ["", "t", "rows", "pylône", "雪", "🚡", "\0", "a b"];
    (0..random.below(3)).map(|_| random.pick(&parts)).collect()
}

fn draw_value(random: &mut Random) -> Value {
    match random.below(6) {
        0 => Value::Null,
        1 => Value::Integer(random.u64() as i64),
        2 => Value::Real(random.pick(&[0, 1 << 63, 0x7ff8_0000_0000_0001, random.clone().u64()])),
        3 => Value::Text(draw_text(random).repeat(random.below(4))),
        4 => Value::Bool(random.one_in(2)),
        _ => Value::Vector((0..random.below(5)).map(|_| random.u32()).collect()),
    }
}

fn draw_record(random: &mut Random) -> Record {
    let columns = match random.below(3) {
        0 => None,
        _ => Some(
            (0..random.below(5))
                .map(|_| (draw_text(random), draw_value(random)))
                .collect(),
        ),
    };
    Record {
        table: draw_text(random),
        row_id: random.u64() as i64,
        columns,
    }
}

/// Of every size, and now and then at a border.
fn draw_time(random: &mut Random) -> u64 {
    match random.one_in(40) {
        true => random.pick(&[0, 1 << 63, u64::MAX - 1, u64::MAX]),
        false => random.u64() >> random.below(64),
    }
}

/// A batch that fits a body.
pub fn draw(random: &mut Random) -> Batch {
    let most = random.pick(&[0, 1, 1, 2, 5]);
    Batch {
        commit_time: draw_time(random),
        records: (0..most).map(|_| draw_record(random)).collect(),
    }
}

/// A body: mostly a good one, short or filled up; else damaged in one of several ways.
pub fn draw_body(random: &mut Random) -> Vec<u8> {
    let mut body = encode_short(&draw(random));
    match random.below(12) {
        0 => body.resize(BODY, 0),
        1 => {
            let end = body.len();
            body.resize(BODY, 0);
            random.fill(&mut body[end..]);
        }
        2 => body.truncate(random.below(body.len() + 1)),
        3 | 4 | 6 => {
            let from = random.pick(&[0, HEAD - 2, HEAD]).min(body.len() - 1);
            let at = random.between(from, body.len() - 1);
            body[at] = body[at].wrapping_add(random.pick(&[1, 6, 0x80, 0xff]));
        }
        5 => body.resize(BODY + 1 + random.below(9), 0),
        _ => (),
    }
    body
}
