//! Batches: walking one in its bytes, and building one.
use crate::{Refusal, Text};
use lateenbael_sys as sys;
use std::fmt;
use sys::PAGE_SIZE;

/// The first record's place.
const FIRST_RECORD: usize = 18;

/// A batch in its bytes; all of them are decoded already.
#[derive(Clone, Copy)]
pub struct Batch<'a> {
    body: &'a [u8],
    numbers: sys::Batch,
}

/// What decoding a body came to, and how many items were read.
///
/// A record is an item, and so is each of its columns: a row that is gone counts when its row id is read, one that is there when its
/// column count is, a column when its value is. In a body of up to 4,096 bytes there are at most [`sys::MOST_ITEMS`].
#[derive(Clone, Copy, Debug, PartialEq)]
pub struct Report<'a> {
    /// The batch. Refusals 2, 3 and 17 to 19.
    pub batch: Result<Batch<'a>, Refusal>,
    /// How many items were read; of a refused body those before the refusal.
    pub item_count: usize,
}

/// A record: a row that is gone, or one that is there, with its columns.
#[derive(Clone, Copy, Debug, PartialEq)]
pub struct Record<'a> {
    /// The table's name.
    pub table: Text<'a>,
    /// The row's number.
    pub rowid: i64,
    /// None: a tombstone.
    pub columns: Option<Columns<'a>>,
}

/// A record's columns, in their order.
#[derive(Clone, Copy)]
pub struct Columns<'a> {
    body: &'a [u8],
    at: usize,
    left: usize,
}

/// A column of a row.
#[derive(Clone, Copy, Debug, PartialEq)]
pub struct Column<'a> {
    /// Its name.
    pub name: Text<'a>,
    /// Its value.
    pub value: Value<'a>,
}

/// A column's value.
#[derive(Clone, Copy, Debug, Default, PartialEq)]
pub enum Value<'a> {
    /// No value.
    #[default]
    Null,
    /// A whole number.
    Integer(i64),
    /// A float, exact on bits.
    Real(f64),
    /// A text.
    Text(Text<'a>),
    /// A truth value.
    Bool(bool),
    /// A vector of floats.
    Vector(Vector<'a>),
}

impl From<i64> for Value<'_> {
    fn from(value: i64) -> Self {
        Value::Integer(value)
    }
}

impl From<f64> for Value<'_> {
    fn from(value: f64) -> Self {
        Value::Real(value)
    }
}

impl<'a> From<&'a str> for Value<'a> {
    fn from(value: &'a str) -> Self {
        Value::Text(value.into())
    }
}

impl<'a> From<Text<'a>> for Value<'a> {
    fn from(value: Text<'a>) -> Self {
        Value::Text(value)
    }
}

impl From<bool> for Value<'_> {
    fn from(value: bool) -> Self {
        Value::Bool(value)
    }
}

impl<'a> From<Vector<'a>> for Value<'a> {
    fn from(value: Vector<'a>) -> Self {
        Value::Vector(value)
    }
}

/// A vector of 32-bit floats, as their little-endian bytes.
#[derive(Clone, Copy, Debug, PartialEq)]
pub struct Vector<'a>(pub &'a [u8]);

impl<'a> Vector<'a> {
    /// Its elements.
    pub fn elements(self) -> impl ExactSizeIterator<Item = f32> {
        self.0
            .chunks_exact(4)
            .map(|four| f32::from_le_bytes([four[0], four[1], four[2], four[3]]))
    }

    /// The bytes of some elements.
    pub fn bytes_of(elements: &[f32]) -> Vec<u8> {
        elements.iter().flat_map(|element| element.to_le_bytes()).collect()
    }
}

fn text_at(body: &[u8], place: sys::TextPlace) -> Text<'_> {
    Text::checked(&body[place.start..][..place.len], place.chars)
}

fn value_at(body: &[u8], value: sys::Value) -> Value<'_> {
    match value.tag {
        0 => Value::Null,
        1 => Value::Integer(value.integer),
        2 => Value::Real(f64::from_bits(value.bits)),
        3 => Value::Text(text_at(body, value.place)),
        4 => Value::Bool(value.flag != 0),
        _ => Value::Vector(Vector(&body[value.place.start..][..4 * value.place.len])),
    }
}

impl<'a> Batch<'a> {
    /// Refusals 2, 3 and 17 to 19.
    pub fn decode(body: &'a [u8]) -> Result<Batch<'a>, Refusal> {
        Batch::report(body).batch
    }

    /// The same, with the number of items of a refused body too.
    pub fn report(body: &'a [u8]) -> Report<'a> {
        // SAFETY: a whole slice is lent, which the call reads and does not keep.
        let numbers = unsafe { sys::lateenbael_mvcc_decode(body.as_ptr(), body.len()) };
        Report {
            batch: Refusal::check(numbers.refusal).map(|()| Batch { body, numbers }),
            item_count: numbers.items,
        }
    }

    /// Its commit's time.
    pub fn commit_ts(&self) -> u64 {
        self.numbers.commit_ts
    }

    /// How many records it has.
    pub fn record_count(&self) -> usize {
        self.numbers.records
    }

    /// How many items it has: its records and all their columns. The number is there already, nothing is walked for it.
    pub fn item_count(&self) -> usize {
        self.numbers.items
    }

    /// The bytes it lies in.
    pub fn body(&self) -> &'a [u8] {
        self.body
    }

    /// Its records, in their order.
    pub fn records(&self) -> impl Iterator<Item = Record<'a>> + use<'a> {
        let body = self.body;
        let mut at = FIRST_RECORD;
        (0..self.numbers.records).map_while(move |_| {
            // SAFETY: as above.
            let record = unsafe { sys::lateenbael_mvcc_decode_record(body.as_ptr(), body.len(), at) };
            Refusal::check(record.refusal).ok()?;
            at = record.next;
            let (first, left) = (record.first, record.count);
            Some(Record {
                table: text_at(body, record.table),
                rowid: record.rowid,
                columns: (record.op != 0).then_some(Columns { body, at: first, left }),
            })
        })
    }
}

impl PartialEq for Batch<'_> {
    fn eq(&self, other: &Self) -> bool {
        self.commit_ts() == other.commit_ts() && self.records().eq(other.records())
    }
}

impl fmt::Debug for Batch<'_> {
    fn fmt(&self, f: &mut fmt::Formatter<'_>) -> fmt::Result {
        let records: Vec<Record<'_>> = self.records().collect();
        f.debug_struct("Batch")
            .field("commit_ts", &self.commit_ts())
            .field("records", &records)
            .finish()
    }
}

impl PartialEq for Columns<'_> {
    fn eq(&self, other: &Self) -> bool {
        Iterator::eq(*self, *other)
    }
}

impl fmt::Debug for Columns<'_> {
    fn fmt(&self, f: &mut fmt::Formatter<'_>) -> fmt::Result {
        f.debug_list().entries(*self).finish()
    }
}

impl<'a> Iterator for Columns<'a> {
    type Item = Column<'a>;

    fn next(&mut self) -> Option<Column<'a>> {
        self.left = self.left.checked_sub(1)?;
        // SAFETY: a whole slice is lent, which the call reads and does not keep.
        let column = unsafe { sys::lateenbael_mvcc_decode_column(self.body.as_ptr(), self.body.len(), self.at) };
        Refusal::check(column.refusal).ok()?;
        self.at = column.next;
        Some(Column {
            name: text_at(self.body, column.name),
            value: value_at(self.body, column.value),
        })
    }

    fn size_hint(&self) -> (usize, Option<usize>) {
        (self.left, Some(self.left))
    }
}

impl ExactSizeIterator for Columns<'_> {}

/// A batch being built. An addition that is refused leaves it as it was.
#[derive(Clone)]
pub struct BatchBuilder {
    body: Box<[u8; PAGE_SIZE]>,
    building: sys::Building,
}

impl Default for BatchBuilder {
    fn default() -> Self {
        Self::new(0)
    }
}

impl fmt::Debug for BatchBuilder {
    fn fmt(&self, f: &mut fmt::Formatter<'_>) -> fmt::Result {
        match Batch::decode(&self.body[..]) {
            Ok(batch) => batch.fmt(f),
            Err(refusal) => refusal.fmt(f),
        }
    }
}

impl BatchBuilder {
    /// A batch without records.
    pub fn new(commit_ts: u64) -> BatchBuilder {
        let mut body = Box::new([0; PAGE_SIZE]);
        // SAFETY: a whole slice is lent, which the call writes and does not keep.
        let building = unsafe { sys::lateenbael_mvcc_start(body.as_mut_ptr(), body.len(), commit_ts) };
        BatchBuilder { body, building }
    }

    fn take(&mut self, building: sys::Building) -> Result<(), Refusal> {
        Refusal::check(building.refusal)?;
        self.building = building;
        Ok(())
    }

    /// A row that is gone. Refusals 19 and 20.
    pub fn add_tombstone(&mut self, table: &str, rowid: i64) -> Result<(), Refusal> {
        self.add_record(sys::lateenbael_mvcc_add_tombstone, table, rowid)
    }

    /// A row that is there; its columns follow. Refusals 19 and 20.
    pub fn begin_present(&mut self, table: &str, rowid: i64) -> Result<(), Refusal> {
        self.add_record(sys::lateenbael_mvcc_begin_present, table, rowid)
    }

    fn add_record(&mut self, add: AddRecord, table: &str, rowid: i64) -> Result<(), Refusal> {
        let body = &mut self.body;
        // SAFETY: whole slices are lent, which the call reads and writes and does not keep.
        let building = unsafe { add(body.as_mut_ptr(), body.len(), self.building, table.as_ptr(), table.len(), rowid) };
        self.take(building)
    }

    /// A column of the last record. Refusals 17, 19, 20 and 21.
    pub fn add_column(&mut self, name: &str, value: Value<'_>) -> Result<(), Refusal> {
        let (body, len, b) = (self.body.as_mut_ptr(), PAGE_SIZE, self.building);
        let (name, name_len) = (name.as_ptr(), name.len());
        // SAFETY: as above.
        let building = unsafe {
            match value {
                Value::Null => sys::lateenbael_mvcc_add_null(body, len, b, name, name_len),
                Value::Integer(n) => sys::lateenbael_mvcc_add_integer(body, len, b, name, name_len, n),
                Value::Real(x) => sys::lateenbael_mvcc_add_real_bits(body, len, b, name, name_len, x.to_bits()),
                Value::Text(text) => sys::lateenbael_mvcc_add_text(body, len, b, name, name_len, text.as_ptr(), text.len()),
                Value::Bool(flag) => sys::lateenbael_mvcc_add_bool(body, len, b, name, name_len, flag.into()),
                Value::Vector(v) => sys::lateenbael_mvcc_add_vector(body, len, b, name, name_len, v.0.as_ptr(), v.0.len()),
            }
        };
        self.take(building)
    }

    /// The batch as `encode` writes it.
    pub fn body(&self) -> &[u8; PAGE_SIZE] {
        &self.body
    }
}

type AddRecord = unsafe extern "C" fn(*mut u8, usize, sys::Building, *const u8, usize, i64) -> sys::Building;
