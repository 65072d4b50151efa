//! Batch bodies written field by field, so that any field can be wrong.

use engine::mvcc::log::MVCC_BODY_MAGIC;

/// A column's value by the bytes that a body has for it.
#[derive(Clone, Copy)]
pub enum Value<'a> {
    Null,
    Integer(i64),
    /// The bits: a NaN is one of many.
    Real(u64),
    Text(&'a [u8]),
    /// The byte, of which any but 0 is true.
    Bool(u8),
    /// The elements' bits.
    Vector(&'a [u32]),
}

#[derive(Clone)]
pub struct Body(Vec<u8>);

impl Body {
    /// Magic, commit time and record count.
    pub fn new(time: u64, records: u16) -> Self {
        Self(MVCC_BODY_MAGIC.to_vec())
            .bytes(time.to_le_bytes())
            .bytes(records.to_le_bytes())
    }

    /// Any bytes, also such as no batch has.
    pub fn bytes(mut self, bytes: impl AsRef<[u8]>) -> Self {
        self.0.extend(bytes.as_ref());
        self
    }

    /// A text with a length of 2 bytes.
    pub fn name(self, text: impl AsRef<[u8]>) -> Self {
        let text = text.as_ref();
        self.bytes((text.len() as u16).to_le_bytes()).bytes(text)
    }

    /// A record as far as every op has it: op, table and row id.
    pub fn record(self, op: u8, table: impl AsRef<[u8]>, row: i64) -> Self {
        self.bytes([op]).name(table).bytes(row.to_le_bytes())
    }

    pub fn tombstone(self, table: impl AsRef<[u8]>, row: i64) -> Self {
        self.record(0, table, row)
    }

    /// A record that is present, up to its column count.
    pub fn present(self, table: impl AsRef<[u8]>, row: i64, columns: u16) -> Self {
        self.record(1, table, row).bytes(columns.to_le_bytes())
    }

    pub fn column(self, name: impl AsRef<[u8]>, value: Value) -> Self {
        self.name(name).value(value)
    }

    fn value(self, value: Value) -> Self {
        match value {
            Value::Null => self.bytes([0]),
            Value::Integer(number) => self.bytes([1]).bytes(number.to_le_bytes()),
            Value::Real(bits) => self.bytes([2]).bytes(bits.to_le_bytes()),
            Value::Text(text) => self.bytes([3]).count(text.len()).bytes(text),
            Value::Bool(byte) => self.bytes([4, byte]),
            Value::Vector(elements) => {
                let bytes = elements.iter().flat_map(|bits| bits.to_le_bytes());
                self.bytes([5])
                    .count(elements.len())
                    .bytes(bytes.collect::<Vec<_>>())
            }
        }
    }

    /// A count of 4 bytes.
    fn count(self, count: usize) -> Self {
        self.bytes((count as u32).to_le_bytes())
    }
}

impl From<Vec<u8>> for Body {
    fn from(bytes: Vec<u8>) -> Self {
        Self(bytes)
    }
}

impl AsRef<[u8]> for Body {
    fn as_ref(&self) -> &[u8] {
        &self.0
    }
}
