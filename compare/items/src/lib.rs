//! How many items decoding a batch reads, by the sentences of documents 01
//! and 02 alone: what the port's numbers are compared with.

use std::fmt::{self, Display, Formatter};

/// Document 02, P14: "no 4,096-byte body gives more than 1,356".
pub const MOST: usize = 1_356;

/// The longest body of which that holds: three bytes more are a null column.
pub const LONGEST: usize = 4_098;

/// What reading a body comes to.
#[derive(Clone, Copy, Debug, PartialEq, Eq)]
pub struct Reading {
    /// Where the last record ends, or the refusal's number.
    pub outcome: Result<usize, u8>,
    /// "how many items it read .. refused bodies included up to the refusal"
    pub items: usize,
}

/// As the desk prints it.
impl Display for Reading {
    fn fmt(&self, f: &mut Formatter<'_>) -> fmt::Result {
        match self.outcome {
            Ok(end) => write!(f, "end {end} items {}", self.items),
            Err(number) => write!(f, "refused {number} items {}", self.items),
        }
    }
}

pub fn read(body: &[u8]) -> Reading {
    let mut reader = Reader {
        body,
        at: 0,
        items: 0,
    };
    let read = reader.batch();
    Reading {
        outcome: read.map(|()| reader.at),
        items: reader.items,
    }
}

/// "decoding goes byte by byte": what is read so far, and the next byte.
struct Reader<'a> {
    body: &'a [u8],
    at: usize,
    items: usize,
}

/// A field, or the refusal's number.
type Read<T> = Result<T, u8>;

impl<'a> Reader<'a> {
    /// "Short | 2 | .. batch body under 18"; "Magic | 3 | wrong leading
    /// bytes". "Body: `MVCC0001`, commit time (8), record count (2), records."
    fn batch(&mut self) -> Read<()> {
        if self.body.len() < 18 {
            return Err(2);
        }
        if self.bytes(8)? != b"MVCC0001" {
            return Err(3);
        }
        self.bytes(8)?;
        let records = self.number(2)?;
        (0..records).try_for_each(|_| self.record())
    }

    /// "Record: op (1: 0 tombstone, 1 present), table text, row id (8,
    /// signed); if present a column count (2) and columns". "An op is judged
    /// after table and row id are read." "a record counts after its row id if
    /// a tombstone, after its column count if present"
    fn record(&mut self) -> Read<()> {
        let op = self.number(1)?;
        self.text(2)?;
        self.bytes(8)?;
        let columns = match op {
            0 => 0,
            1 => self.number(2)?,
            _ => return Err(18),
        };
        self.items += 1;
        (0..columns).try_for_each(|_| self.column())
    }

    /// "columns, each a name text and a value"; "a column after its value"
    fn column(&mut self) -> Read<()> {
        self.text(2)?;
        self.value()?;
        self.items += 1;
        Ok(())
    }

    /// "Value tag: 0 null; 1 integer (8, signed); 2 real (8); 3 text with a
    /// 4-byte length; 4 bool (1, nonzero is true); 5 vector, count (4) and
    /// f32s." "Tag | 18 | unknown op or value tag"
    fn value(&mut self) -> Read<()> {
        let behind = match self.number(1)? {
            0 => 0,
            1 | 2 => 8,
            3 => return self.text(4),
            4 => 1,
            5 => 4 * self.number(4)?,
            _ => return Err(18),
        };
        self.bytes(behind).map(drop)
    }

    /// "Text: length (2), UTF-8." "Text | 19 | not UTF-8"
    fn text(&mut self, width: u64) -> Read<()> {
        let length = self.number(width)?;
        let bytes = self.bytes(length)?;
        characters::count(bytes).map(drop).ok_or(19)
    }

    /// "All layouts are little-endian."
    fn number(&mut self, width: u64) -> Read<u64> {
        let bytes = self.bytes(width)?.iter().rev();
        Ok(bytes.fold(0, |number, byte| number << 8 | u64::from(*byte)))
    }

    /// "Truncated | 17 | a batch field runs past the body"
    fn bytes(&mut self, count: u64) -> Read<&'a [u8]> {
        let left = &self.body[self.at..];
        if count > left.len() as u64 {
            return Err(17);
        }
        let count = count as usize;
        self.at += count;
        Ok(&left[..count])
    }
}

#[cfg(test)]
mod tests;
