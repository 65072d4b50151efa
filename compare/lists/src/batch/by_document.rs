//! Document 01's text about batches, reckoned without the Rust's help.

use crate::hex;

/// The answer to a body.
pub fn listed(body: &[u8]) -> String {
    match read(body) {
        Ok(batch) => {
            let mut lines = batch.lines;
            let end = batch.canonical.iter().rposition(|byte| *byte != 0).unwrap();
            lines.push(format!("encoded {}", hex::digits(&batch.canonical[..=end])));
            lines.join("\n")
        }
        Err(number) => format!("refused {number}"),
    }
}

/// The number of records of a body that decodes.
pub fn records(body: &[u8]) -> Option<u64> {
    read(body).ok().map(|batch| batch.records)
}

/// What was read so far.
struct Reader<'a> {
    left: &'a [u8],
    records: u64,
    lines: Vec<String>,
    /// The bytes read, as they would be written.
    canonical: Vec<u8>,
}

/// A field, or the refusal's number.
type Read<T> = Result<T, u32>;

fn read(body: &[u8]) -> Read<Reader<'_>> {
    if body.len() < 18 {
        return Err(2);
    }
    let mut reader = Reader {
        left: body,
        records: 0,
        lines: Vec::new(),
        canonical: Vec::new(),
    };
    if reader.bytes(8)? != b"MVCC0001" {
        return Err(3);
    }
    let time = reader.number(8)?;
    reader.records = reader.number(2)?;
    reader
        .lines
        .push(format!("batch {time} {}", reader.records));
    for index in 0..reader.records {
        reader.record(index)?;
    }
    Ok(reader)
}

impl<'a> Reader<'a> {
    fn bytes(&mut self, count: u64) -> Read<&'a [u8]> {
        if count > self.left.len() as u64 {
            return Err(17);
        }
        let (bytes, left) = self.left.split_at(count as usize);
        self.left = left;
        self.canonical.extend(bytes);
        Ok(bytes)
    }

    fn number(&mut self, width: u64) -> Read<u64> {
        let bytes = self.bytes(width)?.iter().rev();
        Ok(bytes.fold(0, |number, byte| number * 256 + u64::from(*byte)))
    }

    fn signed(&mut self) -> Read<i128> {
        let number = i128::from(self.number(8)?);
        Ok(if number < 1 << 63 {
            number
        } else {
            number - (1 << 64)
        })
    }

    fn text(&mut self, width: u64) -> Read<String> {
        let length = self.number(width)?;
        let bytes = self.bytes(length)?;
        if characters::count(bytes).is_none() {
            return Err(19);
        }
        Ok(if bytes.is_empty() {
            "-".to_string()
        } else {
            hex::digits(bytes)
        })
    }

    fn record(&mut self, index: u64) -> Read<()> {
        let op = self.number(1)?;
        let table = self.text(2)?;
        let row = self.signed()?;
        match op {
            0 => {
                let line = format!("record {index} tombstone {table} {row}");
                self.lines.push(line);
            }
            1 => {
                let columns = self.number(2)?;
                let line = format!("record {index} present {table} {row} {columns}");
                self.lines.push(line);
                for index in 0..columns {
                    let name = self.text(2)?;
                    let value = self.value()?;
                    self.lines.push(format!("column {index} {name} {value}"));
                }
            }
            _ => return Err(18),
        }
        Ok(())
    }

    fn value(&mut self) -> Read<String> {
        Ok(match self.number(1)? {
            0 => "null".to_string(),
            1 => format!("integer {}", self.signed()?),
            2 => format!("real {:016x}", self.number(8)?),
            3 => format!("text {}", self.text(4)?),
            4 => {
                let is = self.number(1)? != 0;
                *self.canonical.last_mut().unwrap() = is.into();
                format!("bool {is}")
            }
            5 => {
                let count = self.number(4)?;
                if 4 * count > self.left.len() as u64 {
                    return Err(17);
                }
                let mut value = format!("vector {count}");
                for _ in 0..count {
                    value += &format!(" {:08x}", self.number(4)?);
                }
                value
            }
            _ => return Err(18),
        })
    }
}
