//! The clock that an opening of a log leaves, read from the log's bytes by the
//! sentences of documents 01 and 02 alone: what the port's is compared with.

const HEADER: usize = 32;
const FRAME: usize = 4_112;
/// "page 4294967295 (a batch)"
const BATCH: u32 = 4_294_967_295;

/// What a log says of the clock.
#[derive(Clone, Debug, PartialEq, Eq)]
pub struct Reading {
    /// The header's clock.
    pub header: u64,
    /// The commit times of the recovered batches, in log order.
    pub recovered: Vec<u64>,
    /// Those of the good batches behind the commit point.
    pub unsealed: Vec<u64>,
}

impl Reading {
    /// "Plain openings keep the header's clock, as the Rust does." A read-only
    /// opening is plain in this.
    pub fn plain(&self) -> u64 {
        self.header
    }

    /// "A clean opening therefore takes the larger of the log header's clock
    /// and the greatest commit time among the recovered batches."
    pub fn clean(&self) -> u64 {
        let times = self.recovered.iter().copied();
        times.fold(self.header, u64::max)
    }
}

/// None where no opening takes the header.
pub fn read(log: &[u8]) -> Option<Reading> {
    let mut reading = Reading {
        header: header_clock(log)?,
        recovered: Vec::new(),
        unsealed: Vec::new(),
    };
    let (_, frames) = log.split_at(HEADER);
    for frame in frames.chunks_exact(FRAME) {
        // "Reading stops at the first frame that isn't" good.
        if !is_good(frame, number(log, 16)) {
            break;
        }
        if number(frame, 0) == BATCH {
            // "Body: `MVCC0001`, commit time (8)"
            reading.unsealed.push(clock(&frame[16..], 8));
        }
        // "A nonzero commit count seals.": a batch's frame its own batch too.
        if number(frame, 4) != 0 {
            reading.recovered.append(&mut reading.unsealed);
        }
    }
    Some(reading)
}

/// "Header, 32 bytes: `SQLRWAL` and a zero; version (4) 1 to 3, written 3;
/// page size (4); salt (4); checkpoint sequence (4, wraps); clock (8)."
fn header_clock(log: &[u8]) -> Option<u64> {
    let good = log.len() >= HEADER
        && log.starts_with(b"SQLRWAL\0")
        && (1..=3).contains(&number(log, 8))
        && number(log, 12) == 4_096;
    good.then(|| clock(log, 24))
}

/// "page number, commit count, salt, checksum (4 each), body. A frame is good
/// if wholly inside the length, salt and checksum agree and, for page
/// 4294967295 (a batch), the body decodes."
fn is_good(frame: &[u8], salt: u32) -> bool {
    number(frame, 8) == salt
        && number(frame, 12) == checksum(frame)
        && (number(frame, 0) != BATCH || items::read(&frame[16..]).outcome.is_ok())
}

/// "start at 0; for each of 12 heading bytes, then 4,096 body bytes, rotate
/// the 32-bit sum left by 1 and add the byte, wrapping"
pub fn checksum(frame: &[u8]) -> u32 {
    let bytes = frame[..12].iter().chain(&frame[16..]);
    bytes.fold(0u32, |sum, byte| {
        sum.rotate_left(1).wrapping_add(u32::from(*byte))
    })
}

/// "All layouts are little-endian."
fn number(bytes: &[u8], at: usize) -> u32 {
    u32::from_le_bytes(bytes[at..at + 4].try_into().expect("four bytes"))
}

fn clock(bytes: &[u8], at: usize) -> u64 {
    u64::from_le_bytes(bytes[at..at + 8].try_into().expect("eight bytes"))
}

#[cfg(test)]
mod tests;
