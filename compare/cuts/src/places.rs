//! After which bytes a write is cut.
use crate::writes::LOG_HEADER;
use lateenbael::Write;
use splitmix::Random;

/// Each byte up to here, and each of the last ones.
const FRONT: usize = 48;
const BACK: usize = 16;
/// Above so many writes of one call, those in its middle are cut at fewer places.
const MANY: usize = 24;

/// The numbers of bytes after which to cut, ascending: 0 to 48, the last 16, some between. A
/// length is cut before it. The first 32 bytes of a file are whole or not at all.
pub fn places(write: &Write, writes: usize, random: &mut Random) -> Vec<usize> {
    if write.is_length() {
        return vec![0];
    }
    let len = write.len;
    let mut places: Vec<usize> = if write.at < LOG_HEADER {
        [0, 1, LOG_HEADER - 1]
            .into_iter()
            .chain(LOG_HEADER..=FRONT)
            .collect()
    } else if writes > MANY && !random.one_in(8) {
        vec![0, 1, 16, len - 1]
    } else {
        (0..=FRONT).chain(len - BACK..len).collect()
    };
    places.extend((0..6).map(|_| random.between(1, len - 1)));
    places.retain(|bytes| *bytes < len);
    places.sort_unstable();
    places.dedup();
    places
}

#[cfg(test)]
mod tests {
    use super::*;
    use lateenbael::Area;

    fn write(at: usize, len: usize) -> Write {
        Write {
            area: Area::Log,
            at,
            len,
            flush: false,
        }
    }

    #[test]
    fn every_byte_of_interest() {
        let random = &mut Random::new(1);
        let frame = places(&write(32, 4112), 2, random);
        assert!(
            (0..=48)
                .chain(4096..4112)
                .all(|bytes| frame.contains(&bytes))
        );
        assert!(frame.iter().any(|bytes| (49..4096).contains(bytes)));
        assert_eq!(places(&write(32, 0), 2, random), [0]);
        let header = places(&write(0, 4096), 2, random);
        assert!((32..=48).all(|bytes| header.contains(&bytes)));
        assert!(
            places(&write(0, 32), 2, random)
                .iter()
                .all(|bytes| *bytes < 32)
        );
    }
}
