//! Edits of the files, beside every write of a side. They are the same for both
//! sides.

use crate::call::Edit;
use crate::side::Area;
use crate::spec::Spec;

/// The bytes of a file, or none if it isn't there.
pub type File = Option<Vec<u8>>;

impl Edit {
    /// The files that it touches.
    pub fn areas(&self) -> &'static [Area] {
        match self {
            Self::Truncate(Area::Main, _)
            | Self::Flip(Area::Main, ..)
            | Self::Put(Area::Main, ..) => &[Area::Main],
            Self::Remove => &[Area::Main, Area::Log],
            _ => &[Area::Log],
        }
    }

    /// Edits one of the files that it touches. A file that isn't there is
    /// made by whatever puts bytes or a length into it.
    pub fn apply(&self, file: &mut File) {
        match self {
            Self::Truncate(_, length) => file.get_or_insert_default().resize(*length, 0),
            Self::Flip(_, at, xor) => {
                if let Some(byte) = file.as_mut().and_then(|bytes| bytes.get_mut(*at)) {
                    *byte ^= xor;
                }
            }
            Self::Put(_, at, bytes) => put(file.get_or_insert_default(), *at, bytes),
            Self::AppendLog(spec) => file.get_or_insert_default().extend(spec.bytes()),
            Self::Frame(page, commit, spec) => {
                let log = file.get_or_insert_default();
                let frame = frame(log, *page, *commit, spec);
                log.extend(frame);
            }
            Self::RemoveLog | Self::Remove => *file = None,
        }
    }
}

/// Puts bytes as a file takes them: what is past its end lengthens it, with
/// zeros between.
pub fn put(file: &mut Vec<u8>, at: usize, bytes: &[u8]) {
    let end = at + bytes.len();
    if file.len() < end {
        file.resize(end, 0);
    }
    file[at..end].copy_from_slice(bytes);
}

/// A good frame with the log's salt; a log too short to have one has 0.
fn frame(log: &[u8], page: u32, commit: u32, spec: &Spec) -> Vec<u8> {
    let salt = match log.get(16..20) {
        Some(salt) => u32::from_le_bytes(salt.try_into().expect("four bytes")),
        None => 0,
    };
    let heading = [page, commit, salt].map(u32::to_le_bytes).concat();
    let mut body = spec.padded();
    body.truncate(4_096);
    let sum = heading.iter().chain(&body).fold(0u32, |sum, byte| {
        sum.rotate_left(1).wrapping_add(u32::from(*byte))
    });
    [heading, sum.to_le_bytes().to_vec(), body].concat()
}

#[cfg(test)]
mod tests {
    use super::*;

    /// Document 01: salt 0, zero body, page 1, count 2 has checksum 2304.
    #[test]
    fn a_frame_has_its_sum() {
        let mut log = Some(vec![0; 32]);
        Edit::Frame(1, 2, Spec::Seed(0)).apply(&mut log);
        let log = log.unwrap();
        assert_eq!(log.len(), 32 + 4_112);
        assert_eq!(
            log[32..48],
            [1, 0, 0, 0, 2, 0, 0, 0, 0, 0, 0, 0, 0, 9, 0, 0]
        );
    }

    #[test]
    fn edits_past_the_end() {
        let mut file = None;
        Edit::Flip(Area::Main, 0, 1).apply(&mut file);
        assert_eq!(file, None);
        Edit::Put(Area::Main, 2, vec![7]).apply(&mut file);
        assert_eq!(file, Some(vec![0, 0, 7]));
        Edit::Truncate(Area::Main, 4).apply(&mut file);
        Edit::Flip(Area::Main, 4, 1).apply(&mut file);
        assert_eq!(file, Some(vec![0, 0, 7, 0]));
        Edit::Remove.apply(&mut file);
        assert_eq!(file, None);
    }
}
