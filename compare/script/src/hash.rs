//! The hashes that a list's lines show.

/// FNV-1a, 64 bits.
#[derive(Clone, Copy)]
pub struct Fnv(u64);

impl Fnv {
    pub fn new() -> Self {
        Self(0xcbf2_9ce4_8422_2325)
    }

    pub fn with(mut self, bytes: &[u8]) -> Self {
        for byte in bytes {
            self.0 = (self.0 ^ u64::from(*byte)).wrapping_mul(0x0000_0100_0000_01b3);
        }
        self
    }

    pub fn digits(self) -> String {
        format!("{:016x}", self.0)
    }
}

impl Default for Fnv {
    fn default() -> Self {
        Self::new()
    }
}

pub fn of(bytes: &[u8]) -> String {
    Fnv::new().with(bytes).digits()
}

/// The log's hash with the header's salt, and salt and checksum of every
/// frame place wholly inside, set to zero: the same whatever salts were
/// drawn.
pub fn norm(log: &[u8]) -> String {
    let (header, frames) = log.split_at(log.len().min(32));
    let mut hash = zeroed(Fnv::new(), header, 16, 20);
    for frame in frames.chunks(4_112) {
        hash = match frame.len() {
            4_112 => zeroed(hash, frame, 8, 16),
            _ => hash.with(frame),
        };
    }
    hash.digits()
}

/// Adds bytes, those from `first` to below `end` as zeros.
fn zeroed(hash: Fnv, bytes: &[u8], first: usize, end: usize) -> Fnv {
    let (first, end) = (first.min(bytes.len()), end.min(bytes.len()));
    hash.with(&bytes[..first])
        .with(&[0; 8][..end - first])
        .with(&bytes[end..])
}

#[cfg(test)]
mod tests {
    use super::*;

    #[test]
    fn published_hashes() {
        assert_eq!(of(b""), "cbf29ce484222325");
        assert_eq!(of(b"a"), "af63dc4c8601ec8c");
        assert_eq!(of(b"foobar"), "85944171f73967e8");
    }

    #[test]
    fn norm_leaves_out_salts_and_sums_of_whole_frames() {
        let mut log = vec![1; 32 + 4_112 + 100];
        let mut zeros = log.clone();
        zeros[16..20].fill(0);
        zeros[40..48].fill(0);
        assert_eq!(norm(&log), of(&zeros));
        log[43] = 9;
        assert_eq!(norm(&log), of(&zeros));
        log[32 + 4_112 + 9] = 9;
        assert_ne!(norm(&log), of(&zeros));
        assert_eq!(norm(&[5; 18]), of(&[[5; 16].as_slice(), &[0; 2]].concat()));
    }
}
