//! A clock that carries salts.

use std::convert::Infallible;
use std::time::Duration;

use crate::world;

const NANOS_PER_SECOND: u32 = 1_000_000_000;

/// A time since the epoch. Each reading of the clock uses up one salt.
#[derive(Debug, Clone, Copy, PartialEq, Eq)]
pub struct SystemTime(Duration);

pub const UNIX_EPOCH: SystemTime = SystemTime(Duration::ZERO);

impl SystemTime {
    pub fn now() -> Self {
        Self(time_of(world::draw_salt()))
    }

    pub fn duration_since(&self, earlier: SystemTime) -> Result<Duration, Infallible> {
        Ok(self.0 - earlier.0)
    }
}

/// A time from which `random_salt` of wal.rs reckons this salt, that is
/// `(nanos as u32) ^ (secs as u32).rotate_left(13)`.
///
/// Once the seconds are chosen the formula fixes the low 32 bits of all
/// nanoseconds, hence those within the second; the first choice that leaves
/// fewer than a second's worth will do.
fn time_of(salt: u32) -> Duration {
    (0..u32::MAX)
        .find_map(|secs| {
            let all_nanos = salt ^ secs.rotate_left(13);
            let nanos = all_nanos.wrapping_sub(secs.wrapping_mul(NANOS_PER_SECOND));
            (nanos < NANOS_PER_SECOND).then(|| Duration::new(secs.into(), nanos))
        })
        .expect("about one choice in four will do")
}

#[cfg(test)]
mod tests {
    use super::*;

    /// As wal.rs has it.
    fn salt_of(time: Duration) -> u32 {
        (time.as_nanos() as u32) ^ (time.as_secs() as u32).rotate_left(13)
    }

    /// Seconds of 0 to 4, rotated, move a number by less than 2^16. So a
    /// salt farther than that from every whole second has a time within its
    /// own second. These are all the others.
    #[test]
    fn every_salt_has_a_time() {
        for second in 0..=4u32 {
            let middle = second * NANOS_PER_SECOND;
            for away in 0..=1 << 16 {
                for salt in [middle.wrapping_add(away), middle.wrapping_sub(away)] {
                    assert_eq!(salt_of(time_of(salt)), salt);
                }
            }
        }
        for salt in [0x1234_5678, 0x8000_0000, 0xdead_beef, u32::MAX / 2] {
            assert_eq!(salt_of(time_of(salt)), salt);
        }
    }
}
