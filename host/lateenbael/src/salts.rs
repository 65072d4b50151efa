//! Salts for new logs. A salt tells a log's frames from those of the log that lay there before.
use std::process;
use std::time::{SystemTime, UNIX_EPOCH};

/// Where a store's salts come from; tests can give their own.
pub type Salts = Box<dyn FnMut() -> u32 + Send + Sync>;

/// Salts drawn from the clock and the process id, never 0 and no two in a row alike.
pub fn salts_of_the_clock() -> Salts {
    let own = u64::from(process::id()) << 40;
    let mut last = 0;
    Box::new(move || {
        let mut salt = draw(own);
        while salt == 0 || salt == last {
            salt = salt.wrapping_add(0x9E37_79B9);
        }
        last = salt;
        salt
    })
}

fn draw(own: u64) -> u32 {
    let now = SystemTime::now().duration_since(UNIX_EPOCH).unwrap_or_default();
    mix(now.as_nanos() as u64 ^ own) as u32
}

/// Every bit of the number reaches every bit of the result.
fn mix(mut z: u64) -> u64 {
    z = (z ^ (z >> 30)).wrapping_mul(0xBF58_476D_1CE4_E5B9);
    z = (z ^ (z >> 27)).wrapping_mul(0x94D0_49BB_1331_11EB);
    z ^ (z >> 31)
}
