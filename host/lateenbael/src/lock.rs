//! The lock of a main file.
use crate::Error;
use std::fs::{self, File, TryLockError};
use std::os::unix::fs::MetadataExt;
use std::path::Path;
use std::thread;
use std::time::{Duration, Instant};

/// How long a lock that is held is left alone between two tries.
const PAUSE: Duration = Duration::from_millis(5);

/// Locks a file, for one writer or for readers, and waits for others so long.
pub fn lock(file: &File, path: &Path, read_only: bool, wait: Duration) -> Result<(), Error> {
    let began = Instant::now();
    loop {
        let locked = if read_only { file.try_lock_shared() } else { file.try_lock() };
        match locked {
            Ok(()) => return Ok(()),
            Err(TryLockError::Error(error)) => return Err(Error::of_file(path, error)),
            Err(TryLockError::WouldBlock) => {}
        }
        let left = wait.saturating_sub(began.elapsed());
        if left.is_zero() {
            let (file, holder) = (path.to_path_buf(), holder_of(file));
            return Err(Error::Locked { file, holder });
        }
        thread::sleep(left.min(PAUSE));
    }
}

/// Which process the system says to hold a lock of the file.
fn holder_of(file: &File) -> Option<String> {
    let file = file.metadata().ok()?;
    let (major, minor) = device_numbers(file.dev());
    let file = format!("{major:02x}:{minor:02x}:{}", file.ino());
    let locks = fs::read_to_string("/proc/locks").ok()?;
    // 1: FLOCK  ADVISORY  WRITE 4711 fe:00:1234 0 EOF
    let held = locks.lines().map(|line| line.split_whitespace().collect::<Vec<&str>>());
    let pid = held
        .filter(|words| words.get(1) == Some(&"FLOCK"))
        .find_map(|words| (*words.get(5)? == file).then(|| words[4].to_string()))?;
    match fs::read_to_string(format!("/proc/{pid}/comm")) {
        Ok(name) => Some(format!("{}, process {pid}", name.trim_end())),
        Err(_) => None,
    }
}

/// A device's two numbers, as the system prints them.
fn device_numbers(dev: u64) -> (u64, u64) {
    let major = (dev >> 8) & 0xfff | (dev >> 32) & !0xfff;
    let minor = dev & 0xff | (dev >> 12) & !0xff;
    (major, minor)
}
