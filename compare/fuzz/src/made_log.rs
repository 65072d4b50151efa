//! Made-up logs: good frames and bad ones, with batches of any time that are
//! sealed in every way or not at all.

use lateenbael_sys::{FRAME_SIZE, MVCC_FRAME_MARKER};
use splitmix::Random;

use crate::edges;
use crate::world::World;

/// Puts a log at the front of its area: how long it is.
pub fn put(world: &mut World) -> usize {
    let random = &mut world.random;
    let salt = random.u32();
    let mut log = header(random, salt);
    for _ in 0..random.below(9) {
        log.extend(frame(random, salt));
    }
    if random.percent(10) {
        let at = random.below(log.len());
        log[at] ^= 1 << random.below(8);
    }
    if random.percent(10) {
        let tail = random.below(FRAME_SIZE);
        log.extend(random.bytes(tail));
    }
    world.log.put(0, &log);
    log.len()
}

fn header(random: &mut Random, salt: u32) -> Vec<u8> {
    let mut header = b"SQLRWAL\0".to_vec();
    let version = random.between(1, 3) as u32;
    for field in [version, 4_096, salt, random.u32()] {
        header.extend(field.to_le_bytes());
    }
    header.extend(time(random).to_le_bytes());
    header
}

/// A clock or a commit time: of every size, and at the borders.
fn time(random: &mut Random) -> u64 {
    match random.below(4) {
        0 => random.below(12) as u64,
        1 => edges::number(random),
        2 => random.pick(&[0, (1 << 63) - 1, 1 << 63, u64::MAX - 1, u64::MAX]),
        _ => random.u64() >> random.below(64),
    }
}

fn frame(random: &mut Random, salt: u32) -> Vec<u8> {
    let page = match random.below(8) {
        0..5 => MVCC_FRAME_MARKER,
        5 | 6 => random.between(1, 40) as u32,
        _ => random.pick(&[1_023, 1_024, MVCC_FRAME_MARKER - 1]),
    };
    let commit_count = match random.below(16) {
        0..8 => 0,
        8..15 => random.between(1, 40) as u32,
        _ => random.pick(&[1_024, 1_025, u32::MAX]),
    };
    let mut frame = [page, commit_count, salt, 0].map(u32::to_le_bytes).concat();
    frame.extend(body(random));
    frame.resize(FRAME_SIZE, 0);
    let sum = opening_clock::checksum(&frame);
    frame[12..16].copy_from_slice(&sum.to_le_bytes());
    frame
}

/// A batch of no record or a few that are gone, now and then one that does
/// not decode.
fn body(random: &mut Random) -> Vec<u8> {
    let magic = match random.percent(5) {
        true => b"MVCC0002",
        false => b"MVCC0001",
    };
    let records = random.pick(&[0, 0, 1, 5, 370, 371]);
    let mut body = magic.to_vec();
    body.extend(time(random).to_le_bytes());
    body.extend(u16::to_le_bytes(records));
    body
}
