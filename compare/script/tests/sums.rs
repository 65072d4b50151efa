//! Document 02's P3, read by itself: what an opening compares with a frame's
//! stored sum is document 01's rule on the bytes that lie at the frame's place,
//! and no other byte has a part in it. The port and the Rust are asked alike.

use engine::sql::pager::page::PAGE_SIZE;
use engine::sql::pager::wal::{FRAME_SIZE, WAL_HEADER_SIZE, Wal};
use lateenbael::Log;
use splitmix::mix;
use stand_in::path::Path;
use stand_in::world;

const SALT: u32 = 0x5eed_0003;

/// Where the salt lies in a frame.
const OF_THE_SALT: std::ops::Range<usize> = 8..12;

/// "start at 0; for each of 12 heading bytes, then 4,096 body bytes, rotate
/// the 32-bit sum left by 1 and add the byte, wrapping", one after another, of
/// the frame at `at`.
fn rule(log: &[u8], at: usize) -> u32 {
    let places = (at..at + 12).chain(at + 16..at + 16 + 4_096);
    places.fold(0, |sum: u64, place| {
        let rotated = sum * 2 % (1 << 32) + sum / (1 << 31);
        (rotated + u64::from(log[place])) % (1 << 32)
    }) as u32
}

/// The Rust's log of three frames, all commit frames, with drawn bodies.
fn drawn_log(seed: u64) -> Vec<u8> {
    let path = Path::from("log");
    world::reset();
    world::queue_salt(SALT);
    let mut wal = Wal::create(&path).expect("the stand-in's files take every store");
    for frame in 0..3 {
        let drawn = mix(3 * seed + frame + 1);
        let mut at = drawn;
        let mut body = [0; PAGE_SIZE];
        body.fill_with(|| {
            at = at.wrapping_add(1);
            mix(at) as u8
        });
        wal.append_frame(drawn as u32 % 1_024, &body, Some(1 + frame as u32))
            .expect("the stand-in's files take every store");
    }
    world::read_file(&path).expect("the log was created")
}

/// How many frames an opening finds: the port's and the Rust's.
fn found(log: &[u8]) -> usize {
    let path = Path::from("log");
    world::write_file(&path, log);
    let rust = Wal::open(&path).expect("the header is good").frame_count();
    let port = Log::open(log).expect("the header is good").frame_count();
    assert_eq!(port, rust);
    port
}

fn place(frame: usize) -> usize {
    WAL_HEADER_SIZE + FRAME_SIZE * frame
}

fn set_sum(log: &mut [u8], frame: usize) {
    let at = place(frame);
    let sum = rule(log, at);
    log[at + 12..at + 16].copy_from_slice(&sum.to_le_bytes());
}

/// Every byte of a frame counts, each frame by itself; and with the rule's sum
/// stored anew the changed frame is found again, unless its salt is another.
#[test]
fn each_byte_of_a_frame_is_summed_where_it_lies() {
    let good = drawn_log(1);
    assert_eq!(found(&good), 3);
    for frame in 0..3 {
        for byte in 0..FRAME_SIZE {
            let mut log = good.clone();
            log[place(frame) + byte] ^= 1 << (mix(byte as u64) % 8);
            assert_eq!(found(&log), frame, "byte {byte}");
            set_sum(&mut log, frame);
            let again = if OF_THE_SALT.contains(&byte) {
                frame
            } else {
                3
            };
            assert_eq!(found(&log), again, "byte {byte}, with its sum");
        }
    }
}

/// No byte before a frame or behind it has a part in its sum: between other
/// frames it is found as it was.
#[test]
fn no_other_byte_is_summed() {
    for seed in 0..200 {
        let (log, others) = (drawn_log(2 * seed), drawn_log(2 * seed + 1));
        let (start, end) = (place(1), place(2));
        let between = [&others[..start], &log[start..end], &others[end..]].concat();
        let stored = &between[start + 12..start + 16];
        assert_eq!(stored, rule(&between, start).to_le_bytes());
        assert_eq!(found(&between), 3);
    }
}
