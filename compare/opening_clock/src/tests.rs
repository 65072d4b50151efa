//! Small logs whose clocks are told by hand.

use super::{BATCH, FRAME, Reading, checksum, read};

const SALT: u32 = 0x5eed_0004;

/// A log's header with that version and clock, and frames behind it.
fn log(version: u32, clock: u64, frames: &[Vec<u8>]) -> Vec<u8> {
    let mut log = b"SQLRWAL\0".to_vec();
    for field in [version, 4_096, SALT, 7] {
        log.extend(field.to_le_bytes());
    }
    log.extend(clock.to_le_bytes());
    [log, frames.concat()].concat()
}

/// A good frame; the body goes on in zeros.
fn frame(page: u32, commit_count: u32, body: &[u8]) -> Vec<u8> {
    let mut frame = [page, commit_count, SALT, 0].map(u32::to_le_bytes).concat();
    frame.extend(body);
    frame.resize(FRAME, 0);
    let sum = checksum(&frame);
    frame[12..16].copy_from_slice(&sum.to_le_bytes());
    frame
}

/// A batch of no record, or of a row that is gone.
fn body(time: u64, records: u16) -> Vec<u8> {
    let parts = [
        &b"MVCC0001"[..],
        &time.to_le_bytes(),
        &records.to_le_bytes(),
    ];
    parts.concat()
}

fn batch(time: u64) -> Vec<u8> {
    frame(BATCH, 0, &body(time, 1))
}

fn seal() -> Vec<u8> {
    frame(0, 2, b"no header is asked for here")
}

/// What a log of version 3 says.
fn reading(clock: u64, frames: &[Vec<u8>]) -> Reading {
    read(&log(3, clock, frames)).expect("a good header")
}

/// The clocks of a plain and of a clean opening.
fn clocks(clock: u64, frames: &[Vec<u8>]) -> (u64, u64) {
    let reading = reading(clock, frames);
    (reading.plain(), reading.clean())
}

/// Document 01's starred sums.
#[test]
fn the_checksum_is_document_01s() {
    for (page, commit_count, sum) in [(0u32, 0u32, 0), (1, 0, 2_048), (1, 2, 2_304)] {
        let mut frame = vec![0; FRAME];
        frame[..4].copy_from_slice(&page.to_le_bytes());
        frame[4..8].copy_from_slice(&commit_count.to_le_bytes());
        assert_eq!(checksum(&frame), sum);
    }
}

#[test]
fn without_a_batch_it_is_the_headers() {
    assert_eq!(clocks(0, &[]), (0, 0));
    assert_eq!(clocks(40, &[]), (40, 40));
    let pages = [frame(1, 0, &[9; 4_096]), seal()];
    assert_eq!(clocks(40, &pages), (40, 40));
    // Such bytes are a time in a batch's frame alone.
    let page = [frame(1, 2, &body(99, 0)), frame(0, 2, &body(99, 0))];
    assert_eq!(clocks(40, &page), (40, 40));
}

#[test]
fn the_larger_of_the_two() {
    for (header, time, larger) in [
        (0, 9, 9),
        (9, 0, 9),
        (8, 9, 9),
        (9, 8, 9),
        (9, 9, 9),
        (0, u64::MAX, u64::MAX),
        (u64::MAX, 0, u64::MAX),
        (u64::MAX - 1, u64::MAX, u64::MAX),
        (i64::MAX as u64, 1 << 63, 1 << 63),
        (1 << 63, i64::MAX as u64, 1 << 63),
        (u64::from(u32::MAX), 1 << 32, 1 << 32),
        (
            0x0102_0304_0506_0708,
            0x0807_0605_0403_0201,
            0x0807_0605_0403_0201,
        ),
    ] {
        assert_eq!(clocks(header, &[batch(time), seal()]), (header, larger));
    }
}

#[test]
fn the_greatest_of_several_in_any_place() {
    for times in [[7, 3, 5], [3, 7, 5], [3, 5, 7], [7, 7, 0]] {
        let frames = times.map(batch);
        let [first, second, third] = frames;
        let one_seal = [first.clone(), second.clone(), third.clone(), seal()];
        assert_eq!(clocks(4, &one_seal), (4, 7));
        let two_seals = [first, seal(), second, third, seal()];
        assert_eq!(clocks(4, &two_seals), (4, 7));
    }
}

#[test]
fn what_is_not_sealed_does_not_count() {
    assert_eq!(clocks(4, &[batch(9)]), (4, 4));
    assert_eq!(clocks(4, &[batch(5), seal(), batch(9)]), (4, 5));
    assert_eq!(clocks(4, &[seal(), batch(9), frame(1, 0, b"")]), (4, 4));
    let reading = reading(4, &[batch(5), seal(), batch(9), batch(8)]);
    assert_eq!(reading.recovered, [5]);
    assert_eq!(reading.unsealed, [9, 8]);
}

#[test]
fn a_batch_may_seal_itself_and_those_before() {
    let sealing = |time, count| frame(BATCH, count, &body(time, 0));
    assert_eq!(clocks(4, &[sealing(9, 1)]), (4, 9));
    assert_eq!(clocks(4, &[batch(9), sealing(5, u32::MAX)]), (4, 9));
    assert_eq!(clocks(4, &[sealing(5, 1), batch(9)]), (4, 5));
}

#[test]
fn any_page_seals() {
    for page in [0, 1, 1_023, 1_024, BATCH - 1] {
        let frames = [batch(9), frame(page, 1, b"")];
        assert_eq!(clocks(4, &frames), (4, 9), "{page}");
    }
}

#[test]
fn records_or_none() {
    for records in 0..3 {
        let frames = [frame(BATCH, 0, &body(9, records)), seal()];
        assert_eq!(clocks(4, &frames), (4, 9));
    }
}

/// Each byte of a frame changed: it and what follows is lost.
#[test]
fn behind_a_bad_frame_all_is_lost() {
    let frames = [batch(5), seal(), batch(9), seal(), batch(11), seal()];
    assert_eq!(clocks(4, &frames), (4, 11));
    for (bad, clock) in [(0, 4), (1, 4), (2, 5), (3, 5), (4, 9), (5, 9)] {
        for at in [0, 4, 8, 12, 16, 24, 40, FRAME - 1] {
            let mut frames = frames.clone();
            frames[bad][at] ^= 1;
            assert_eq!(clocks(4, &frames), (4, clock), "{bad} {at}");
        }
    }
}

/// Another salt, with the sum that belongs to it.
#[test]
fn a_frame_of_another_time_is_bad() {
    let mut old = batch(9);
    old[8] ^= 1;
    let sum = checksum(&old);
    old[12..16].copy_from_slice(&sum.to_le_bytes());
    assert_eq!(clocks(4, &[batch(5), seal(), old, seal()]), (4, 5));
}

#[test]
fn a_batch_that_does_not_decode_is_bad() {
    for bad in [
        b"MVCC0002\x09\0\0\0\0\0\0\0\0\0".to_vec(),
        body(9, 371),
        [body(9, 1), b"\x02".to_vec()].concat(),
        [body(9, 1), b"\0\x01\0\xff".to_vec()].concat(),
    ] {
        let frames = [batch(5), seal(), frame(BATCH, 1, &bad), seal()];
        assert_eq!(clocks(4, &frames), (4, 5), "{bad:02x?}");
    }
}

#[test]
fn versions_one_to_three() {
    let frames = [batch(9), seal()];
    for version in [1, 2, 3] {
        let reading = read(&log(version, 4, &frames)).expect("a good header");
        assert_eq!((reading.plain(), reading.clean()), (4, 9));
    }
    for version in [0, 4, 256] {
        assert_eq!(read(&log(version, 4, &frames)), None);
    }
}

#[test]
fn a_torn_tail_is_no_frame() {
    let frames = [batch(5), seal(), batch(9), seal()];
    let whole = log(3, 4, &frames);
    for (length, clock) in [
        (32, 4),
        (33, 4),
        (32 + FRAME, 4),
        (32 + 2 * FRAME - 1, 4),
        (32 + 2 * FRAME, 5),
        (32 + 3 * FRAME, 5),
        (32 + 4 * FRAME - 1, 5),
        (32 + 4 * FRAME, 9),
    ] {
        let reading = read(&whole[..length]).expect("a good header");
        assert_eq!(reading.clean(), clock, "{length}");
    }
    let longer = [&whole[..], &[0xff; 5_000]].concat();
    assert_eq!(read(&longer).expect("a good header").clean(), 9);
}

#[test]
fn what_is_no_log() {
    let good = log(3, 4, &[]);
    assert_eq!(read(&good[..31]), None);
    assert_eq!(read(b""), None);
    for at in [0, 7, 12, 13] {
        let mut other = good.clone();
        other[at] ^= 1;
        assert_eq!(read(&other), None, "{at}");
    }
}
