//! A log read alone, and its listing against the proved one.
mod common;
use common::{FRAME, batch, page};
use lateenbael::{Engine, Log, Refusal, sys};

/// The proved listing of a log of at most 15 frames.
fn proved_listing(log: &[u8]) -> String {
    let mut out = [0; sys::LISTING_SIZE];
    let answer = unsafe { sys::lateenbael_list_log(log.as_ptr(), log.len(), out.as_mut_ptr(), out.len()) };
    assert_eq!(answer.refusal, 0);
    String::from_utf8(out[..answer.len].to_vec()).unwrap()
}

/// A store whose log has 3 commit frames, 2 batches and 3 pages, and a batch behind the last commit frame.
fn store() -> Engine {
    let mut engine = Engine::new();
    engine.create(0xab).unwrap();
    let header = engine.header().unwrap();
    for seed in 1..4 {
        engine.stage_page(1, &page(seed)).unwrap();
        engine.commit(header, 0).unwrap();
        engine.append_mvcc_batch(batch(seed.into()).body()).unwrap();
    }
    engine
}

#[test]
fn the_listing_is_the_proved_one() {
    let engine = store();
    let log = engine.log_file();
    assert_eq!(log.len(), 32 + 9 * FRAME);
    for len in [32, 33, 32 + FRAME - 1, 32 + FRAME, 32 + 5 * FRAME + 7, log.len()] {
        assert_eq!(Log::open(&log[..len]).unwrap().listing(), proved_listing(&log[..len]));
    }
    for at in (32..log.len()).step_by(1013) {
        let mut damaged = log.to_vec();
        damaged[at] ^= 0x11;
        assert_eq!(Log::open(&damaged).unwrap().listing(), proved_listing(&damaged));
    }
}

#[test]
fn frames_stop_at_the_first_that_is_not_good() {
    let engine = store();
    let mut log = engine.log_file().to_vec();
    log.extend([0; 100]);
    let open = Log::open(&log).unwrap();
    assert_eq!(open.frames().count(), 9);
    assert_eq!(
        (open.commit_point(), open.good_end(), open.file_len()),
        (32 + 8 * FRAME, 32 + 9 * FRAME, 132 + 9 * FRAME)
    );
    assert_eq!(open.last_commit_page_count(), Some(2));
    let times: Vec<u64> = open.frames().filter_map(|f| f.batch()).map(|b| b.commit_ts()).collect();
    assert_eq!(times, [1, 2, 3]);
    let first = open.frames().next().unwrap();
    assert_eq!(
        (first.offset, first.page_num, first.commit_page_count, first.body),
        (32, 1, 0, &page(1)[..])
    );
    log[32 + 2 * FRAME + 100] ^= 1;
    assert_eq!(Log::open(&log).unwrap().frames().count(), 2);
}

#[test]
fn a_batch_that_does_not_decode_is_counted_and_not_listed() {
    let mut engine = Engine::new();
    engine.create(0).unwrap();
    let mut log = engine.log_file().to_vec();
    // Salt 0 and a zero body: the sum of page 4294967295 and count 0 is four bytes 255, rotated and added.
    let mut sum = 0u32;
    let mut frame = vec![0; FRAME];
    frame[..4].fill(255);
    for byte in frame[..12].iter().chain(&frame[16..]) {
        sum = sum.rotate_left(1).wrapping_add(u32::from(*byte));
    }
    frame[12..16].copy_from_slice(&sum.to_le_bytes());
    log.extend(frame);
    let open = Log::open(&log).unwrap();
    assert_eq!((open.frames().count(), open.frame_count()), (0, 1));
    assert_eq!(open.listing(), proved_listing(&log));
}

#[test]
fn refused_logs() {
    assert_eq!(Log::open(&[0; 31]).err(), Some(Refusal::Short));
    assert_eq!(Log::open(&[0; 32]).err(), Some(Refusal::Magic));
    assert_eq!(Log::open(&vec![0; sys::LOG_AREA + 1]).err(), Some(Refusal::Area));
}
