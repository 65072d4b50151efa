//! The engine in memory.
mod common;
use common::{FRAME, PAGE, page};
use lateenbael::sys::MAIN_AREA;
use lateenbael::{DbHeader, Engine, Refusal, Step};

#[test]
fn a_page_is_committed_and_checkpointed() {
    let mut engine = Engine::new();
    assert_eq!(engine.stage_page(1024, &page(9)), Err(Refusal::Page));
    engine.create(7).unwrap();
    let mut header = engine.header().unwrap();
    assert_eq!(header.page_count, 2);
    engine.stage_page(2, &page(9)).unwrap();
    header.page_count = 3;
    assert_eq!(engine.commit(header, 1), Ok(1));
    assert_eq!(engine.read_page(2).unwrap(), Some(&page(9)));
    assert_eq!(engine.log_file().len(), 32 + 2 * FRAME);
    assert_eq!(engine.checkpoint(9), Ok(1));
    assert_eq!(engine.log_file().len(), 32);
    assert_eq!(engine.read_page(2).unwrap(), Some(&page(9)));
    assert_eq!(&engine.main_file()[8192..], page(9));
}

#[test]
fn calls_between_steps_are_refused() {
    let mut engine = Engine::new();
    engine.create(7).unwrap();
    engine.stage_page(1, &page(3)).unwrap();
    let header = engine.header().unwrap();
    engine.begin_commit(header, 8).unwrap();
    assert_eq!(engine.header(), Err(Refusal::Busy));
    assert_eq!(engine.preview_commit(header), Err((Refusal::Busy, 0)));
    assert!(matches!(engine.next_step(), Ok(Step::Stored(write)) if write.at == 32 && !write.flush));
    assert!(matches!(engine.next_step(), Ok(Step::Last(write, 1)) if write.at == 32 + FRAME && write.flush));
    assert_eq!(engine.next_step(), Ok(Step::Idle));
    assert_eq!(engine.header(), Ok(header));
}

#[test]
fn a_refused_opening_leaves_nothing_open() {
    let mut engine = Engine::new();
    engine.create(7).unwrap();
    let (main, log) = (engine.main_file().to_vec(), engine.log_file().to_vec());
    let too_long = vec![0; MAIN_AREA + 1];
    for (main, refusal) in [(&[0xEE; 12288][..], Refusal::Magic), (&too_long, Refusal::Area)] {
        for open in [Engine::open_clean, Engine::open_with_mode] {
            assert_eq!(open(&mut engine, main, Some(&log), false, 1), Err(refusal));
            assert_eq!(engine.read_page(1), Ok(None));
            assert_eq!(engine.stage_page(1, &page(1)), Ok(()));
            assert_eq!(engine.preview_commit(DbHeader::default()), Err((Refusal::ReadOnly, 0)));
            assert_eq!(engine.commit(DbHeader::default(), 1), Err((Refusal::ReadOnly, 0)));
        }
    }
    engine.open_clean(&main, Some(&log), false, 1).unwrap();
    assert_eq!(engine.header().unwrap().page_count, 2);
}

#[test]
fn every_refusal_has_its_number_and_name() {
    let numbers: Vec<u32> = (1..=21).map(|n| Refusal::check(n).unwrap_err().number()).collect();
    assert_eq!(numbers, (1..=21).collect::<Vec<u32>>());
    assert_eq!(Refusal::check(0), Ok(()));
    for n in 1..=21 {
        let refusal = Refusal::check(n).unwrap_err();
        assert_eq!(format!("{refusal:?}"), refusal.name());
        assert!(refusal.to_string().starts_with(&format!("refused {n} {}: ", refusal.name())));
    }
}

/// The former length too.
#[test]
fn a_staging_area_of_another_length_is_refused() {
    let mut engine = Engine::new();
    engine.create(7).unwrap();
    engine.stage_page(1, &page(3)).unwrap();
    let (header, store) = (engine.header().unwrap(), *engine.store());
    let (main, log) = (engine.main.clone(), engine.log.clone());
    let right = engine.staging.clone();
    assert_eq!(right.len(), 98_304);
    for length in [0, PAGE, 98_303, 98_305, 98_304 + PAGE, 262_144] {
        engine.staging = vec![0; length].into();
        engine.check_readable();
        assert_eq!(engine.create(7), Err(Refusal::Area));
        assert_eq!(engine.read_page(1), Err(Refusal::Area));
        assert_eq!(engine.stage_page(1, &page(1)), Err(Refusal::Area));
        assert_eq!(engine.preview_commit(header), Err((Refusal::Area, 0)));
        assert_eq!(engine.begin_commit(header, 1), Err((Refusal::Area, 0)));
        assert_eq!(engine.commit(header, 1), Err((Refusal::Area, 0)));
        assert_eq!(engine.begin_checkpoint(1), Err(Refusal::Area));
        assert_eq!(engine.checkpoint(1), Err(Refusal::Area));
        assert_eq!(engine.next_step(), Err(Refusal::Area));
        for clean in [true, false] {
            assert_eq!(engine.reopen(clean, 2 * PAGE, Some(32), false, 1), Err(Refusal::Area));
        }
        assert!(engine.staging.iter().all(|&byte| byte == 0));
        assert_eq!((*engine.store(), &engine.main, &engine.log), (store, &main, &log));
    }
    engine.staging = right;
    engine.check_readable();
    assert_eq!(engine.read_page(1).unwrap(), Some(&page(3)));
}
