//! Document 01's case: "In a store of 6 pages or more: page 5 unsealed, cut, reopened, page 3
//! committed, reopened: plain openings show page 5's old tail, clean ones don't."
use lateenbael::Engine;

const OLD: [u8; 4096] = [1; 4096];
const UNCOMMITTED: [u8; 4096] = [2; 4096];

/// The files opened in other areas.
fn reopened(engine: &Engine, clean: bool) -> Engine {
    let mut other = Engine::new();
    let (main, log) = (engine.main_file(), Some(engine.log_file()));
    let opened = match clean {
        true => other.open_clean(main, log, false, 3),
        false => other.open_with_mode(main, log, false, 3),
    };
    opened.unwrap();
    other
}

/// What page 5 reads as in the end.
fn page_five(clean: bool) -> Vec<u8> {
    let mut engine = Engine::new();
    engine.create(7).unwrap();
    let mut header = engine.header().unwrap();
    header.page_count = 6;
    for page in 2..6 {
        engine.stage_page(page, &OLD).unwrap();
    }
    engine.commit(header, 1).unwrap();
    engine.stage_page(5, &UNCOMMITTED).unwrap();
    engine.begin_commit(header, 1).unwrap();
    engine.next_step().unwrap();
    let mut engine = reopened(&engine, clean);
    assert_eq!(engine.read_page(5).unwrap(), Some(&OLD));
    engine.stage_page(3, &UNCOMMITTED).unwrap();
    engine.commit(header, 1).unwrap();
    let engine = reopened(&engine, clean);
    assert_eq!(engine.read_page(3).unwrap(), Some(&UNCOMMITTED));
    engine.read_page(5).unwrap().unwrap().to_vec()
}

#[test]
fn only_plain_openings_show_old_uncommitted_frames() {
    assert_eq!(page_five(false), UNCOMMITTED);
    assert_eq!(page_five(true), OLD);
}
