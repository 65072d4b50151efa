//! The store's calls, each with arguments good and bad.

use std::ops::Range;

use commit_preview::Before;
use lateenbael_sys as sys;
use sys::{
    Answered, DbHeader, FRAME_SIZE, LOG_AREA, MAIN_AREA, PAGE_SIZE, PageAnswer, PreviewAnswered,
    STAGING_AREA, Store,
};

use crate::closed::no_preview;
use crate::edges;
use crate::forge;
use crate::made_log;
use crate::world::{Call, World, Writes};

pub const WAL_HEADER_SIZE: usize = 32;

/// Where the log's header stands.
const LOG_HEADER: Range<usize> = 0..WAL_HEADER_SIZE;

/// The names of the exports, and what calls them.
pub const CALLS: [Call; 22] = [
    ("create", create),
    ("open_with_mode", open),
    ("open_clean", open_clean),
    ("header", header),
    ("access_mode", access_mode),
    ("clock_high_water", clock_high_water),
    ("observe_clock_high_water", observe_clock_high_water),
    ("find_page", find_page),
    ("recovered_mvcc_commits", recovered_mvcc_commits),
    ("stage_page", stage_page),
    ("clear_staged", clear_staged),
    ("append_mvcc_batch", append_mvcc_batch),
    ("preview_commit", preview_commit),
    ("begin_commit", begin_commit),
    ("begin_checkpoint", begin_checkpoint),
    ("next_step", next_step),
    ("commit", commit),
    ("checkpoint", checkpoint),
    ("place_page", place_page),
    ("may_read", may_read),
    ("read_end", read_end),
    ("stage_in", stage_in),
];

/// A call over four areas that are lent: what stands before them, and what
/// behind.
macro_rules! over_lent {
    ($lent:ident, $call:path, [$($before:expr),*], [$($behind:expr),*]) => {{
        let (table, log, main, staging) = &$lent;
        // The areas are there; a wrong length must be refused unread.
        unsafe {
            $call(
                $($before,)*
                table.at,
                table.len,
                log.at,
                log.len,
                main.at,
                main.len,
                staging.at,
                staging.len,
                $($behind,)*
            )
        }
    }};
}

/// The same, with the areas lent for it.
macro_rules! over_areas {
    ($world:ident, $call:path, [$($before:expr),*], [$($behind:expr),*]) => {{
        let (lent, right) = $world.lend();
        let answer = over_lent!(lent, $call, [$($before),*], [$($behind),*]);
        (answer, right)
    }};
}

fn create(world: &mut World, export: &'static str) {
    let writes = Writes {
        table: true,
        log: vec![LOG_HEADER],
        main: Some(0..2 * PAGE_SIZE),
        staging: false,
    };
    world.begin(export, &writes);
    let salt = world.random.u32();
    let (answered, right) = over_areas!(world, sys::lateenbael_create, [], [salt]);
    world.end(export, answered.refusal, right, &writes);
    world.take_opened(export, &answered);
}

fn open(world: &mut World, export: &'static str) {
    opening(world, export, sys::lateenbael_open_with_mode, false);
}

fn open_clean(world: &mut World, export: &'static str) {
    opening(world, export, sys::lateenbael_open_clean, true);
}

type Opening = unsafe extern "C" fn(
    *mut u32,
    usize,
    *mut u8,
    usize,
    *const u8,
    usize,
    *const u8,
    usize,
    usize,
    usize,
    u32,
    u32,
    u32,
) -> sys::Answered;

fn opening(world: &mut World, export: &'static str, call: Opening, clean: bool) {
    let made = world.random.percent(30).then(|| made_log::put(world));
    spoil(world);
    let exists = u32::from(!world.random.percent(10));
    let main_len = match world.random.percent(15) {
        true => edges::number(&mut world.random) as usize,
        false => world.store.storage.len,
    };
    let log_len = match (made, world.random.below(8)) {
        (_, 0) => edges::number(&mut world.random) as usize,
        (Some(made), _) => made,
        (None, 1..=3) => world.wal.len,
        (None, _) => world.store.wal.len,
    };
    let mode = [0, 0, 0, 1, u32::MAX][world.random.below(5)];
    let writes = Writes {
        table: true,
        log: match (exists, mode) {
            (0, 0) => vec![LOG_HEADER],
            _ => Vec::new(),
        },
        ..Writes::default()
    };
    world.begin(export, &writes);
    let salt = world.random.u32();
    let (answered, right) = over_areas!(world, call, [], [main_len, log_len, mode, exists, salt]);
    world.end(export, answered.refusal, right, &writes);
    if answered.refusal == 0 {
        let clock = answered.store.wal.header.clock_high_water;
        let log_len = (exists != 0).then_some(log_len);
        clock_as_read(world, export, clock, log_len, clean);
    }
    world.take_opened(export, &answered);
}

/// The clock behind an opening is the one that the log's bytes tell; without
/// a log it is 0.
fn clock_as_read(world: &mut World, export: &str, clock: u64, log_len: Option<usize>, clean: bool) {
    let log = log_len.and_then(|len| world.log.bytes().get(..len));
    let read = log.and_then(opening_clock::read);
    let (header, taken) = read.map_or((0, 0), |read| (read.plain(), read.clean()));
    let wanted = if clean { taken } else { header };
    if clock != wanted {
        let what = format!("clock {clock}, by the log's bytes {wanted}");
        world.tally.fault(export, &what);
    }
    world.tally.raised += usize::from(clean && taken > header);
}

/// Now and then a byte of a file is another: of a header, a frame's heading,
/// or anywhere.
fn spoil(world: &mut World) {
    if !world.random.percent(10) {
        return;
    }
    let frame = WAL_HEADER_SIZE + FRAME_SIZE * world.random.below(70);
    let near = world.random.below(40);
    let byte = world.random.u8();
    match world.random.below(4) {
        0 => world.main.put(near, &[byte]),
        1 => world.log.put(near, &[byte]),
        2 => world.log.put(frame + near, &[byte]),
        _ => {
            let at = world.random.below(LOG_AREA);
            world.log.put(at, &[byte]);
        }
    }
}

fn header(world: &mut World, export: &'static str) {
    let (store, _) = world.any_store();
    let answer = unsafe { sys::lateenbael_header(store) };
    world.end(export, answer.refusal, true, &Writes::default());
}

fn access_mode(world: &mut World, export: &'static str) {
    let (store, _) = world.any_store();
    let answer = unsafe { sys::lateenbael_access_mode(store) };
    world.end(export, answer.refusal, true, &Writes::default());
}

fn clock_high_water(world: &mut World, export: &'static str) {
    let (store, _) = world.any_store();
    let answer = unsafe { sys::lateenbael_clock_high_water(store) };
    world.end(export, answer.refusal, true, &Writes::default());
}

fn observe_clock_high_water(world: &mut World, export: &'static str) {
    let given = world.any_store();
    let value = edges::number(&mut world.random);
    let answered = unsafe { sys::lateenbael_observe_clock_high_water(given.0, value) };
    world.end(export, answered.refusal, true, &Writes::default());
    world.take(export, given, &answered);
}

fn find_page(world: &mut World, export: &'static str) {
    let (store, _) = world.any_store();
    let page_num = page_num(world);
    let (answer, right) = over_areas!(world, sys::lateenbael_find_page, [store], [page_num]);
    world.end(export, answer.refusal, right, &Writes::default());
    page_inside(world, export, answer);
}

/// Of what a reading takes of the store.
fn may_read(world: &mut World, export: &'static str) {
    let (store, _) = world.any_store();
    let (count, job) = (store.current_header.page_count, store.job.kind);
    let (log_len, main_len) = (store.wal.len, store.storage.len);
    let may_read = sys::lateenbael_may_read;
    let (refusal, right) = over_areas!(world, may_read, [count, job, log_len, main_len], []);
    world.end(export, refusal, right, &Writes::default());
}

/// Behind the end that is answered no page is found.
fn read_end(world: &mut World, export: &'static str) {
    let (store, _) = world.any_store();
    let (count, staged) = (
        store.current_header.page_count,
        Box::new(store.staged.pages),
    );
    let end = unsafe { sys::lateenbael_read_end(count, store.staged.count) };
    world.end(export, 0, true, &Writes::default());
    let table = world.table.lend(&mut world.random);
    let page_num = page_num(world);
    if page_num as usize >= end {
        let place = sys::lateenbael_place_page;
        let answer = unsafe {
            place(
                count,
                page_num,
                store.staged.count,
                &staged,
                table.at,
                table.len.min(sys::PAGES),
            )
        };
        assert_eq!((answer.refusal, answer.area), (0, 0), "{export}");
    }
}

/// The same, with any number of staged pages, and no more of the table than
/// there is: its length is not judged.
fn place_page(world: &mut World, export: &'static str) {
    let (store, _) = world.any_store();
    let page_num = page_num(world);
    let staged_count = match world.random.percent(50) {
        true => store.staged.count,
        false => world.random.below(sys::STAGED_PAGES + 2),
    };
    // Of its own, so that valgrind sees an access outside.
    let staged = Box::new(store.staged.pages);
    let table = world.table.lend(&mut world.random);
    let answer = unsafe {
        sys::lateenbael_place_page(
            store.current_header.page_count,
            page_num,
            staged_count,
            &staged,
            table.at,
            table.len.min(sys::PAGES),
        )
    };
    world.end(export, answer.refusal, true, &Writes::default());
    page_inside(world, export, answer);
}

/// A page that is found lies inside its area, whatever the table holds.
fn page_inside(world: &mut World, export: &'static str, answer: PageAnswer) {
    let size = match answer.area {
        0 => return,
        1 => LOG_AREA,
        2 => MAIN_AREA,
        3 => STAGING_AREA,
        _ => 0,
    };
    world.inside(export, answer.at, sys::PAGE_SIZE, size);
}

fn page_num(world: &mut World) -> u32 {
    match world.random.below(4) {
        0 => edges::number(&mut world.random) as u32,
        1 => world.random.below(1_030) as u32,
        _ => world.random.below(40) as u32,
    }
}

fn recovered_mvcc_commits(world: &mut World, export: &'static str) {
    let (store, _) = world.any_store();
    let index = match world.random.percent(50) {
        true => world.random.below(20),
        false => edges::number(&mut world.random) as usize,
    };
    let log = world.log.lend(&mut world.random);
    let place = unsafe { sys::lateenbael_recovered_mvcc_commits(store, log.at, log.len, index) };
    world.end(export, place.refusal, log.right, &Writes::default());
    if place.refusal == 0 && place.found != 0 {
        world.inside(export, place.offset, FRAME_SIZE, LOG_AREA);
    }
}

/// The same as `stage_page`, with the numbers stored in place: of its own, so
/// that valgrind sees an access outside.
fn stage_in(world: &mut World, export: &'static str) {
    let (store, _) = world.any_store();
    let page_num = match world.random.percent(50) {
        true => store.staged.pages[world.random.below(4)].into(),
        false => page_num(world),
    };
    let mut bytes = vec![0; PAGE_SIZE];
    edges::overwrite(&mut world.random, &mut bytes);
    let mut page = world.slice(&bytes);
    let mut staged = Box::new(store.staged.pages);
    let writes = Writes {
        staging: true,
        ..Writes::default()
    };
    world.begin(export, &writes);
    let staging = world.staging.lend(&mut world.random);
    let arg = page.lend(&mut world.random);
    let done = unsafe {
        sys::lateenbael_stage_in(
            store.job.kind,
            page_num,
            store.staged.count,
            &mut staged,
            staging.at,
            staging.len,
            arg.at,
            arg.len,
        )
    };
    world.end(export, done.refusal, staging.right && arg.right, &writes);
    world.unaltered(export, &page);
    if done.refusal != 0 {
        assert_eq!(
            (done.count, *staged),
            (store.staged.count, store.staged.pages),
            "{export}"
        );
    }
}

fn stage_page(world: &mut World, export: &'static str) {
    let given = world.any_store();
    let page_num = page_num(world);
    let mut bytes = vec![0; PAGE_SIZE];
    edges::overwrite(&mut world.random, &mut bytes);
    let mut page = world.slice(&bytes);
    let writes = Writes {
        staging: true,
        ..Writes::default()
    };
    world.begin(export, &writes);
    let staging = world.staging.lend(&mut world.random);
    let arg = page.lend(&mut world.random);
    let answered = unsafe {
        sys::lateenbael_stage_page(given.0, staging.at, staging.len, page_num, arg.at, arg.len)
    };
    let right = staging.right && arg.right;
    world.end(export, answered.refusal, right, &writes);
    world.unaltered(export, &page);
    world.take(export, given, &answered);
}

fn clear_staged(world: &mut World, export: &'static str) {
    let given = world.any_store();
    let answered = unsafe { sys::lateenbael_clear_staged(given.0) };
    world.end(export, answered.refusal, true, &Writes::default());
    world.take(export, given, &answered);
}

/// The frames that a commit or append adds land at the log's length.
pub fn frames(len: usize, count: usize) -> Range<usize> {
    let from = len.min(LOG_AREA);
    from..from.saturating_add(count * FRAME_SIZE).min(LOG_AREA)
}

fn append_mvcc_batch(world: &mut World, export: &'static str) {
    let given = world.any_store();
    let mut body = crate::batch_calls::any_body(world);
    let writes = Writes {
        log: vec![frames(given.0.wal.len, 1)],
        ..Writes::default()
    };
    world.begin(export, &writes);
    let log = world.log.lend(&mut world.random);
    let arg = body.lend_own();
    let answered =
        unsafe { sys::lateenbael_append_mvcc_batch(given.0, log.at, log.len, arg.at, arg.len) };
    world.end(export, answered.refusal, log.right, &writes);
    world.unaltered(export, &body);
    world.take(export, given, &answered);
}

/// A store and a header to commit; now and then with so many frames that the
/// commit comes near 100, or to 2^64, where their number wraps.
fn to_commit(world: &mut World) -> ((Store, bool), DbHeader) {
    let (mut store, mut forged) = world.any_store();
    let random = &mut world.random;
    if random.percent(10) {
        let border = random.pick(&[101, 0_usize]);
        store.wal.frame_count = border.wrapping_sub(random.below(sys::STAGED_PAGES + 4));
        forged = true;
    }
    let header = forge::db_header(random, store.current_header);
    ((store, forged), header)
}

fn preview_commit(world: &mut World, export: &'static str) {
    let ((store, _), header) = to_commit(world);
    let call = sys::lateenbael_preview_commit;
    let (shown, right) = over_areas!(world, call, [store], [header]);
    world.end(export, shown.refusal, right, &Writes::default());
    preview_as_told(world, export, &shown, &store, &header);
}

/// A preview that is refused tells nothing but the page beside 14; any other
/// what the papers say, of a commit of as many pages as it answers.
fn preview_as_told(
    world: &mut World,
    export: &str,
    shown: &PreviewAnswered,
    store: &Store,
    header: &DbHeader,
) {
    let before = Before {
        frames: store.wal.frame_count as u64,
        log: store.wal.len as u64,
        main: store.storage.len as u64,
        differing: shown.answer as u64,
        page_count: header.page_count,
    };
    let told = match shown.refusal {
        0 => told_by(&before),
        14 => no_preview(14, shown.answer),
        refusal => no_preview(refusal, 0),
    };
    if *shown != told {
        let what = format!("{shown:?}, by the papers {told:?}");
        world.tally.fault(export, &what);
    }
}

fn told_by(before: &Before) -> PreviewAnswered {
    let told = before.preview();
    PreviewAnswered {
        refusal: 0,
        checkpointed: told.folds.into(),
        answer: told.answer as usize,
        frame_count: told.frames as usize,
        log_len: told.log as usize,
        main_len: told.main as usize,
    }
}

/// A preview with the same arguments tells the refusal before.
fn begin_commit(world: &mut World, export: &'static str) {
    let (given, header) = to_commit(world);
    let salt = world.random.u32();
    let (lent, right) = world.lend();
    let shown = over_lent!(lent, sys::lateenbael_preview_commit, [given.0], [header]);
    let call = sys::lateenbael_begin_commit;
    let answered = over_lent!(lent, call, [given.0], [header, salt]);
    world.end(export, answered.refusal, right, &Writes::default());
    let same = shown.refusal == answered.refusal;
    if !same || answered.refusal != 0 && shown.answer != answered.answer {
        let what = format!("{shown:?} shown before it");
        world.tally.fault(export, &what);
    }
    world.take(export, given, &answered);
}

fn begin_checkpoint(world: &mut World, export: &'static str) {
    let given = world.any_store();
    let salt = world.random.u32();
    let call = sys::lateenbael_begin_checkpoint;
    let (answered, right) = over_areas!(world, call, [given.0], [salt]);
    world.end(export, answered.refusal, right, &Writes::default());
    world.take(export, given, &answered);
}

/// What the next step of a store may write.
fn step_writes(store: &Store) -> Writes {
    let (log, main) = match store.job.kind {
        1 => (vec![frames(store.wal.len, 1)], None),
        2 | 3 => (Vec::new(), Some(0..MAIN_AREA)),
        // A length that grows brings zeros: a forged one may be below 32.
        4 | 5 => (vec![LOG_HEADER], None),
        _ => (Vec::new(), None),
    };
    Writes {
        table: true,
        log,
        main,
        staging: false,
    }
}

fn next_step(world: &mut World, export: &'static str) {
    let given = world.any_store();
    let writes = step_writes(&given.0);
    world.begin(export, &writes);
    let (step, right) = over_areas!(world, sys::lateenbael_next_step, [given.0], []);
    world.end(export, step.refusal, right, &writes);
    let answered = sys::Answered {
        refusal: step.refusal,
        begun: 0,
        answer: step.answer,
        store: step.store,
    };
    world.take(export, given, &answered);
    if step.refusal == 0 && step.kind != 0 {
        let size = if step.area == 1 { LOG_AREA } else { MAIN_AREA };
        world.inside(export, step.at, step.len, size);
    }
}

/// A commit adds a frame for each staged page and one more, and a checkpoint
/// follows only if that makes 100.
fn commit_writes(store: &Store) -> Writes {
    let most = sys::STAGED_PAGES + 1;
    let mut log = vec![frames(store.wal.len, most)];
    let checkpoints = store.wal.frame_count >= sys::CHECKPOINT_FRAMES - most;
    if checkpoints {
        log.push(LOG_HEADER);
    }
    Writes {
        table: true,
        log,
        main: checkpoints.then_some(0..MAIN_AREA),
        staging: false,
    }
}

/// A preview with the same arguments tells before what it comes to, and alters
/// nothing of what the commit may write.
fn commit(world: &mut World, export: &'static str) {
    let (given, header) = to_commit(world);
    let salt = world.random.u32();
    let (lent, right) = world.lend();
    let shown = over_lent!(lent, sys::lateenbael_preview_commit, [given.0], [header]);
    preview_as_told(world, "preview_commit", &shown, &given.0, &header);
    let writes = commit_writes(&given.0);
    world.begin(export, &writes);
    let answered = over_lent!(lent, sys::lateenbael_commit, [given.0], [header, salt]);
    world.end(export, answered.refusal, right, &writes);
    commit_as_previewed(world, export, &shown, &answered);
    world.take_ended(export, given, &answered);
}

fn commit_as_previewed(
    world: &mut World,
    export: &str,
    shown: &PreviewAnswered,
    answered: &Answered,
) {
    let Answered { answer, store, .. } = answered;
    let left = match answered.refusal {
        0 => PreviewAnswered {
            refusal: 0,
            checkpointed: (store.wal.len == WAL_HEADER_SIZE).into(),
            answer: *answer,
            frame_count: store.wal.frame_count,
            log_len: store.wal.len,
            main_len: store.storage.len,
        },
        refusal => no_preview(refusal, *answer),
    };
    if left != *shown {
        let what = format!("{left:?}, shown before it {shown:?}");
        world.tally.fault(export, &what);
    }
    if shown.refusal == 0 {
        world.tally.previewed[shown.checkpointed.min(1) as usize] += 1;
    }
}

fn checkpoint(world: &mut World, export: &'static str) {
    let given = world.any_store();
    let salt = world.random.u32();
    let writes = Writes {
        table: true,
        log: vec![LOG_HEADER],
        main: Some(0..MAIN_AREA),
        staging: false,
    };
    world.begin(export, &writes);
    let (answered, right) = over_areas!(world, sys::lateenbael_checkpoint, [given.0], [salt]);
    world.end(export, answered.refusal, right, &writes);
    world.take_ended(export, given, &answered);
}
