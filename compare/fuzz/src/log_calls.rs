//! The calls of the log alone and of the headers.

use std::ops::Range;

use lateenbael_sys as sys;
use sys::{FRAME_SIZE, LISTING_SIZE, LOG_AREA, PAGE_SIZE, WalAnswer};

use crate::batch_calls::any_body;
use crate::closed::NO_WAL;
use crate::edges;
use crate::forge;
use crate::store_calls::{WAL_HEADER_SIZE, frames};
use crate::world::{Call, World, Writes};

pub const CALLS: [Call; 14] = [
    ("wal_create", create),
    ("wal_open", open),
    ("wal_append_frame", append_frame),
    ("wal_append_mvcc_batch", append_mvcc_batch),
    ("wal_truncate", truncate),
    ("wal_set_clock_high_water", set_clock_high_water),
    ("wal_frame_at", frame_at),
    ("wal_find_page", find_page),
    ("wal_next_batch", next_batch),
    ("list_log", list_log),
    ("encode_wal_header", encode_wal_header),
    ("decode_wal_header", decode_wal_header),
    ("encode_header", encode_header),
    ("decode_header", decode_header),
];

/// What a call may write of the log.
fn of_log(part: Range<usize>) -> Writes {
    Writes {
        log: vec![part],
        ..Writes::default()
    }
}

/// Takes over the log of an answer; beside a refusal all of it is 0.
fn take(world: &mut World, export: &str, answer: &WalAnswer) {
    if answer.refusal == 0 {
        world.wal = answer.wal;
        return;
    }
    if answer.wal != NO_WAL {
        world.tally.fault(export, "refused with a log");
    }
}

fn create(world: &mut World, export: &'static str) {
    let writes = of_log(0..WAL_HEADER_SIZE);
    world.begin(export, &writes);
    let salt = world.random.u32();
    let log = world.log.lend(&mut world.random);
    let answer = unsafe { sys::lateenbael_wal_create(log.at, log.len, salt) };
    world.end(export, answer.refusal, log.right, &writes);
    take(world, export, &answer);
}

/// The front of the log area, mostly as long as the log is; now and then with
/// the guard behind the area.
fn file(world: &mut World) -> (*const u8, usize) {
    let len = match world.random.below(10) {
        0 => world.random.below(LOG_AREA + 1),
        1 => edges::number(&mut world.random) as usize,
        2 => world.random.below(70) * 61,
        3 => LOG_AREA + world.random.below(world.guard + 1),
        4..=6 => world.wal.len,
        _ => world.store.wal.len,
    };
    (world.log.bytes().as_ptr(), len.min(LOG_AREA + world.guard))
}

fn open(world: &mut World, export: &'static str) {
    let (at, len) = file(world);
    let answer = unsafe { sys::lateenbael_wal_open(at, len) };
    let right = len <= LOG_AREA;
    world.end(export, answer.refusal, right, &Writes::default());
    if answer.refusal == 0 {
        keeps_clock(world, export, answer.wal.header.clock_high_water);
    }
    take(world, export, &answer);
}

/// A log that is opened by itself has its header's clock.
fn keeps_clock(world: &mut World, export: &str, clock: u64) {
    if world.log.bytes()[24..WAL_HEADER_SIZE] != clock.to_le_bytes() {
        world.tally.fault(export, "another clock than the header's");
    }
}

fn append_frame(world: &mut World, export: &'static str) {
    let wal = world.any_wal();
    let mut bytes = vec![0; PAGE_SIZE];
    edges::overwrite(&mut world.random, &mut bytes);
    let mut content = world.slice(&bytes);
    let page_num = edges::number(&mut world.random) as u32;
    let count = edges::number(&mut world.random) as u32;
    let writes = of_log(frames(wal.len, 1));
    world.begin(export, &writes);
    let log = world.log.lend(&mut world.random);
    let arg = content.lend(&mut world.random);
    let answer = unsafe {
        sys::lateenbael_wal_append_frame(log.at, log.len, wal, page_num, arg.at, arg.len, count)
    };
    world.end(export, answer.refusal, log.right && arg.right, &writes);
    world.unaltered(export, &content);
    take(world, export, &answer);
}

fn append_mvcc_batch(world: &mut World, export: &'static str) {
    let wal = world.any_wal();
    let mut body = any_body(world);
    let writes = of_log(frames(wal.len, 1));
    world.begin(export, &writes);
    let log = world.log.lend(&mut world.random);
    let arg = body.lend_own();
    let answer =
        unsafe { sys::lateenbael_wal_append_mvcc_batch(log.at, log.len, wal, arg.at, arg.len) };
    world.end(export, answer.refusal, log.right, &writes);
    world.unaltered(export, &body);
    take(world, export, &answer);
}

fn truncate(world: &mut World, export: &'static str) {
    let wal = world.any_wal();
    let writes = of_log(0..WAL_HEADER_SIZE);
    world.begin(export, &writes);
    let salt = world.random.u32();
    let log = world.log.lend(&mut world.random);
    let answer = unsafe { sys::lateenbael_wal_truncate(log.at, log.len, wal, salt) };
    world.end(export, answer.refusal, log.right, &writes);
    take(world, export, &answer);
}

fn set_clock_high_water(world: &mut World, export: &'static str) {
    let wal = world.any_wal();
    let value = edges::number(&mut world.random);
    let answer = unsafe { sys::lateenbael_wal_set_clock_high_water(wal, value) };
    world.end(export, answer.refusal, true, &Writes::default());
    take(world, export, &answer);
}

fn frame_at(world: &mut World, export: &'static str) {
    let (at, len) = file(world);
    let index = index(world);
    let answer = unsafe { sys::lateenbael_wal_frame_at(at, len, index) };
    world.end(export, 0, true, &Writes::default());
    if answer.found != 0 {
        world.inside(export, answer.offset, FRAME_SIZE, len);
    }
}

fn index(world: &mut World) -> usize {
    match world.random.percent(60) {
        true => world.random.below(100),
        false => edges::number(&mut world.random) as usize,
    }
}

fn find_page(world: &mut World, export: &'static str) {
    let (at, len) = file(world);
    let wal = world.any_wal();
    let page_num = match world.random.percent(60) {
        true => world.random.below(50) as u32,
        false => edges::number(&mut world.random) as u32,
    };
    let answer = unsafe { sys::lateenbael_wal_find_page(at, len, wal, page_num) };
    world.end(export, answer.refusal, true, &Writes::default());
    if answer.refusal == 0 && answer.area != 0 {
        world.inside(export, answer.at, PAGE_SIZE, len);
    }
}

fn next_batch(world: &mut World, export: &'static str) {
    let (at, len) = file(world);
    let wal = world.any_wal();
    let index = index(world);
    let place = unsafe { sys::lateenbael_wal_next_batch(at, len, wal, index) };
    world.end(export, place.refusal, true, &Writes::default());
    if place.refusal == 0 && place.found != 0 {
        world.inside(export, place.offset, FRAME_SIZE, len);
    }
}

fn list_log(world: &mut World, export: &'static str) {
    let (at, len) = file(world);
    let size = match world.random.below(5) {
        0 => world.random.below(LISTING_SIZE + 100),
        1 => 0,
        _ => LISTING_SIZE + world.random.below(10),
    };
    let mut out = world.slice(&vec![0x33; size]);
    let arg = out.lend_own();
    let answer = unsafe { sys::lateenbael_list_log(at, len, arg.at, arg.len) };
    world.end(export, answer.refusal, true, &Writes::default());
    if answer.refusal == 0 {
        world.inside(export, 0, answer.len, size);
        out.adopt(&(0..answer.len.min(size)));
    }
    world.unaltered(export, &out);
}

fn encode_wal_header(world: &mut World, export: &'static str) {
    let header = forge::wal_header(&mut world.random, world.wal.header);
    let writes = of_log(0..WAL_HEADER_SIZE);
    world.begin(export, &writes);
    let log = world.log.lend(&mut world.random);
    let refusal = unsafe { sys::lateenbael_encode_wal_header(header, log.at, log.len) };
    world.end(export, refusal, log.len >= WAL_HEADER_SIZE, &writes);
}

fn decode_wal_header(world: &mut World, export: &'static str) {
    let (at, len) = file(world);
    let answer = unsafe { sys::lateenbael_decode_wal_header(at, len) };
    world.end(export, answer.refusal, true, &Writes::default());
}

fn encode_header(world: &mut World, export: &'static str) {
    let header = forge::db_header(&mut world.random, world.store.current_header);
    let size = buffer_len(world);
    let mut buf = world.slice(&vec![0x44; size]);
    let arg = buf.lend_own();
    let refusal = unsafe { sys::lateenbael_encode_header(header, arg.at, arg.len) };
    world.end(export, refusal, true, &Writes::default());
    if refusal == 0 {
        buf.adopt(&buf.all());
    }
    world.unaltered(export, &buf);
}

fn buffer_len(world: &mut World) -> usize {
    match world.random.below(4) {
        0 => world.random.below(2 * PAGE_SIZE),
        1 => PAGE_SIZE + world.random.below(3) - 1,
        _ => PAGE_SIZE,
    }
}

fn decode_header(world: &mut World, export: &'static str) {
    let len = buffer_len(world);
    let mut bytes = world.main.bytes()[..len].to_vec();
    if world.random.percent(50) && len > 40 {
        let at = world.random.below(40);
        bytes[at] = world.random.u8();
    }
    let mut buf = world.slice(&bytes);
    let arg = buf.lend_own();
    let answer = unsafe { sys::lateenbael_decode_header(arg.at, arg.len) };
    world.end(export, answer.refusal, true, &Writes::default());
    world.unaltered(export, &buf);
}
