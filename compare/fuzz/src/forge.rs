//! Structs with wrong numbers in them.

use lateenbael_sys::{Building, DbHeader, STAGED_PAGES, Store, Wal, WalHeader};
use splitmix::Random;

use crate::edges;

/// A header to commit: mostly one that can be.
pub fn db_header(random: &mut Random, like: DbHeader) -> DbHeader {
    let mut header = like;
    match random.below(4) {
        0 => header.page_count = 1 + random.below(40) as u32,
        1 => header.page_count = header.page_count.wrapping_add(random.below(3) as u32),
        _ => {}
    }
    header.format_version = 4 + random.below(3) as u16;
    header.schema_root_page = random.u32();
    if random.percent(10) {
        alter_db_header(random, &mut header);
    }
    header
}

fn alter_db_header(random: &mut Random, header: &mut DbHeader) {
    let number = edges::number(random);
    match random.below(4) {
        0 => header.page_count = number as u32,
        1 => header.schema_root_page = number as u32,
        2 => header.format_version = number as u16,
        _ => header.freelist_head = number as u32,
    }
}

pub fn wal_header(random: &mut Random, like: WalHeader) -> WalHeader {
    let mut header = like;
    alter_wal_header(random, &mut header);
    header
}

fn alter_wal_header(random: &mut Random, header: &mut WalHeader) {
    let number = edges::number(random);
    match random.below(4) {
        0 => header.version = number as u32,
        1 => header.salt = number as u32,
        2 => header.checkpoint_seq = number as u32,
        _ => header.clock_high_water = number,
    }
}

/// One field of an open log gets another number.
pub fn alter_wal(random: &mut Random, wal: &mut Wal) {
    let number = edges::number(random);
    match random.below(7) {
        0 => alter_wal_header(random, &mut wal.header),
        1 => wal.len = number as usize,
        2 => wal.good_end = number as usize,
        3 => wal.last_commit_offset = number as usize,
        4 => wal.frame_count = number as usize,
        5 => wal.committed = number as u32,
        _ => wal.last_commit_page_count = number as u32,
    }
}

/// One field of a store gets another number.
pub fn alter_store(random: &mut Random, store: &mut Store) {
    let number = edges::number(random);
    match random.below(16) {
        0 => alter_db_header(random, &mut store.current_header),
        1..=4 => alter_wal(random, &mut store.wal),
        5 => store.recovered = number as usize,
        6 => store.storage.len = number as usize,
        7 => alter_db_header(random, &mut store.storage.header),
        8 => store.staged.count = number as usize,
        9 => store.staged.pages[random.below(STAGED_PAGES)] = number as u16,
        10 => store.job.kind = random.below(8) as u32,
        11 => store.job.kind = number as u32,
        12 => store.job.page = number as usize,
        13 => store.job.answer = number as usize,
        14 => alter_db_header(random, &mut store.job.header),
        _ => store.opening = number as u32,
    }
}

/// How many fields are altered: mostly none, now and then all of them.
pub fn alterations(random: &mut Random) -> usize {
    match random.below(10) {
        0..=5 => 0,
        6 | 7 => 1,
        8 => 3,
        _ => 200,
    }
}

pub fn building(random: &mut Random, like: Building) -> Building {
    let mut building = like;
    for _ in 0..alterations(random).min(10) {
        let number = edges::number(random);
        match random.below(5) {
            0 => building.refusal = number as u32,
            1 => building.at = number as u32,
            2 => building.counted = number as u32,
            3 => building.records = number as u16,
            _ => building.columns = number as u16,
        }
    }
    building
}
