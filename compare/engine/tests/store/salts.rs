use engine::sql::pager::pager::Pager;
use stand_in::world;

use crate::common::*;

fn salt_at(at: usize) -> u32 {
    u32::from_le_bytes(bytes_of(&log_file())[at..at + 4].try_into().unwrap())
}

const HEADER_SALT: usize = 16;
const FIRST_FRAME_SALT: usize = 32 + 8;

#[test]
fn salts_come_out_as_given() {
    let borderline = [0, 1, 999_999_999, 1_000_000_000, 4_000_000_000, u32::MAX];
    for salt in borderline
        .into_iter()
        .chain((0..200).map(|n| world::mix(n) as u32))
    {
        world::reset();
        world::queue_salt(salt);
        world::queue_salt(!salt);
        let mut store = Pager::create(&main_file()).unwrap();
        assert_eq!(salt_at(HEADER_SALT), salt);
        store.commit(header(2)).unwrap();
        assert_eq!(salt_at(FIRST_FRAME_SALT), salt);
        store.checkpoint().unwrap();
        assert_eq!(salt_at(HEADER_SALT), !salt);
    }
}

#[test]
fn without_a_given_salt_the_draws_count() {
    let mut store = new_store();
    assert_eq!(salt_at(HEADER_SALT), world::mix(1) as u32);
    store.commit(header(2)).unwrap();
    store.checkpoint().unwrap();
    assert_eq!(salt_at(HEADER_SALT), world::mix(2) as u32);
}

#[test]
fn an_opening_that_makes_a_log_draws_a_salt() {
    drop(new_store());
    world::remove_file(&log_file());
    world::queue_salt(77);
    Pager::open(&main_file()).unwrap();
    assert_eq!(salt_at(HEADER_SALT), 77);
}
