//! Bytes that were never a log.

use splitmix::Random;

use super::headers::CREATED;
use super::place;
use super::recipe::Recipe;
use crate::cases::Cases;
use crate::frame::{Heading, SeededFrame};

pub fn add_all(cases: &mut Cases) {
    alone(cases);
    behind_a_header(cases);
}

/// Without a header: pseudo-random bytes, a main file's, frames alone.
fn alone(cases: &mut Cases) {
    let mut random = Random::new(8);
    for length in [1, 7, 16, 30, 31, 32, 33, 48, 64, 100, 150, 200] {
        cases.add(Recipe::default().bytes(&random.bytes(length)));
    }
    let main = Recipe::default().bytes(b"SQLRiteFormat\0\0\0\x04\0\0\x10\x02\0\0\0\x01");
    cases.add(main.clone().length(4_096));
    cases.add(main.length(8_192));
    cases.add(Recipe::default().bytes(b"SQLite format 3\0").length(4_096));
    for kind in 0..6 {
        let frame = SeededFrame::new(Heading::new(random.u32(), 0, random.u32()), kind, 254);
        cases.add(Recipe::default().seeded(frame));
        cases.add(Recipe::default().seeded(frame).seeded(frame).length(5_000));
    }
    cases.add(Recipe::default().length(place(15)));
    // A header that isn't at the front.
    cases.add(Recipe::default().bytes(b"\0").bytes(CREATED.log().log()));
    cases.add(Recipe::default().length(32).bytes(CREATED.log().log()));
}

/// Pseudo-random bytes where frames should be: few, then zeros up to the end
/// of a frame; or frames whose heading is replaced.
fn behind_a_header(cases: &mut Cases) {
    let mut random = Random::new(9);
    for length in [1, 4, 12, 15, 16, 17, 20, 40, 80, 120] {
        let log = CREATED.log().bytes(&random.bytes(length));
        cases.add(log.clone());
        cases.add(log.length(place(1 + length % 4)));
        let committed = CREATED.log().page(0, 2, b"");
        let log = committed.bytes(&random.bytes(length));
        cases.add(log.length(place(3)));
    }
    for round in 0..24 {
        let page = random.below(9) as u32;
        let mut log = CREATED.log().page(page, 2, b"good");
        for index in 1..3 {
            let heading = Heading::new(page, 0, log.salt());
            log = log.seeded(SeededFrame::new(heading, round % 6, random.u32()));
            // Some leave the salt as it is.
            let kept = random.pick(&[0, 0, 4, 8]);
            let put = random.bytes(16 - kept);
            let at = random.pick(&[0, kept]);
            log = log.put(place(index) + at, &put);
        }
        cases.add(log);
    }
}
