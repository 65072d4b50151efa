//! Pseudo-random logs of 0 to 15 frames, most of them with a fault.

use splitmix::Random;

use super::headers::{CREATED, Header};
use super::place;
use super::recipe::{LONGEST_LOG, Recipe};
use crate::batch::body::Body;
use crate::cases::Cases;
use crate::frame::{Heading, SeededFrame};

pub fn logs(cases: &mut Cases) {
    let mut random = Random::new(10);
    for round in 0..176 {
        let log = good(&mut random, round % 16);
        cases.add(faulty(&mut random, log));
    }
}

/// Good frames, but now and then a batch that doesn't decode.
fn good(random: &mut Random, frames: usize) -> Recipe {
    let salt = random.u32();
    let header = Header {
        version: 1 + random.below(3) as u32,
        salt: random.pick(&[salt, salt, 0, 1]),
        sequence: random.u32() >> random.below(32),
        clock: random.u64() >> random.below(64),
        ..CREATED
    };
    (0..frames).fold(header.log(), |log, _| frame(random, log))
}

pub fn frame(random: &mut Random, log: Recipe) -> Recipe {
    let page = random.below(5) as u32;
    let count = 1 + random.below(6) as u32;
    let count = random.pick(&[0, 0, count]);
    let body = random.below(8);
    match random.below(10) {
        0 => {
            let heading = Heading::new(page, count, log.salt());
            let kind = random.below(6) as u8;
            log.seeded(SeededFrame::new(heading, kind, random.u32()))
        }
        1 => log.batch(count, Body::new(random.u64() >> 60, body as u16)),
        2 => log.batch(count, Body::new(0, 1).tombstone("t", body as i64)),
        3 if body == 0 => log.batch(count, b"no batch"),
        _ => log.page(page, count, &random.bytes(body)),
    }
}

/// One log in three stays as it is.
pub fn faulty(random: &mut Random, log: Recipe) -> Recipe {
    let length = log.log().len();
    let any = random.below(length);
    let frame = place(random.below(1 + length / 4_112));
    let near = (frame + random.below(20)).min(length - 1);
    let change = random.pick(&[0x01, 0x80, 0xff]);
    match random.below(9) {
        0 => log.changed(any, change),
        1 | 2 => log.changed(near, change),
        3 => log.length(any),
        4 => log.length(near.max(32)).length(length),
        5 if length + 4_112 <= LONGEST_LOG && near > 32 => {
            let salt = log.salt();
            let torn = log.length(near);
            torn.frame(Heading::new(1, 1, salt), b"")
        }
        _ => log,
    }
}
