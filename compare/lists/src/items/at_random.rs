//! Pseudo-random bodies.

use splitmix::Random;

use super::{WHOLE, case};
use crate::batch::body::Body;
use crate::batch::limits::of_length;
use crate::batch::{at_random, whole};
use crate::cases::Cases;

pub(super) fn add_all(cases: &mut Cases) {
    batches(cases);
    heavy_ones(cases);
}

/// Half of them good, the others with a byte replaced, removed or put in;
/// every third as it stands in a frame.
fn batches(cases: &mut Cases) {
    let mut random = Random::new(14);
    for round in 0..300 {
        let mut bytes = at_random::bytes(&mut random, round % 6);
        if random.one_in(3) {
            bytes = whole(bytes);
        }
        cases.add(case(WHOLE, bytes));
    }
}

fn heavy_ones(cases: &mut Cases) {
    let mut random = Random::new(15);
    for _ in 0..300 {
        cases.add(case(WHOLE, heavy(&mut random)));
    }
}

/// A body with high counts and, behind a few small bytes, zeros, so that most
/// have many items: of up to 4,096 bytes, and of some more.
pub fn heavy(random: &mut Random) -> Vec<u8> {
    let mut body = Body::new(14, random.pick(&[1, 1, 1, 2, 3, 50, 370, u16::MAX]));
    if random.percent(70) {
        let columns = random.pick(&[0, 3, 200, 1_355, 1_355, u16::MAX]);
        body = body.present("", 0, columns);
    }
    if random.percent(60) {
        for _ in 0..random.below(40) {
            let any = random.u8();
            body = body.bytes([random.pick(&[0, 0, 0, 0, 1, 1, any % 7, any])]);
        }
    }
    let any = random.between(60, 4_100);
    of_length(&body, random.pick(&[any, 4_096, 4_096, 4_096, 4_100]))
}
