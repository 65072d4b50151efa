//! Logs that end inside a frame, and what may come behind such an end.

use super::headers::{CREATED, Header};
use super::place;
use super::recipe::Recipe;
use crate::cases::Cases;
use crate::frame::{Heading, SeededFrame};

/// A page and two commit frames, with bodies that have few zeros.
pub fn three_frames() -> Recipe {
    let frame = |page, count, kind, seed| {
        let heading = Heading::new(page, count, CREATED.salt);
        SeededFrame::new(heading, kind, seed)
    };
    CREATED
        .log()
        .seeded(frame(1, 0, 1, 11))
        .seeded(frame(2, 3, 5, 4_096))
        .seeded(frame(0, 4, 3, 13))
}

/// Bytes of a frame that a cut leaves.
const LEFT: [usize; 17] = [
    0, 1, 3, 4, 5, 8, 11, 12, 13, 15, 16, 17, 100, 2_064, 4_095, 4_110, 4_111,
];

pub fn add_all(cases: &mut Cases) {
    torn(cases);
    filled_up(cases);
    off_their_places(cases);
}

fn torn(cases: &mut Cases) {
    for index in 0..3 {
        for left in LEFT {
            cases.add(three_frames().length(place(index) + left));
        }
    }
    cases.add(three_frames());
    for more in [1, 16, 4_111] {
        cases.add(three_frames().length(place(3) + more));
    }
}

/// Zeros where a frame was cut off. A body of zeros is whole again.
fn filled_up(cases: &mut Cases) {
    for left in LEFT {
        for index in [1, 2] {
            let log = three_frames().length(place(index) + left);
            cases.add(log.length(place(3)));
        }
        let bare = CREATED.log().page(1, 2, b"").page(0x0102_0304, 3, b"");
        cases.add(bare.length(place(1) + left).length(place(2)));
    }
}

/// A frame added behind a torn frame lands off its place, and one behind it
/// too. With zeros between they are at their places, but behind a bad frame.
fn off_their_places(cases: &mut Cases) {
    let bare = Header { salt: 0, ..CREATED };
    let bare = bare.log().page(1, 2, b"").page(2, 0, b"two");
    for left in [1, 8, 16, 32, 2_056, 4_096, 4_111] {
        let torn = three_frames().length(place(2) + left);
        let added = torn.clone().page(7, 0, b"seven").page(0, 8, b"");
        cases.add(torn.clone().page(0, 8, b""));
        cases.add(added.clone());
        // The log's end is where a third frame would end.
        cases.add(added.length(place(4)));
        cases.add(torn.length(place(3)).page(7, 0, b"seven").page(0, 8, b""));
        // Under salt 0, with bodies of zeros, much looks like a frame.
        let torn = bare.clone().length(place(1) + left);
        cases.add(torn.clone().page(0, 0, b"").page(0, 0, b""));
        cases.add(torn.clone().page(0, 3, b"").page(0, 4, b""));
        cases.add(torn.length(place(2)).page(0, 3, b""));
    }
}
