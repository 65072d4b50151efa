//! Zero bytes. Under salt 0 they are good frames of page 0, not committed.

use super::headers::{CREATED, Header};
use super::place;
use crate::cases::Cases;

const SALT_0: Header = Header { salt: 0, ..CREATED };

pub fn add_all(cases: &mut Cases) {
    salt_0(cases);
    disturbed(cases);
}

fn salt_0(cases: &mut Cases) {
    for frames in 0..=15 {
        let end = place(frames);
        for length in [end - 1, end, end + 1, end + 4_000] {
            if (32..=place(15)).contains(&length) {
                cases.add(SALT_0.log().length(length));
            }
        }
    }
    // Other salts, and the same under other versions.
    for header in [
        Header { salt: 1, ..CREATED },
        Header {
            salt: 0x8000_0000,
            ..CREATED
        },
        Header {
            version: 1,
            ..SALT_0
        },
        Header {
            version: 2,
            ..SALT_0
        },
    ] {
        for frames in [1, 3, 15] {
            cases.add(header.log().length(place(frames)));
        }
    }
}

/// Zeros before and behind other frames, and with one byte that isn't zero.
fn disturbed(cases: &mut Cases) {
    for frames in [1, 2, 7] {
        let zeros = SALT_0.log().length(place(frames));
        cases.add(zeros.clone().page(1, 0, b"").page(0, 2, b""));
        cases.add(zeros.clone().page(3, 4, b"three").length(place(10)));
        cases.add(zeros.page(0, 2, b"").length(place(frames + 1) + 4_111));
    }
    for salt in [0, CREATED.salt] {
        let log = Header { salt, ..CREATED }.log();
        cases.add(log.page(1, 2, b"one").length(place(5)));
    }
    for at in [0, 3, 4, 7, 8, 11, 12, 15, 16, 17, 2_064, 4_110, 4_111] {
        let zeros = SALT_0.log().length(place(5));
        cases.add(zeros.clone().put(place(2) + at, &[1]));
        cases.add(zeros.put(place(0) + at, &[0x80]));
    }
}
