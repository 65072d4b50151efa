//! Bodies cut at every length, and changed at every byte of their front.

use super::{CHANGED, CUT, case, case_of_front, null_columns, tombstones};
use crate::batch::body::Body;
use crate::batch::damaged::{mixed, small_batches};
use crate::cases::Cases;

pub fn add_all(cases: &mut Cases) {
    for body in small_batches() {
        cases.add(case(CUT, body));
    }
    cases.add(case(CUT, null_columns(1, 1_355, 4_096)));
    cases.add(case(CUT, tombstones(370, 4_096)));
    for body in small_batches() {
        let length = body.as_ref().len();
        cases.add(case_of_front(CHANGED, &body, length));
    }
    // In a frame a higher count finds zeros.
    let row = Body::new(14, 1).present("", 0, 1_355);
    for front in [mixed(), row, Body::new(14, 370)] {
        cases.add(case_of_front(CHANGED, &front, 4_096));
    }
}
