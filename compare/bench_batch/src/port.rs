//! The port's side: the calls of its static library. A slice goes over as its
//! address and its length.

use bench::builder::build;
use lateenbael_sys as sys;

use crate::side::Side;

pub const SIDE: Side = Side {
    name: "port",
    // Safety: all read the slices lent to them, and write `out` alone.
    decode: |body| unsafe { sys::lateenbael_mvcc_decode(body.as_ptr(), body.len()).end as u64 },
    refuse: |body| unsafe { sys::lateenbael_mvcc_decode(body.as_ptr(), body.len()).refusal != 0 },
    encode: build,
    canonical: |body, out| unsafe {
        sys::lateenbael_mvcc_canonicalize(body.as_ptr(), body.len(), out.as_mut_ptr(), out.len())
            .into()
    },
};
