//! The port's two sides: the functions that its static library exports. A
//! slice goes over as its address and its length.

use crate::side::Side;

// Safety: all four read the slices lent to them and no more.

pub const SERIAL: Side = Side {
    name: "serial",
    sum: |bytes| unsafe { port_sum_serial(bytes.as_ptr(), bytes.len(), 0) },
    frame: |frame| unsafe { port_frame_serial(frame.as_ptr(), frame.len()) },
};

pub const BLOCKS: Side = Side {
    name: "blocks",
    sum: |bytes| unsafe { port_sum_over(bytes.as_ptr(), bytes.len(), 0) },
    frame: |frame| unsafe { port_frame_sum(frame.as_ptr(), frame.len()) },
};

unsafe extern "C" {
    fn port_sum_serial(bytes: *const u8, bytes_len: usize, start: u32) -> u32;
    fn port_sum_over(bytes: *const u8, bytes_len: usize, start: u32) -> u32;
    fn port_frame_serial(log: *const u8, log_len: usize) -> u32;
    fn port_frame_sum(log: *const u8, log_len: usize) -> u32;
}
