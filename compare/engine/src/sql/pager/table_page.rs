//! Shim of the source's `table_page.rs`: the empty page that creation
//! stores as page 1.

use crate::sql::pager::page::PAYLOAD_PER_PAGE;

pub struct TablePage {
    buf: Box<[u8; PAYLOAD_PER_PAGE]>,
}

impl TablePage {
    /// No slots (bytes 0..2), and cells that would begin at the payload's
    /// end (bytes 2..4).
    pub fn empty() -> Self {
        let mut buf = Box::new([0u8; PAYLOAD_PER_PAGE]);
        buf[2..4].copy_from_slice(&(PAYLOAD_PER_PAGE as u16).to_le_bytes());
        Self { buf }
    }

    pub fn as_bytes(&self) -> &[u8; PAYLOAD_PER_PAGE] {
        &self.buf
    }
}
