//! What the next call is drawn by: the store as it is now.

use engine::sql::pager::header::DbHeader;

use crate::port::Port;
use crate::side::{Area, Side, State};

#[derive(Debug, Clone, Copy, PartialEq, Eq)]
pub struct View {
    pub open: bool,
    pub read_only: bool,
    pub plain: bool,
    pub header: DbHeader,
    pub state: State,
    /// The files' lengths, if they are there.
    pub main: Option<usize>,
    pub log: Option<usize>,
    /// Where the log's last commit frame ends, and its good frames.
    pub commit_point: usize,
    pub good_end: usize,
}

impl View {
    pub fn of(port: &Port) -> Self {
        let length = |area| port.look_at(area, |file| file.map(<[u8]>::len));
        let store = port.engine.store();
        let open = port.is_open();
        Self {
            open,
            read_only: open && store.opening >= 2,
            plain: open && store.opening == 1,
            header: if open { port.header() } else { NO_HEADER },
            state: if open { port.state() } else { State::default() },
            main: length(Area::Main),
            log: length(Area::Log),
            commit_point: store.wal.last_commit_offset,
            good_end: store.wal.good_end,
        }
    }
}

const NO_HEADER: DbHeader = DbHeader {
    page_count: 0,
    schema_root_page: 0,
    format_version: 4,
    freelist_head: 0,
};
