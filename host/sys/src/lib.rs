//! The calls of `lateenbael.h`, as the static library has them: structs by value, a slice as its address and length.
//! Nothing here is safe but [`lateenbael_version`]; the crate `lateenbael` is.
//!
//! An open store is a [`Store`], which a call takes by value and gives back changed, and four areas that the host lends, always the same
//! ones: `table` of [`PAGES`] numbers, `log` of [`LOG_AREA`] bytes, `main` of [`MAIN_AREA`] bytes, `staging` of [`STAGING_AREA`] bytes.
//! What a host on files owes stands in the header.
//!
//! Every call is total: any bytes, lengths and numbers, a made-up store too, give the result or one refusal. A refusal is a number of the
//! header's `enum lateenbael_refusal`, where 0 is none, and changes no area. Each call tells which it has.
//!
//! # Safety
//!
//! The same is asked for every call. An address is aligned and not null, also where the length is 0, and valid for its length (of the
//! table: how many numbers), to read and, if it is `*mut`, to write. Areas that are lent to one call do not overlap. Until it returns,
//! nothing else writes to them, nor reads those that are `*mut`. All other values may be any.
#![no_std]
#![warn(missing_docs)]

/// The version of these declarations, major * 1,000,000 + minor * 1,000 + patch; [`lateenbael_version`] is the archive's.
pub const VERSION: u32 = 4000;
/// A page's bytes.
pub const PAGE_SIZE: usize = 4096;
/// A page's frame in the log: 16 bytes of heading, and the page.
pub const FRAME_SIZE: usize = 4112;
/// The log area's bytes: the log's header of 32, and [`PAGES`] frames.
pub const LOG_AREA: usize = 4210720;
/// The main area's bytes: [`PAGES`] pages.
pub const MAIN_AREA: usize = 4194304;
/// The staging area's bytes: [`STAGED_PAGES`] pages.
pub const STAGING_AREA: usize = PAGE_SIZE * STAGED_PAGES;
/// The most pages that a store has, and how many numbers the table has.
pub const PAGES: usize = 1024;
/// The most pages that are staged at a time.
pub const STAGED_PAGES: usize = 24;
/// A commit that brings the log to so many frames is followed by a checkpoint.
pub const CHECKPOINT_FRAMES: usize = 100;
/// The buffer that [`lateenbael_list_log`] is given has so many bytes or more.
pub const LISTING_SIZE: usize = 2048;
/// The page number of a frame that holds a batch.
pub const MVCC_FRAME_MARKER: u32 = 4294967295;
/// The most records and columns together that are read in a body of up to 4,096 bytes, refused or not.
pub const MOST_ITEMS: usize = 1356;

/// A main header.
#[repr(C)]
#[derive(Clone, Copy, Debug, PartialEq, Eq, Hash)]
pub struct DbHeader {
    /// How many pages; page 0, which is the header's, included.
    pub page_count: u32,
    /// The schema's root page; the store only keeps it.
    pub schema_root_page: u32,
    /// 4, 5 or 6.
    pub format_version: u16,
    /// The free list's first page; the store only keeps it.
    pub freelist_head: u32,
}

/// A new store's header.
impl Default for DbHeader {
    fn default() -> Self {
        DbHeader {
            page_count: 2,
            schema_root_page: 1,
            format_version: 4,
            freelist_head: 0,
        }
    }
}

/// A log's header.
#[repr(C)]
#[derive(Clone, Copy, Debug, PartialEq, Eq, Hash)]
pub struct WalHeader {
    /// 1, 2 or 3.
    pub version: u32,
    /// Tells the log's frames from those that lay there before.
    pub salt: u32,
    /// The log's sequence: one more each time that the log is emptied.
    pub checkpoint_seq: u32,
    /// The clock; no call sets it lower. In an open store it may be above the file's, until a checkpoint stores it.
    pub clock_high_water: u64,
}

/// An open log.
#[repr(C)]
#[derive(Clone, Copy, Debug, PartialEq, Eq)]
pub struct Wal {
    /// Its header.
    pub header: WalHeader,
    /// The file's length.
    pub len: usize,
    /// Where the good frames end.
    pub good_end: usize,
    /// The commit point: the end of the last commit frame, else 32.
    pub last_commit_offset: usize,
    /// How many frames the log has, committed or not.
    pub frame_count: usize,
    /// 0: there is no commit frame.
    pub committed: u32,
    /// The last commit frame's page count; 0 if there is none.
    pub last_commit_page_count: u32,
}

/// The main file.
#[repr(C)]
#[derive(Clone, Copy, Debug, PartialEq, Eq)]
pub struct FileStorage {
    /// Its length.
    pub len: usize,
    /// Its own header, which the log's may replace.
    pub header: DbHeader,
}

/// The numbers of the staged pages; the bytes of the first stand in the staging area at 0, of the next at 4,096, ..
#[repr(C)]
#[derive(Clone, Copy, Debug, PartialEq, Eq)]
pub struct Staged {
    /// How many pages are staged.
    pub count: usize,
    /// Their numbers; those from `count` on mean nothing.
    pub pages: [u16; STAGED_PAGES],
}

/// What is part done.
#[repr(C)]
#[derive(Clone, Copy, Debug, PartialEq, Eq)]
pub struct Job {
    /// What the next step is of: 0 nothing, 1 a commit's frame, 2 a checkpoint's page or main header, 3 the main length, 4 the log length,
    /// 5 the log header.
    pub kind: u32,
    /// The new log's salt, where a checkpoint comes.
    pub salt: u32,
    /// The first page that was not looked at yet.
    pub page: usize,
    /// What the last step answers.
    pub answer: usize,
    /// A commit's new header.
    pub header: DbHeader,
}

/// An open store.
#[repr(C)]
#[derive(Clone, Copy, Debug, PartialEq, Eq)]
pub struct Store {
    /// The header that counts.
    pub current_header: DbHeader,
    /// The log.
    pub wal: Wal,
    /// Where the recovered batches end.
    pub recovered: usize,
    /// The main file.
    pub storage: FileStorage,
    /// The staged pages.
    pub staged: Staged,
    /// What is part done.
    pub job: Job,
    /// 0: created, or opened cleanly; 1: opened plainly; 2: read-only; 3: read-only, and no log was there.
    pub opening: u32,
}

/// What a call answers that may change the store.
#[repr(C)]
#[derive(Clone, Copy, Debug, PartialEq, Eq)]
pub struct Answered {
    /// A refusal, or 0.
    pub refusal: u32,
    /// 1: a commit or checkpoint has begun; [`lateenbael_next_step`] does its writes.
    pub begun: u32,
    /// Pages that a commit or checkpoint wrote; beside refusal 14 the lowest page that is missing.
    pub answer: usize,
    /// The store after the call; beside a refusal the one that was given, for creation and openings one that writes nothing.
    pub store: Store,
}

/// What a commit would come to. Beside a refusal the other numbers are 0, but for the page beside 14.
#[repr(C)]
#[derive(Clone, Copy, Debug, PartialEq, Eq)]
pub struct PreviewAnswered {
    /// The commit's refusal, or 0.
    pub refusal: u32,
    /// 1: a checkpoint would follow.
    pub checkpointed: u32,
    /// The commit's answer: pages that differ; beside refusal 14 the lowest page that is missing.
    pub answer: usize,
    /// The log's frames afterwards: with the checkpoint 0.
    pub frame_count: usize,
    /// The log file's length afterwards: with the checkpoint 32.
    pub log_len: usize,
    /// The main file's length afterwards, which only a checkpoint changes.
    pub main_len: usize,
}

/// What a call answers that gives a main header.
#[repr(C)]
#[derive(Clone, Copy, Debug, PartialEq, Eq)]
pub struct HeaderAnswer {
    /// A refusal, or 0.
    pub refusal: u32,
    /// The header; beside a refusal its numbers are 0.
    pub header: DbHeader,
}

/// What a call answers that gives a number.
#[repr(C)]
#[derive(Clone, Copy, Debug, PartialEq, Eq)]
pub struct NumberAnswer {
    /// A refusal, or 0.
    pub refusal: u32,
    /// The number; beside a refusal 0.
    pub number: u64,
}

/// A page's 4,096 bytes stand in that area from `at` on.
#[repr(C)]
#[derive(Clone, Copy, Debug, PartialEq, Eq)]
pub struct PageAnswer {
    /// A refusal, or 0.
    pub refusal: u32,
    /// 0: the page is nowhere; 1: the log; 2: the main file; 3: the staging area.
    pub area: u32,
    /// The page's first byte there.
    pub at: usize,
}

/// What staging in place gives: a refusal or 0, and how many pages are staged.
#[repr(C)]
#[derive(Clone, Copy, Debug, PartialEq, Eq)]
pub struct StagedCount {
    /// A refusal, or 0.
    pub refusal: u32,
    /// How many pages are staged.
    pub count: usize,
}

/// A batch in the log.
#[repr(C)]
#[derive(Clone, Copy, Debug, PartialEq, Eq)]
pub struct BatchPlace {
    /// A refusal, or 0.
    pub refusal: u32,
    /// 0: there is none, and `index` and `offset` are 0.
    pub found: u32,
    /// Its frame's index among the log's frames.
    pub index: usize,
    /// Its frame's first byte; the body's 4,096 bytes begin 16 bytes behind.
    pub offset: usize,
}

/// The one write that a next step did in its area, for the host to do on the file.
#[repr(C)]
#[derive(Clone, Copy, Debug, PartialEq, Eq)]
pub struct StepAnswered {
    /// A refusal, or 0.
    pub refusal: u32,
    /// 0: nothing was part done, and nothing was done; 1: a write, and more are to come; 2: the last write.
    pub kind: u32,
    /// 1: the log; 2: the main file.
    pub area: u32,
    /// 1: then everything written so far goes to the disk (fsync).
    pub flush: u32,
    /// Where the bytes begin; with `len` 0 the file's new length.
    pub at: usize,
    /// How many bytes; 0: the file gets a new length.
    pub len: usize,
    /// With the last write the commit's or checkpoint's answer.
    pub answer: usize,
    /// The store after the step.
    pub store: Store,
}

/// What a call answers that gives an open log.
#[repr(C)]
#[derive(Clone, Copy, Debug, PartialEq, Eq)]
pub struct WalAnswer {
    /// A refusal, or 0.
    pub refusal: u32,
    /// The log; beside a refusal its numbers are 0.
    pub wal: Wal,
}

/// What a call answers that gives a log's header.
#[repr(C)]
#[derive(Clone, Copy, Debug, PartialEq, Eq)]
pub struct WalHeaderAnswer {
    /// A refusal, or 0.
    pub refusal: u32,
    /// The header; beside a refusal its numbers are 0.
    pub header: WalHeader,
}

/// A frame's heading.
#[repr(C)]
#[derive(Clone, Copy, Debug, PartialEq, Eq)]
pub struct FrameHeader {
    /// The page's number; of a batch [`MVCC_FRAME_MARKER`].
    pub page_num: u32,
    /// Above 0: a commit frame, and the new page count.
    pub commit_page_count: u32,
    /// The salt of the log that the frame was added to.
    pub salt: u32,
    /// The checksum of the heading's other 12 bytes and the page.
    pub checksum: u32,
}

/// A frame of the log.
#[repr(C)]
#[derive(Clone, Copy, Debug, PartialEq, Eq)]
pub struct FrameAnswer {
    /// 0: none stands wholly inside the log there.
    pub found: u32,
    /// The frame's first byte; the page's begin 16 bytes behind.
    pub offset: usize,
    /// The frame's heading.
    pub header: FrameHeader,
}

/// What listing a log answers.
#[repr(C)]
#[derive(Clone, Copy, Debug, PartialEq, Eq)]
pub struct ListAnswer {
    /// A refusal, or 0.
    pub refusal: u32,
    /// How many bytes the listing has.
    pub len: usize,
}

/// Bytes of the body; of a text also how many characters, Unicode scalar values, they are.
#[repr(C)]
#[derive(Clone, Copy, Debug, PartialEq, Eq)]
pub struct TextPlace {
    /// The first byte.
    pub start: usize,
    /// How many bytes; of a vector how many elements.
    pub len: usize,
    /// How many characters; of a vector, and where there is no place, 0.
    pub chars: usize,
}

/// A text by itself.
#[repr(C)]
#[derive(Clone, Copy, Debug, PartialEq, Eq)]
pub struct TextAnswer {
    /// A refusal, or 0.
    pub refusal: u32,
    /// How many characters; beside a refusal 0.
    pub chars: usize,
}

/// A whole batch; the first record stands at 18. Beside a refusal the other numbers are 0, except the items.
///
/// A record is an item, and so is each of its columns: a row that is gone counts when its row id is read, one that is there when its
/// column count is, a column when its value is. In a body of up to 4,096 bytes there are at most [`MOST_ITEMS`].
#[repr(C)]
#[derive(Clone, Copy, Debug, PartialEq, Eq)]
pub struct Batch {
    /// A refusal, or 0.
    pub refusal: u32,
    /// The commit time.
    pub commit_ts: u64,
    /// How many records.
    pub records: usize,
    /// The place behind the last one.
    pub end: usize,
    /// How many items were read; of a refused body those before the refusal.
    pub items: usize,
}

/// A record.
#[repr(C)]
#[derive(Clone, Copy, Debug, PartialEq, Eq)]
pub struct Record {
    /// A refusal, or 0.
    pub refusal: u32,
    /// 0: the row is gone (tombstone); 1: it is there (present).
    pub op: u32,
    /// Where the next record stands.
    pub next: usize,
    /// The table's name.
    pub table: TextPlace,
    /// The row's number.
    pub rowid: i64,
    /// How many columns; of a row that is gone 0.
    pub count: usize,
    /// Where the first column stands; of a row that is gone 0.
    pub first: usize,
}

/// A value: its tag says which of the others it has; those that it has not are 0.
#[repr(C)]
#[derive(Clone, Copy, Debug, PartialEq, Eq)]
pub struct Value {
    /// 0 null, 1 integer, 2 real, 3 text, 4 bool, 5 vector.
    pub tag: u32,
    /// A bool's 0 or 1.
    pub flag: u32,
    /// An integer.
    pub integer: i64,
    /// A real's 64 bits.
    pub bits: u64,
    /// A text; a vector's first byte and its number of elements.
    pub place: TextPlace,
}

/// A value by itself.
#[repr(C)]
#[derive(Clone, Copy, Debug, PartialEq, Eq)]
pub struct ValueAnswer {
    /// A refusal, or 0.
    pub refusal: u32,
    /// Where the next field stands.
    pub next: usize,
    /// The value.
    pub value: Value,
}

/// A column.
#[repr(C)]
#[derive(Clone, Copy, Debug, PartialEq, Eq)]
pub struct Column {
    /// A refusal, or 0.
    pub refusal: u32,
    /// Where the next column stands.
    pub next: usize,
    /// Its name.
    pub name: TextPlace,
    /// Its value.
    pub value: Value,
}

/// A vector's element.
#[repr(C)]
#[derive(Clone, Copy, Debug, PartialEq, Eq)]
pub struct Element {
    /// 0: there is none with that number.
    pub found: u32,
    /// A float's 32 bits.
    pub bits: u32,
}

/// A batch being built in a body of 4,096 bytes, which is a whole batch after every call. Beside a refusal the other numbers are 0, the
/// body is as it was, and the host goes on with the numbers that it had.
#[repr(C)]
#[derive(Clone, Copy, Debug, PartialEq, Eq)]
pub struct Building {
    /// A refusal, or 0.
    pub refusal: u32,
    /// Where its bytes end.
    pub at: u32,
    /// Where the last record's column count stands; 0 if it has none.
    pub counted: u32,
    /// How many records.
    pub records: u16,
    /// How many columns the last record has.
    pub columns: u16,
}

unsafe extern "C" {
    /// The archive's version: where it is not [`VERSION`], declarations and archive do not belong together. It reads and writes nothing.
    pub safe fn lateenbael_version() -> u32;
    /// A new store: a main file of 2 pages, and a log of its header alone. Refusal 1.
    pub fn lateenbael_create(
        table: *mut u32,
        table_entries: usize,
        log: *mut u8,
        log_size: usize,
        main: *mut u8,
        main_size: usize,
        staging: *const u8,
        staging_size: usize,
        salt: u32,
    ) -> Answered;
    /// Plain opening of the files in the first `main_len` and `log_len` bytes of their areas: frames behind the commit point stay, and a
    /// later commit takes them in. `access_mode` 0 is read-write, any other read-only. `log_exists` 0: there is no log file; read-write
    /// makes one, with the salt. The clock is the log header's, and 0 without a log. Refusals 1 to 8.
    pub fn lateenbael_open_with_mode(
        table: *mut u32,
        table_entries: usize,
        log: *mut u8,
        log_size: usize,
        main: *const u8,
        main_size: usize,
        staging: *const u8,
        staging_size: usize,
        main_len: usize,
        log_len: usize,
        access_mode: u32,
        log_exists: u32,
        salt: u32,
    ) -> Answered;
    /// Clean opening, read-write only: the log is cut at the commit point, which becomes store.wal.len, so that nothing that no commit
    /// frame follows is ever taken in. The clock is the larger of the log header's and the greatest commit time among the recovered
    /// batches; it is in the store alone, until a checkpoint. Arguments as of [`lateenbael_open_with_mode`]. Refusals 1 to 8 and 10.
    pub fn lateenbael_open_clean(
        table: *mut u32,
        table_entries: usize,
        log: *mut u8,
        log_size: usize,
        main: *const u8,
        main_size: usize,
        staging: *const u8,
        staging_size: usize,
        main_len: usize,
        log_len: usize,
        access_mode: u32,
        log_exists: u32,
        salt: u32,
    ) -> Answered;
    /// The header that counts. Refusal 9.
    pub fn lateenbael_header(store: Store) -> HeaderAnswer;
    /// Whether the store is read-write (0) or read-only (1). Refusal 9.
    pub fn lateenbael_access_mode(store: Store) -> NumberAnswer;
    /// The store's clock. Refusal 9.
    pub fn lateenbael_clock_high_water(store: Store) -> NumberAnswer;
    /// Raises the clock; a lower value is ignored. It reaches the log's header with the next checkpoint. A batch's time does not raise
    /// it. Refusal 9.
    pub fn lateenbael_observe_clock_high_water(store: Store, value: u64) -> Answered;
    /// The refusal that [`lateenbael_find_page`] would answer, or 0, for hosts that read often: it stays until the next call that gives a
    /// store back. `page_count` is current_header.page_count, `job` is job.kind (any but 0 is refused with 9), `log_len` is wal.len,
    /// `main_len` is storage.len. Refusals 1 and 9.
    pub fn lateenbael_may_read(
        page_count: u32,
        job: u32,
        log_len: usize,
        main_len: usize,
        table: *const u32,
        table_entries: usize,
        log: *const u8,
        log_size: usize,
        main: *const u8,
        main_size: usize,
        staging: *const u8,
        staging_size: usize,
    ) -> u32;
    /// No page is found from that number on, so that a host need not look: with nothing staged the page count, else 2^32.
    pub fn lateenbael_read_end(page_count: u32, staged_count: usize) -> usize;
    /// Where a page stands, of a store that [`lateenbael_may_read`] answers 0 for: `staged_count` is staged.count, and `staged` is
    /// staged.pages. Refusal 1 where a made-up table names a place with no whole page behind it.
    pub fn lateenbael_place_page(
        page_count: u32,
        page_num: u32,
        staged_count: usize,
        staged: &[u16; STAGED_PAGES],
        table: *const u32,
        table_entries: usize,
    ) -> PageAnswer;
    /// Where a page stands: staged, in the log, in the main file, or nowhere. Refusals 1 and 9.
    pub fn lateenbael_find_page(
        store: Store,
        table: *const u32,
        table_entries: usize,
        log: *const u8,
        log_size: usize,
        main: *const u8,
        main_size: usize,
        staging: *const u8,
        staging_size: usize,
        page_num: u32,
    ) -> PageAnswer;
    /// The batches that the opening found committed, until a checkpoint drops them: the first whose frame has that index or a higher one.
    /// Ask for index 0, then for the index answered plus 1. Refusals 1 and 9.
    pub fn lateenbael_recovered_mvcc_commits(store: Store, log: *const u8, log_size: usize, index: usize) -> BatchPlace;
    /// Stages a page of 4,096 bytes for the next commit. Refusals 1, 9, 11, 12.
    pub fn lateenbael_stage_page(
        store: Store,
        staging: *mut u8,
        staging_size: usize,
        page_num: u32,
        bytes: *const u8,
        bytes_len: usize,
    ) -> Answered;
    /// [`lateenbael_stage_page`] for hosts that stage often: `job` is job.kind (any but 0 is refused with 9), `staged_count` is
    /// staged.count, `staged` is staged.pages, where the page's number is stored. The count given is the store's next staged.count.
    /// Refusals 1, 9, 11, 12.
    pub fn lateenbael_stage_in(
        job: u32,
        page_num: u32,
        staged_count: usize,
        staged: &mut [u16; STAGED_PAGES],
        staging: *mut u8,
        staging_size: usize,
        bytes: *const u8,
        bytes_len: usize,
    ) -> StagedCount;
    /// Drops what is staged. Refusal 9.
    pub fn lateenbael_clear_staged(store: Store) -> Answered;
    /// Appends a batch to the log, as a frame that stands at the old store.wal.len; it counts once a commit follows it. Refusals 1, 2, 3,
    /// 9, 10, 15, 17 to 19.
    pub fn lateenbael_append_mvcc_batch(store: Store, log: *mut u8, log_size: usize, body: *const u8, body_len: usize) -> Answered;
    /// What [`lateenbael_commit`] would answer and leave now, with the same arguments and any salt, or be refused with: as if it were done on
    /// a copy of all areas. Nothing is altered, and what is staged stays staged. Refusals as of [`lateenbael_begin_commit`].
    pub fn lateenbael_preview_commit(
        store: Store,
        table: *const u32,
        table_entries: usize,
        log: *const u8,
        log_size: usize,
        main: *const u8,
        main_size: usize,
        staging: *const u8,
        staging_size: usize,
        new_header: DbHeader,
    ) -> PreviewAnswered;
    /// Begins a commit of what is staged; nothing is stored yet. A commit that brings the log to [`CHECKPOINT_FRAMES`] frames is followed
    /// by a checkpoint, and then the salt is the new log's. Refusals 1 (also where a made-up table says that a staged page's frame ends
    /// behind the log's length), 9, 10, 13, 14, 15.
    pub fn lateenbael_begin_commit(
        store: Store,
        table: *const u32,
        table_entries: usize,
        log: *const u8,
        log_size: usize,
        main: *const u8,
        main_size: usize,
        staging: *const u8,
        staging_size: usize,
        new_header: DbHeader,
        salt: u32,
    ) -> Answered;
    /// Begins a checkpoint, the log's pages to the main file; nothing is written yet, and `begun` is 0 if nothing is to be. The salt is the
    /// new log's. Refusals 1, 9, 10.
    pub fn lateenbael_begin_checkpoint(
        store: Store,
        table: *const u32,
        table_entries: usize,
        log: *const u8,
        log_size: usize,
        main: *const u8,
        main_size: usize,
        staging: *const u8,
        staging_size: usize,
        salt: u32,
    ) -> Answered;
    /// Does the next write of what is part done in its area, and names it. Refusal 1.
    pub fn lateenbael_next_step(
        store: Store,
        table: *mut u32,
        table_entries: usize,
        log: *mut u8,
        log_size: usize,
        main: *mut u8,
        main_size: usize,
        staging: *const u8,
        staging_size: usize,
    ) -> StepAnswered;
    /// A commit in one call: begun, and its steps run to the end, for a host that stores both areas whole. Refusals as of
    /// [`lateenbael_begin_commit`].
    pub fn lateenbael_commit(
        store: Store,
        table: *mut u32,
        table_entries: usize,
        log: *mut u8,
        log_size: usize,
        main: *mut u8,
        main_size: usize,
        staging: *const u8,
        staging_size: usize,
        new_header: DbHeader,
        salt: u32,
    ) -> Answered;
    /// A checkpoint in one call: begun, and its steps run to the end, for a host that stores both areas whole. Refusals as of
    /// [`lateenbael_begin_checkpoint`].
    pub fn lateenbael_checkpoint(
        store: Store,
        table: *mut u32,
        table_entries: usize,
        log: *mut u8,
        log_size: usize,
        main: *mut u8,
        main_size: usize,
        staging: *const u8,
        staging_size: usize,
        salt: u32,
    ) -> Answered;
    /// A new log: its header alone. Refusal 1.
    pub fn lateenbael_wal_create(log: *mut u8, log_size: usize, salt: u32) -> WalAnswer;
    /// Opens the log that a file's bytes are. Refusals 1 to 5.
    pub fn lateenbael_wal_open(file: *const u8, file_len: usize) -> WalAnswer;
    /// Adds a page's frame at the log's length; with a `commit_page_count` above 0 it is a commit frame. Refusals 1, 15.
    pub fn lateenbael_wal_append_frame(
        log: *mut u8,
        log_size: usize,
        wal: Wal,
        page_num: u32,
        content: *const u8,
        content_len: usize,
        commit_page_count: u32,
    ) -> WalAnswer;
    /// Adds a batch's frame at the log's length. Refusals 1, 2, 3, 15, 17 to 19.
    pub fn lateenbael_wal_append_mvcc_batch(log: *mut u8, log_size: usize, wal: Wal, body: *const u8, body_len: usize) -> WalAnswer;
    /// Empties the log: a new header with the next sequence. Refusal 1.
    pub fn lateenbael_wal_truncate(log: *mut u8, log_size: usize, wal: Wal, salt: u32) -> WalAnswer;
    /// Sets the clock. Refusal 16.
    pub fn lateenbael_wal_set_clock_high_water(wal: Wal, value: u64) -> WalAnswer;
    /// The frame at an index, good or not.
    pub fn lateenbael_wal_frame_at(file: *const u8, file_len: usize, index: usize) -> FrameAnswer;
    /// Where a page's last committed frame has its 4,096 bytes: area 1, the log, or 0, nowhere. No refusal.
    pub fn lateenbael_wal_find_page(file: *const u8, file_len: usize, wal: Wal, page_num: u32) -> PageAnswer;
    /// The first committed batch whose frame has that index or a higher one. No refusal.
    pub fn lateenbael_wal_next_batch(file: *const u8, file_len: usize, wal: Wal, index: usize) -> BatchPlace;
    /// Lists a log of at most 15 frames, one line a frame, into [`LISTING_SIZE`] bytes or more; a log that is longer or does not open is
    /// listed as the word `refused` and its refusal. Refusal 1 if the buffer is shorter.
    pub fn lateenbael_list_log(file: *const u8, file_len: usize, out: *mut u8, out_size: usize) -> ListAnswer;
    /// A log's header to its 32 bytes, always as version 3. Refusal 1.
    pub fn lateenbael_encode_wal_header(header: WalHeader, log: *mut u8, log_size: usize) -> u32;
    /// A log's header from its 32 bytes. Refusals 2 to 5.
    pub fn lateenbael_decode_wal_header(log: *const u8, log_size: usize) -> WalHeaderAnswer;
    /// A main header to its page of 4,096 bytes. Refusal 2.
    pub fn lateenbael_encode_header(header: DbHeader, buf: *mut u8, buf_len: usize) -> u32;
    /// A main header from its page of 4,096 bytes. Refusals 2 to 5.
    pub fn lateenbael_decode_header(buf: *const u8, buf_len: usize) -> HeaderAnswer;
    /// The batch in a body. Refusals 2, 3, 17 to 19.
    pub fn lateenbael_mvcc_decode(body: *const u8, body_len: usize) -> Batch;
    /// The record at a place of the body. Refusals 17 to 19.
    pub fn lateenbael_mvcc_decode_record(body: *const u8, body_len: usize, at: usize) -> Record;
    /// The column at a place of the body. Refusals 17 to 19.
    pub fn lateenbael_mvcc_decode_column(body: *const u8, body_len: usize, at: usize) -> Column;
    /// The value at a place of the body. Refusals 17 to 19.
    pub fn lateenbael_mvcc_decode_value(body: *const u8, body_len: usize, at: usize) -> ValueAnswer;
    /// Whether bytes are UTF-8, and how many characters they are. Refusal 19.
    pub fn lateenbael_from_utf8(text: *const u8, text_len: usize) -> TextAnswer;
    /// Element `i` of the vector whose place is `start` and `count`.
    pub fn lateenbael_mvcc_vector_bits(body: *const u8, body_len: usize, start: usize, count: usize, i: usize) -> Element;
    /// Writes the body that encoding the batch gives, of 4,096 bytes. Refusals 1, 2, 3, 17 to 19.
    pub fn lateenbael_mvcc_canonicalize(body: *const u8, body_len: usize, out: *mut u8, out_len: usize) -> u32;
    /// Starts a batch without records. Refusal 1.
    pub fn lateenbael_mvcc_start(body: *mut u8, body_len: usize, commit_ts: u64) -> Building;
    /// Adds a record of a row that is gone. Refusals 1, 19, 20.
    pub fn lateenbael_mvcc_add_tombstone(
        body: *mut u8,
        body_len: usize,
        b: Building,
        table: *const u8,
        table_len: usize,
        rowid: i64,
    ) -> Building;
    /// Adds a record of a row that is there, without columns yet. Refusals 1, 19, 20.
    pub fn lateenbael_mvcc_begin_present(
        body: *mut u8,
        body_len: usize,
        b: Building,
        table: *const u8,
        table_len: usize,
        rowid: i64,
    ) -> Building;
    /// Adds a null column to the last record. Refusals 1, 19, 20, 21.
    pub fn lateenbael_mvcc_add_null(body: *mut u8, body_len: usize, b: Building, name: *const u8, name_len: usize) -> Building;
    /// Adds an integer column to the last record. Refusals 1, 19, 20, 21.
    pub fn lateenbael_mvcc_add_integer(
        body: *mut u8,
        body_len: usize,
        b: Building,
        name: *const u8,
        name_len: usize,
        value: i64,
    ) -> Building;
    /// Adds a real column, by its 64 bits, to the last record. Refusals 1, 19, 20, 21.
    pub fn lateenbael_mvcc_add_real_bits(
        body: *mut u8,
        body_len: usize,
        b: Building,
        name: *const u8,
        name_len: usize,
        bits: u64,
    ) -> Building;
    /// Adds a text column to the last record. Refusals 1, 19, 20, 21.
    pub fn lateenbael_mvcc_add_text(
        body: *mut u8,
        body_len: usize,
        b: Building,
        name: *const u8,
        name_len: usize,
        value: *const u8,
        value_len: usize,
    ) -> Building;
    /// Adds a bool column to the last record; any value but 0 is true. Refusals 1, 19, 20, 21.
    pub fn lateenbael_mvcc_add_bool(body: *mut u8, body_len: usize, b: Building, name: *const u8, name_len: usize, value: u32) -> Building;
    /// Adds a vector column to the last record, by its elements' little-endian bytes, 4 each. Refusals 1, 17, 19, 20, 21.
    pub fn lateenbael_mvcc_add_vector(
        body: *mut u8,
        body_len: usize,
        b: Building,
        name: *const u8,
        name_len: usize,
        bytes: *const u8,
        bytes_len: usize,
    ) -> Building;
}
