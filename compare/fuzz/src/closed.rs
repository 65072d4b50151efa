//! Structs in which nothing is open, and what a forged store stands for.

use lateenbael_sys::{
    Batch, Building, Column, DbHeader, FileStorage, Job, PreviewAnswered, Record, STAGED_PAGES,
    Staged, Store, TextPlace, Value, ValueAnswer, Wal, WalHeader,
};

const NO_HEADER: DbHeader = DbHeader {
    page_count: 0,
    schema_root_page: 0,
    format_version: 0,
    freelist_head: 0,
};

const NO_JOB: Job = Job {
    kind: 0,
    salt: 0,
    page: 0,
    answer: 0,
    header: NO_HEADER,
};

/// Beside a refusal of the log's calls.
pub const NO_WAL: Wal = Wal {
    header: WalHeader {
        version: 0,
        salt: 0,
        checkpoint_seq: 0,
        clock_high_water: 0,
    },
    len: 0,
    good_end: 0,
    last_commit_offset: 0,
    frame_count: 0,
    committed: 0,
    last_commit_page_count: 0,
};

/// Beside a refused creation or opening: a store that writes nothing, as if
/// opened read-only with no log.
pub const CLOSED: Store = Store {
    current_header: NO_HEADER,
    wal: Wal {
        header: WalHeader {
            version: 3,
            ..NO_WAL.header
        },
        len: 32,
        good_end: 32,
        last_commit_offset: 32,
        ..NO_WAL
    },
    recovered: 32,
    storage: FileStorage {
        len: 0,
        header: NO_HEADER,
    },
    staged: Staged {
        count: 0,
        pages: [0; STAGED_PAGES],
    },
    job: NO_JOB,
    opening: NO_LOG,
};

const NO_LOG: u32 = 3;

/// Beside a refused addition to a batch.
pub const NO_BUILDING: Building = Building {
    refusal: 0,
    at: 0,
    counted: 0,
    records: 0,
    columns: 0,
};

const NO_PLACE: TextPlace = TextPlace {
    start: 0,
    len: 0,
    chars: 0,
};

const NO_VALUE: Value = Value {
    tag: 0,
    flag: 0,
    integer: 0,
    bits: 0,
    place: NO_PLACE,
};

/// A refused reading of a batch, which tells the items that were read; below
/// of a record, a column and a value.
pub fn no_batch(refusal: u32, items: usize) -> Batch {
    Batch {
        refusal,
        commit_ts: 0,
        records: 0,
        end: 0,
        items,
    }
}

pub fn no_record(refusal: u32) -> Record {
    Record {
        refusal,
        op: 0,
        next: 0,
        table: NO_PLACE,
        rowid: 0,
        count: 0,
        first: 0,
    }
}

pub fn no_column(refusal: u32) -> Column {
    Column {
        refusal,
        next: 0,
        name: NO_PLACE,
        value: NO_VALUE,
    }
}

pub fn no_value(refusal: u32) -> ValueAnswer {
    ValueAnswer {
        refusal,
        next: 0,
        value: NO_VALUE,
    }
}

/// A refused preview, which tells the page beside 14.
pub fn no_preview(refusal: u32, answer: usize) -> PreviewAnswered {
    PreviewAnswered {
        refusal,
        checkpointed: 0,
        answer,
        frame_count: 0,
        log_len: 0,
        main_len: 0,
    }
}

/// The store that any numbers stand for: a kind of job that there is not is
/// none, one of opening has no log, and numbers that tell nothing are 0.
pub fn normalized(store: Store) -> Store {
    let Store { mut wal, job, .. } = store;
    if wal.committed == 0 {
        wal.last_commit_page_count = 0;
    }
    wal.committed = wal.committed.min(1);
    let job = match job.kind {
        1 => job,
        2 => Job {
            header: NO_HEADER,
            ..job
        },
        3..=5 => Job {
            page: 0,
            header: NO_HEADER,
            ..job
        },
        _ => NO_JOB,
    };
    Store {
        wal,
        job,
        opening: store.opening.min(NO_LOG),
        ..store
    }
}
