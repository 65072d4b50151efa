//! A dry run answers as the files would, and leaves them.
mod common;
use common::*;
use lateenbael::{Disk, DryRun, Mode, Salts, Store};

/// The same calls on any disk.
fn some_calls<D: Disk>(disk: D, salts: Salts) -> (Contents, usize) {
    let mut store = Store::open_on(disk, Mode::ReadWrite, salts).unwrap();
    store.append_mvcc_batch(batch(1).body()).unwrap();
    commit_pages(&mut store, 5, &[1, 2, 3]);
    let checkpointed = store.checkpoint().unwrap();
    (contents(&store), checkpointed)
}

#[test]
fn a_dry_run_answers_and_writes_nothing() {
    let folder = Folder::new();
    let path = folder.store();
    seven_pages(&path);
    let before = bytes_of(&path);
    let mut files = existing(&path);
    let dry_run = some_calls(DryRun::over(&mut files), counting_salts(1));
    assert_eq!(bytes_of(&path), before);
    assert_eq!(some_calls(files, counting_salts(1)), dry_run);
    assert_ne!(bytes_of(&path), before);
}
