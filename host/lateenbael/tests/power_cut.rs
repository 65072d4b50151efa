//! A power cut after any byte, and document 01's old tail: uncommitted frames that a commit behind them takes in.
mod common;
use common::*;
use lateenbael::{Disk, Error, Files, Mode, PowerCut, Store, salts_of_the_clock};
use std::path::Path;

fn with_power_cut(path: &Path, mode: Mode) -> Store<PowerCut<Files>> {
    let disk = PowerCut::new(existing(path));
    Store::open_on(disk, mode, salts_of_the_clock()).unwrap()
}

/// Commits page 5 anew, and the power goes after so many bytes.
fn commit_with_power_cut(path: &Path, bytes: u64) {
    let mut store = with_power_cut(path, Mode::ReadWrite);
    store.disk_mut().arm(bytes);
    store.stage_page(5, &page(55)).unwrap();
    let header = store.header().unwrap();
    assert!(matches!(store.commit(header), Err(Error::Io { .. })));
    assert!(matches!(store.header(), Err(Error::Stopped)));
}

#[test]
fn a_cut_commit_counts_only_with_its_commit_frame_whole() {
    let folder = Folder::new();
    let path = folder.store();
    let commit_frame_end = 2 * FRAME as u64;
    for bytes in [0, 1, 31, 32, 4111, 4112, 4113, 6000, commit_frame_end - 1, commit_frame_end] {
        seven_pages(&path);
        commit_with_power_cut(&path, bytes);
        assert_eq!(bytes_of(&path)[1].as_ref().unwrap().len() as u64, 32 + bytes);
        let seed = if bytes < commit_frame_end { 5 } else { 55 };
        assert_eq!(open(&path, Mode::ReadWrite).read_page(5).unwrap(), Some(&page(seed)));
    }
}

/// Document 01: "page 5 unsealed, cut, reopened, page 3 committed, reopened".
fn page_5_after(mode: Mode) -> Vec<u8> {
    let folder = Folder::new();
    let path = folder.store();
    seven_pages(&path);
    commit_with_power_cut(&path, FRAME as u64);
    commit_pages(&mut open(&path, mode), 3, &[33]);
    open(&path, mode).read_page(5).unwrap().unwrap().to_vec()
}

#[test]
fn old_uncommitted_frames_show_only_after_plain_openings() {
    assert_eq!(page_5_after(Mode::Plain), page(55));
    assert_eq!(page_5_after(Mode::ReadWrite), page(5));
}

#[test]
fn headers_and_lengths_are_cut_whole() {
    let folder = Folder::new();
    let path = folder.store();
    for (bytes, log_len) in [
        (0, 32 + 2 * FRAME),
        (4096, 32 + 2 * FRAME),
        (4098, 32 + 2 * FRAME),
        (4098 + 4096, 32),
    ] {
        seven_pages(&path);
        commit_pages(&mut open(&path, Mode::ReadWrite), 5, &[55]);
        let mut store = with_power_cut(&path, Mode::ReadWrite);
        store.disk_mut().arm(bytes);
        assert!(matches!(store.checkpoint(), Err(Error::Io { .. })));
        let [main, log] = bytes_of(&path).map(Option::unwrap);
        assert_eq!((main.len(), log.len()), (7 * PAGE, log_len));
        drop(store);
        assert_eq!(open(&path, Mode::ReadWrite).read_page(5).unwrap(), Some(&page(55)));
    }
}

#[test]
fn a_log_header_is_cut_whole() {
    let folder = Folder::new();
    let path = folder.store();
    seven_pages(&path);
    let mut disk = PowerCut::new(existing(&path));
    let before = bytes_of(&path);
    disk.arm(31);
    assert!(disk.write_at(lateenbael::Area::Log, 0, &[9; 32]).is_err());
    assert_eq!(bytes_of(&path), before);
}
