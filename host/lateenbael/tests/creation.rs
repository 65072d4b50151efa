//! Creation: what was there, what a cut or failed one leaves, and copies.
mod common;
use common::*;
use lateenbael::{Error, Files, Mode, OpenOptions, Refusal, Snapshot, Store, wal_path_for};
use std::fs;
use std::os::unix::fs::PermissionsExt;
use std::path::{Path, PathBuf};
use std::time::Duration;

type Creation = fn(&Path) -> Result<Store, Error>;

const CREATIONS: [Creation; 3] = [
    |path| Store::create(path),
    |path| Store::open_or_create(path),
    |path| Store::create_over(path),
];

fn creating(path: &Path) -> PathBuf {
    PathBuf::from(format!("{}-creating", path.display()))
}

/// The folder's files, but a store's own two.
fn others(folder: &Folder) -> usize {
    let own = [folder.store(), wal_path_for(&folder.store())];
    let paths = fs::read_dir(&folder.0).unwrap().map(|entry| entry.unwrap().path());
    paths.filter(|path| !own.contains(path)).count()
}

#[test]
fn a_store_is_opened_or_made() {
    let folder = Folder::new();
    let path = folder.store();
    commit_pages(&mut Store::open_or_create(&path).unwrap(), 2, &[7]);
    assert_eq!(Store::open_or_create(&path).unwrap().read_page(2).unwrap(), Some(&page(7)));
    let other = folder.0.join("other");
    assert!(matches!(
        OpenOptions::new().create(true).mode(Mode::ReadOnly).open(&other),
        Err(Error::NotFound { .. })
    ));
    assert!(matches!(Store::open(&other, Mode::Plain), Err(Error::NotFound { .. })));
}

fn remove(store: &Path) {
    fs::remove_file(store).unwrap();
    fs::remove_file(wal_path_for(store)).unwrap();
}

/// What a creation that was cut may have left: files under their other names, whole or in part, the log under its own.
fn left_by_a_cut(path: &Path) -> [Vec<(PathBuf, Vec<u8>)>; 5] {
    let (new, log) = (creating(path), wal_path_for(path));
    let new_log = creating(&log);
    seven_pages(path);
    let [main_bytes, log_bytes] = bytes_of(path).map(Option::unwrap);
    remove(path);
    [
        vec![(new.clone(), vec![])],
        vec![(new.clone(), main_bytes[..5000].to_vec())],
        vec![(new.clone(), main_bytes.clone()), (new_log.clone(), vec![])],
        vec![(new.clone(), main_bytes.clone()), (new_log, log_bytes.clone())],
        vec![(new, main_bytes), (log, log_bytes)],
    ]
}

/// That a creation works, and leaves its store alone in the folder.
fn creates(folder: &Folder, create: Creation) {
    let path = folder.store();
    let mut store = create(&path).unwrap();
    assert_eq!(store.header().unwrap().page_count, 2);
    commit_pages(&mut store, 2, &[1]);
    assert_eq!(others(folder), 0);
    remove(&path);
}

#[test]
fn a_cut_creation_is_done_again() {
    let folder = Folder::new();
    let path = folder.store();
    for files in left_by_a_cut(&path) {
        for create in CREATIONS {
            files.iter().for_each(|(file, bytes)| fs::write(file, bytes).unwrap());
            assert!(matches!(Store::open(&path, Mode::ReadOnly), Err(Error::NotFound { .. })));
            creates(&folder, create);
        }
    }
}

/// A creation that fails after one that was cut takes the log of that with it: a log alone would block every later one.
#[test]
fn a_creation_given_up_after_a_cut_one_blocks_nothing() {
    let folder = Folder::new();
    let path = folder.store();
    for files in left_by_a_cut(&path) {
        for begin in [Files::fresh, Files::overwriting] {
            files.iter().for_each(|(file, bytes)| fs::write(file, bytes).unwrap());
            drop(begin(&path, Duration::ZERO).unwrap());
            assert_eq!(fs::read_dir(&folder.0).unwrap().count(), 0);
            creates(&folder, CREATIONS[0]);
        }
    }
}

/// The old store is its own while it is there, also where a creation over it was cut before.
#[test]
fn a_creation_over_a_store_given_up_leaves_it() {
    let folder = Folder::new();
    let path = folder.store();
    seven_pages(&path);
    let before = bytes_of(&path);
    fs::write(creating(&path), [0; 5000]).unwrap();
    drop(Files::overwriting(&path, Duration::ZERO).unwrap());
    assert_eq!(bytes_of(&path), before);
    assert_eq!(others(&folder), 0);
}

/// What it removes are its own files, whatever has come to stand under their names.
#[test]
fn a_creation_given_up_removes_no_other_file() {
    let folder = Folder::new();
    let (here, there) = (folder.0.join("here"), folder.0.join("there"));
    fs::create_dir(&here).unwrap();
    let path = here.join("grips");
    let files = Files::fresh(&path, Duration::ZERO).unwrap();
    fs::rename(&here, &there).unwrap();
    fs::create_dir(&here).unwrap();
    seven_pages(&path);
    fs::write(creating(&path), "another's").unwrap();
    let before = bytes_of(&path);
    drop(files);
    assert_eq!(bytes_of(&path), before);
    assert!(creating(&path).exists());
}

/// Other names of a store are nobody's business but its own: a backup may be called so.
#[test]
fn a_store_with_a_like_name_is_left() {
    let folder = Folder::new();
    let (path, backup) = (folder.store(), folder.0.join("grips-new"));
    seven_pages(&backup);
    let before = bytes_of(&backup);
    for create in CREATIONS {
        drop(create(&path).unwrap());
        assert_eq!(bytes_of(&backup), before);
        remove(&path);
    }
}

/// Or a main file that is lost later would be taken for one that was never made, and its log for nobody's.
#[test]
fn an_opening_for_writing_removes_what_a_cut_creation_left_beside_a_store() {
    let folder = Folder::new();
    let (path, log) = (folder.store(), wal_path_for(&folder.store()));
    seven_pages(&path);
    for (mode, left) in [(Mode::ReadOnly, 2), (Mode::ReadWrite, 0), (Mode::Plain, 0)] {
        [&path, &log].into_iter().for_each(|file| fs::write(creating(file), "cut").unwrap());
        open(&path, mode);
        assert_eq!(others(&folder), left);
    }
}

/// A file with a second name is not written over by way of a creation.
#[test]
fn a_file_with_two_names_is_not_begun() {
    let folder = Folder::new();
    let (path, precious) = (folder.store(), folder.0.join("precious"));
    let (main, log) = (creating(&path), creating(&wal_path_for(&path)));
    fs::write(&precious, "precious").unwrap();
    fs::hard_link(&precious, &main).unwrap();
    assert!(matches!(Store::open_or_create(&path), Err(Error::Linked { file, links: 2 }) if file == main));
    fs::remove_file(&main).unwrap();
    fs::hard_link(&precious, &log).unwrap();
    drop(Store::create(&path).unwrap());
    assert_eq!(fs::read_to_string(&precious).unwrap(), "precious");
}

/// What is no store is not cleared of what lies beside it.
#[test]
fn a_refused_opening_removes_nothing() {
    let folder = Folder::new();
    let path = folder.store();
    for file in [path.clone(), creating(&path), creating(&wal_path_for(&path))] {
        fs::write(file, "a note").unwrap();
    }
    assert_eq!(refusal(Store::open(&path, Mode::ReadWrite)), Some(Refusal::Short));
    assert_eq!(fs::read_dir(&folder.0).unwrap().count(), 3);
}

#[test]
fn no_store_is_made_under_the_names_of_another_ones_files() {
    let folder = Folder::new();
    let path = folder.store();
    let store = Store::create(&path).unwrap();
    for name in [wal_path_for(&folder.0.join("other")), creating(&path)] {
        for create in CREATIONS {
            assert!(matches!(create(&name), Err(Error::ReservedName { file }) if file == name));
        }
        assert!(matches!(store.copy_to(&name), Err(Error::ReservedName { .. })));
        assert!(Snapshot::of(&store).unwrap().create(&name).is_err());
    }
    assert_eq!(others(&folder), 0);
}

#[test]
fn a_store_that_is_open_is_not_made_anew_in_its_place() {
    let folder = Folder::new();
    let path = folder.store();
    seven_pages(&path);
    let before = bytes_of(&path);
    assert!(matches!(
        Store::create_on(existing(&path), counting_salts(1)),
        Err(Error::AlreadyExists { file }) if file == path
    ));
    assert_eq!(bytes_of(&path), before);
}

/// What can be known before the old store goes is looked at before.
#[test]
fn a_creation_over_a_store_whose_log_is_a_folder_leaves_it() {
    let folder = Folder::new();
    let (path, log) = (folder.store(), wal_path_for(&folder.store()));
    seven_pages(&path);
    fs::remove_file(&log).unwrap();
    fs::create_dir(&log).unwrap();
    assert!(matches!(Store::create_over(&path), Err(Error::NotAFile { file }) if file == log));
    assert_eq!(fs::metadata(&path).unwrap().len(), 7 * 4096);
    assert_eq!(others(&folder), 0);
}

#[test]
fn a_log_alone_is_left() {
    let folder = Folder::new();
    let (path, log) = (folder.store(), wal_path_for(&folder.store()));
    seven_pages(&path);
    fs::remove_file(&path).unwrap();
    let before = bytes_of(&path);
    for create in &CREATIONS[..2] {
        assert!(matches!(create(&path), Err(Error::AlreadyExists { file }) if file == log));
    }
    assert_eq!(bytes_of(&path), before);
    assert_eq!(others(&folder), 0);
}

#[test]
fn two_creations_at_once_make_one_store() {
    let folder = Folder::new();
    let path = folder.store();
    let first = Files::fresh(&path, Duration::ZERO).unwrap();
    assert!(matches!(Files::fresh(&path, Duration::ZERO), Err(Error::Locked { .. })));
    let store = Store::create_on(first, counting_salts(1)).unwrap();
    assert!(matches!(Files::fresh(&path, Duration::ZERO), Err(Error::AlreadyExists { .. })));
    drop(store);
    assert_eq!(others(&folder), 0);
}

#[test]
fn many_creations_at_once_make_one_store() {
    let folder = Folder::new();
    let path = folder.store();
    let made = std::thread::scope(|scope| {
        let tries: Vec<_> = (0..8).map(|_| scope.spawn(|| Store::create(&path).is_ok())).collect();
        tries.into_iter().map(|one| one.join().unwrap()).filter(|made| *made).count()
    });
    assert_eq!(made, 1);
    assert_eq!(open(&path, Mode::ReadWrite).header().unwrap().page_count, 2);
}

/// Controllers that start together: the first makes the store, the others wait for it.
#[test]
fn many_openings_at_once_make_one_store() {
    let folder = Folder::new();
    let path = folder.store();
    for _ in 0..20 {
        std::thread::scope(|scope| {
            let open = || Store::open_or_create(&path).map(|store| store.header().unwrap().page_count);
            let tries: Vec<_> = (0..8).map(|_| scope.spawn(open)).collect();
            tries.into_iter().for_each(|one| assert_eq!(one.join().unwrap().unwrap(), 2));
        });
        assert_eq!(others(&folder), 0);
        remove(&path);
    }
}

/// The one that writes over what is there finds the other's.
#[test]
fn a_creation_over_a_store_waits_for_one_that_is_at_work() {
    let folder = Folder::new();
    let path = folder.store();
    let first = Files::fresh(&path, Duration::ZERO).unwrap();
    std::thread::scope(|scope| {
        let second = scope.spawn(|| Store::create_over(&path).map(drop));
        std::thread::sleep(Duration::from_millis(50));
        drop(Store::create_on(first, counting_salts(1)).unwrap());
        second.join().unwrap().unwrap();
    });
    assert_eq!(others(&folder), 0);
}

/// No page of a store that was replaced, and no second descriptor of a log, stays open.
#[test]
fn a_store_has_its_two_files_open() {
    let folder = Folder::new();
    let path = folder.store();
    drop(Store::create(&path).unwrap());
    for store in [Store::create_over, Store::open_or_create] as [fn(PathBuf) -> Result<Store, Error>; 2] {
        let store = store(path.clone()).unwrap();
        let files = fs::read_dir("/proc/self/fd")
            .unwrap()
            .filter_map(|fd| fs::read_link(fd.unwrap().path()).ok());
        assert_eq!(files.filter(|file| file.starts_with(&folder.0)).count(), 2);
        drop(store);
    }
}

#[test]
fn a_copy_is_as_private_as_its_store() {
    let folder = Folder::new();
    let (path, copy) = (folder.store(), folder.0.join("copy"));
    let store = Store::create(&path).unwrap();
    fs::set_permissions(&path, fs::Permissions::from_mode(0o600)).unwrap();
    store.copy_to(&copy).unwrap();
    for file in [&copy, &wal_path_for(&copy)] {
        assert_eq!(fs::metadata(file).unwrap().permissions().mode() & 0o777, 0o600);
    }
}

/// A log that a copy which was cut has left is not the new one's.
#[test]
fn a_copy_without_a_log_has_none() {
    let folder = Folder::new();
    let (path, copy) = (folder.store(), folder.0.join("copy"));
    seven_pages(&path);
    fs::copy(&path, creating(&copy)).unwrap();
    fs::copy(wal_path_for(&path), wal_path_for(&copy)).unwrap();
    fs::remove_file(wal_path_for(&path)).unwrap();
    open(&path, Mode::ReadOnly).copy_to(&copy).unwrap();
    assert_eq!(bytes_of(&copy), bytes_of(&path));
}

#[test]
fn a_copy_has_the_same_files() {
    let folder = Folder::new();
    let (path, copy) = (folder.store(), folder.0.join("copy"));
    seven_pages(&path);
    let mut store = open(&path, Mode::ReadWrite);
    store.append_mvcc_batch(batch(8).body()).unwrap();
    commit_pages(&mut store, 3, &[33]);
    store.append_mvcc_batch(batch(9).body()).unwrap();
    store.copy_to(&copy).unwrap();
    assert_eq!(bytes_of(&copy), bytes_of(&path));
    assert!(matches!(store.copy_to(&copy), Err(Error::AlreadyExists { file }) if file == copy));
    assert!(matches!(store.copy_to(&path), Err(Error::AlreadyExists { .. })));
    drop(store);
    fs::remove_file(wal_path_for(&path)).unwrap();
    let bare = folder.0.join("bare");
    open(&path, Mode::ReadOnly).copy_to(&bare).unwrap();
    assert_eq!(bytes_of(&bare), bytes_of(&path));
}

#[test]
fn new_files_have_the_mode_of_those_that_they_belong_to() {
    let folder = Folder::new();
    let (path, log) = (folder.store(), wal_path_for(&folder.store()));
    let mode = |path: &Path| fs::metadata(path).unwrap().permissions().mode() & 0o777;
    drop(Store::create(&path).unwrap());
    fs::set_permissions(&path, fs::Permissions::from_mode(0o640)).unwrap();
    fs::remove_file(&log).unwrap();
    open(&path, Mode::ReadWrite);
    assert_eq!(mode(&log), 0o640);
    drop(Store::create_over(&path).unwrap());
    assert_eq!((mode(&path), mode(&log)), (0o640, 0o640));
}

#[test]
fn a_folder_that_is_not_there_is_named() {
    let folder = Folder::new();
    let error = Store::create(folder.0.join("none/grips")).unwrap_err();
    assert!(matches!(&error, Error::NotFound { file } if file.ends_with("none")), "{error}");
}
