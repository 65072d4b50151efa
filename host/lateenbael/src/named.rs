//! Files by their names: looked for, opened, locked, begun, removed, and their folder synced.
use crate::Error;
use crate::direct::is_unsupported;
use crate::lock::lock;
use std::ffi::OsString;
use std::fs::{self, File, Metadata, OpenOptions, Permissions};
use std::io;
use std::os::unix::ffi::OsStrExt;
use std::os::unix::fs::{MetadataExt, OpenOptionsExt, PermissionsExt, fchown};
use std::path::{Path, PathBuf};
use std::time::Duration;

/// `open` does not wait for the other end of a pipe (Linux on x86-64, as the static library).
const O_NONBLOCK: i32 = 0o4000;
/// `open` fails on a symbolic link.
const O_NOFOLLOW: i32 = 0o400000;

/// Behind a main file's name: its log.
const WAL: &str = "-wal";
/// Behind a file's name: the other name that it has while it is being made.
const CREATING: &str = "-creating";

/// The log's path beside a main file: the same with `-wal` behind it, as the Rust names it.
pub fn wal_path_for(main: &Path) -> PathBuf {
    with_suffix(main, WAL)
}

/// A file's other name.
pub fn creating_path(path: &Path) -> PathBuf {
    with_suffix(path, CREATING)
}

fn with_suffix(path: &Path, suffix: &str) -> PathBuf {
    let mut name = OsString::from(path);
    name.push(suffix);
    PathBuf::from(name)
}

pub fn is_there(path: &Path) -> Result<bool, Error> {
    match fs::symlink_metadata(path) {
        Ok(_) => Ok(true),
        Err(error) if error.kind() == io::ErrorKind::NotFound => Ok(false),
        Err(error) => Err(Error::of_file(path, error)),
    }
}

/// No store is made under the name of another one's log, or of a creation: it would be taken for that.
pub fn is_no_other_name(path: &Path) -> Result<(), Error> {
    let name = path.as_os_str().as_bytes();
    match [WAL, CREATING].iter().any(|suffix| name.ends_with(suffix.as_bytes())) {
        true => Err(Error::ReservedName { file: path.to_path_buf() }),
        false => Ok(()),
    }
}

/// A creation leaves alone what is there.
pub fn is_free(path: &Path) -> Result<(), Error> {
    match is_there(path)? {
        true => Err(Error::AlreadyExists { file: path.to_path_buf() }),
        false => Ok(()),
    }
}

/// Where a symbolic link leads, so that a store has one log whatever name it is opened by.
pub fn resolved(path: &Path) -> Result<PathBuf, Error> {
    let found = |error| Error::of_file(path, error);
    match fs::symlink_metadata(path).map_err(found)?.is_symlink() {
        true => fs::canonicalize(path).map_err(found),
        false => Ok(path.to_path_buf()),
    }
}

/// Whether the path is that file's name.
pub fn names(path: &Path, file: &File) -> io::Result<bool> {
    match fs::symlink_metadata(path) {
        Ok(named) => {
            let file = file.metadata()?;
            Ok((named.dev(), named.ino()) == (file.dev(), file.ino()))
        }
        Err(error) if error.kind() == io::ErrorKind::NotFound => Ok(false),
        Err(error) => Err(error),
    }
}

pub fn remove_if_there(path: &Path) -> io::Result<()> {
    match fs::remove_file(path) {
        Err(error) if error.kind() == io::ErrorKind::NotFound => Ok(()),
        removed => removed,
    }
}

/// Opens a main file and locks it. While the lock was waited for, a creation may have put another file there.
pub fn open_locked(path: &Path, read_only: bool, wait: Duration) -> Result<File, Error> {
    loop {
        let file = open_regular(path, read_only)?;
        lock(&file, path, read_only, wait)?;
        if names(path, &file).map_err(|error| Error::of_file(path, error))? {
            return Ok(file);
        }
    }
}

/// Opens a regular file with one name.
pub fn open_regular(path: &Path, read_only: bool) -> Result<File, Error> {
    let mut options = OpenOptions::new();
    options.read(true).write(!read_only).custom_flags(O_NONBLOCK | O_NOFOLLOW);
    let file = options.open(path).map_err(|error| Error::of_file(path, error))?;
    is_regular(path, &file)?;
    Ok(file)
}

fn is_regular(path: &Path, file: &File) -> Result<(), Error> {
    let found = file.metadata().map_err(|error| Error::of_file(path, error))?;
    let file = path.to_path_buf();
    match found.nlink() {
        _ if !found.is_file() => Err(Error::NotAFile { file }),
        links @ 2.. => Err(Error::Linked { file, links }),
        _ => Ok(()),
    }
}

/// A main file opened under its other name.
pub struct Begun {
    pub file: File,
    /// Whether it was there: a creation was cut, or is at work.
    pub was_there: bool,
}

/// Makes a file under its other name, where there is none. An error names the file itself, or the folder that is missing.
fn make_creating(path: &Path) -> Result<File, Error> {
    let creating = creating_path(path);
    let mut options = OpenOptions::new();
    options.read(true).write(true).create_new(true).custom_flags(O_NOFOLLOW);
    options.open(&creating).map_err(|error| match error.kind() {
        io::ErrorKind::NotFound => Error::NotFound {
            file: folder_of(&creating).to_path_buf(),
        },
        _ => Error::of_file(path, error),
    })
}

/// Begins a log. What lies under its other name is what a creation that was cut has left, and goes.
pub fn begin_log(path: &Path) -> Result<File, Error> {
    remove_if_there(&creating_path(path)).map_err(|error| Error::of_file(path, error))?;
    make_creating(path)
}

fn begin(path: &Path) -> Result<Begun, Error> {
    loop {
        match make_creating(path) {
            Err(Error::AlreadyExists { .. }) => {}
            made => {
                let (file, was_there) = (made?, false);
                return Ok(Begun { file, was_there });
            }
        }
        match open_regular(&creating_path(path), false) {
            Err(Error::NotFound { .. }) => {}
            found => {
                let (file, was_there) = (found?, true);
                return Ok(Begun { file, was_there });
            }
        }
    }
}

/// Begins a main file and locks it. While the lock was waited for, the creation that had it may have published or removed it.
pub fn begin_locked(path: &Path, wait: Duration) -> Result<Begun, Error> {
    let creating = creating_path(path);
    loop {
        let begun = begin(path)?;
        let locked = lock(&begun.file, path, false, wait);
        if matches!(locked, Err(Error::Io { .. })) && !begun.was_there {
            let _ = fs::remove_file(&creating);
        }
        locked?;
        if names(&creating, &begun.file).map_err(|error| Error::of_file(path, error))? {
            return Ok(begun);
        }
    }
}

/// A mode whose group's rights are no more than everybody's.
fn without_group(mode: u32) -> u32 {
    mode & (!0o070 | (mode & 0o007) << 3)
}

/// Gives a new file the group of another, and its mode as far as `may` allows. Where the group can't be given, the file's own group gets
/// no rights that were another's.
pub fn share_as(file: &File, like: &Metadata, may: u32) {
    let _ = fchown(file, None, Some(like.gid()));
    let has_group = file.metadata().is_ok_and(|file| file.gid() == like.gid());
    let mode = if has_group { like.mode() } else { without_group(like.mode()) };
    let _ = file.set_permissions(Permissions::from_mode(mode & may & 0o7777));
}

/// Gives a new file the mode, group and owner of the one that it belongs to, as far as that is allowed: who looks after a store as another
/// user must not lock its controller out.
pub fn give_away(file: &File, like: &File) {
    if let Ok(like) = like.metadata() {
        share_as(file, &like, u32::MAX);
        let _ = fchown(file, Some(like.uid()), None);
    }
}

pub fn folder_of(file: &Path) -> &Path {
    match file.parent() {
        Some(parent) if !parent.as_os_str().is_empty() => parent,
        _ => Path::new("."),
    }
}

pub fn open_folder(file: &Path) -> io::Result<File> {
    File::open(folder_of(file))
}

/// A new name outlasts a power cut only when its folder was synced too. A file system that syncs no folders says so.
pub fn sync_folder(folder: &File) -> io::Result<()> {
    match folder.sync_all() {
        Err(error) if is_unsupported(&error) => Ok(()),
        synced => synced,
    }
}

#[cfg(test)]
mod tests {
    use super::without_group;

    #[test]
    fn another_group_may_do_what_everybody_may() {
        for (mode, left) in [
            (0o640, 0o600),
            (0o660, 0o600),
            (0o664, 0o644),
            (0o666, 0o666),
            (0o646, 0o646),
            (0o755, 0o755),
        ] {
            assert_eq!(without_group(mode), left, "{mode:o}");
        }
    }
}
