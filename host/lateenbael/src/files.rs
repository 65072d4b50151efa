//! A store's two real files.
use crate::direct::{Direct, drop_cached};
use crate::named::{
    Begun, begin_locked, begin_log, creating_path, folder_of, give_away, is_free, is_no_other_name, is_there, names, open_folder,
    open_locked, open_regular, remove_if_there, resolved, share_as, sync_folder, wal_path_for,
};
use crate::{Area, Comparison, Disk, Error};
use std::fs::{self, File};
use std::io;
use std::os::unix::fs::{FileExt, MetadataExt};
use std::path::{Path, PathBuf};
use std::time::Duration;

/// Two real files. The main file is locked while they are open, for writers alone or for readers together, as the Rust locks it.
///
/// A new file is made under its name with `-creating` behind it, and gets its own when it is whole (`publish`): the log first, then the
/// main file. So a creation that was cut has left no main file, and the one under the other name tells that it was cut: a log beside that is
/// its own, while a log alone is one whose main file was lost.
#[derive(Debug)]
pub struct Files {
    main: OneFile,
    log: OneFile,
    /// The main file that a creation takes the place of, locked until the new one stands there.
    replaced: Option<File>,
    /// The folder, while files are made in it: opened before anything is removed.
    folder: Option<File>,
}

#[derive(Debug)]
struct OneFile {
    path: PathBuf,
    file: Option<File>,
    /// How long it is, where that is known: a checkpoint that leaves the main file's length as it was then makes no system call for it.
    len: Option<usize>,
    stage: Stage,
}

/// Under which name a file stands.
#[derive(Clone, Copy, Debug, PartialEq)]
enum Stage {
    /// Under its other name.
    Begun,
    /// Under its own name, which a power cut may still take back.
    Renamed,
    /// Under its own name, for good.
    Named,
}

impl OneFile {
    fn new(path: PathBuf, file: Option<File>, stage: Stage) -> OneFile {
        OneFile {
            path,
            file,
            len: None,
            stage,
        }
    }

    fn open_file(&self) -> io::Result<&File> {
        self.file.as_ref().ok_or_else(|| io::Error::from(io::ErrorKind::NotFound))
    }

    /// Whether the path is this file's name now, and no other file's.
    fn has_name(&self, path: &Path) -> bool {
        self.file.as_ref().is_some_and(|file| matches!(names(path, file), Ok(true)))
    }

    fn remove_name(&self, path: &Path) {
        if self.has_name(path) {
            let _ = fs::remove_file(path);
        }
    }
}

/// A creation that fails leaves no file behind. The main file's other name goes last, since it tells whose the log is.
impl Drop for Files {
    fn drop(&mut self) {
        let (main, log) = (&self.main, &self.log);
        let [creating, log_creating] = [main, log].map(|one| creating_path(&one.path));
        if main.stage == Stage::Renamed && main.has_name(&main.path) {
            let _ = fs::rename(&main.path, &creating);
        }
        if main.stage != Stage::Named {
            log.remove_name(&log.path);
            log.remove_name(&log_creating);
            main.remove_name(&creating);
        } else if log.stage == Stage::Begun {
            log.remove_name(&log_creating);
        }
    }
}

/// How often a store is looked for again that other programs make or remove meanwhile. A link that leads nowhere stays so.
const TRIES: usize = 100;

/// Does it again where another program has made the store, or removed it, since it was looked for.
fn with_patience<T>(mut attempt: impl FnMut() -> Result<T, Error>) -> Result<T, Error> {
    let mut answer = attempt();
    for _ in 1..TRIES {
        if !matches!(answer, Err(Error::NotFound { .. } | Error::AlreadyExists { .. })) {
            break;
        }
        answer = attempt();
    }
    answer
}

impl Files {
    /// The files of a store that is there; the log may be missing. The lock is waited for so long.
    pub fn existing(path: &Path, read_only: bool, wait: Duration) -> Result<Files, Error> {
        let path = resolved(path)?;
        let main = open_locked(&path, read_only, wait)?;
        let log_path = wal_path_for(&path);
        let log = match open_regular(&log_path, read_only) {
            Err(Error::NotFound { .. }) => None,
            found => Some(found?),
        };
        if !read_only {
            // A log whose name is in the cache alone would be gone after a power cut, and all that is committed to it.
            let synced = open_folder(&path).and_then(|folder| sync_folder(&folder));
            synced.map_err(|error| Error::of_file(folder_of(&path), error))?;
        }
        Ok(Files {
            main: OneFile::new(path, Some(main), Stage::Named),
            log: OneFile::new(log_path, log, Stage::Named),
            replaced: None,
            folder: None,
        })
    }

    /// Two new files; if either is there already, it is left alone. What a creation that was cut has left is removed. One that is at work
    /// is waited for so long.
    pub fn fresh(path: &Path, wait: Duration) -> Result<Files, Error> {
        is_no_other_name(path)?;
        let log = wal_path_for(path);
        // In this order: a creation that is at work has the other name until both files have their own, the main file last.
        let is_log_alone = is_there(&log)? && !is_there(&creating_path(path))?;
        is_free(path)?;
        if is_log_alone {
            return Err(Error::AlreadyExists { file: log });
        }
        let files = Files::begun(path, None, wait)?;
        is_free(&log)?;
        Ok(files)
    }

    /// Two new files in the place of whatever stands there, which stays until the new ones are whole. The lock of a main file that is
    /// there, or of a creation that is at work, is waited for so long.
    pub fn overwriting(path: &Path, wait: Duration) -> Result<Files, Error> {
        with_patience(|| {
            if !is_there(path)? {
                is_no_other_name(path)?;
                return Files::begun(path, None, wait);
            }
            let path = resolved(path)?;
            let replaced = open_locked(&path, false, wait)?;
            is_replaceable(&wal_path_for(&path))?;
            Files::begun(&path, Some(replaced), wait)
        })
    }

    /// The files of a store that is there, or new ones; and whether they are new.
    pub(crate) fn existing_or_fresh(path: &Path, wait: Duration) -> Result<(Files, bool), Error> {
        with_patience(|| match Files::existing(path, false, wait) {
            Err(missing @ Error::NotFound { .. }) => match Files::fresh(path, wait) {
                Err(Error::AlreadyExists { file }) if file == path => Err(missing),
                files => Ok((files?, true)),
            },
            files => Ok((files?, false)),
        })
    }

    /// The main file begun, and locked. Where it was begun before, a creation was cut, and what that has left goes; the log too, if there is
    /// no store.
    fn begun(path: &Path, replaced: Option<File>, wait: Duration) -> Result<Files, Error> {
        let folder = open_folder(path).map_err(|error| Error::of_file(folder_of(path), error))?;
        let Begun { file, was_there } = begin_locked(path, wait)?;
        let log = wal_path_for(path);
        if was_there && replaced.is_none() && !is_there(path)? {
            remove_if_there(&log).map_err(|error| Error::of_file(&log, error))?;
        }
        if was_there && (replaced.is_some() || !is_there(path)?) {
            remove_if_there(&creating_path(&log)).map_err(|error| Error::of_file(&log, error))?;
        }
        if let Some(replaced) = &replaced {
            give_away(&file, replaced);
        }
        let files = Files {
            main: OneFile::new(path.to_path_buf(), Some(file), Stage::Begun),
            log: OneFile::new(log, None, Stage::Named),
            replaced,
            folder: Some(folder),
        };
        if files.replaced.is_none() {
            // Another creation may have published it since it was looked for.
            is_free(path)?;
        }
        Ok(files)
    }

    /// Lets nobody do more with new files than with that one.
    pub(crate) fn restrict_as(&self, path: &Path) {
        if let (Ok(like), Ok(file)) = (fs::metadata(path), self.main.open_file())
            && let Ok(new) = file.metadata()
        {
            share_as(file, &like, new.mode());
        }
    }

    fn of(&self, area: Area) -> &OneFile {
        match area {
            Area::Main => &self.main,
            Area::Log => &self.log,
        }
    }

    fn of_mut(&mut self, area: Area) -> &mut OneFile {
        match area {
            Area::Main => &mut self.main,
            Area::Log => &mut self.log,
        }
    }

    /// Takes away the store that a creation replaces, its main file first: an old main file is never seen with a new log, nor the
    /// other way round.
    fn remove_replaced(&self) -> io::Result<()> {
        let Some(replaced) = &self.replaced else { return Ok(()) };
        if !names(&self.main.path, replaced)? {
            return Ok(());
        }
        fs::remove_file(&self.main.path)?;
        remove_if_there(&self.log.path)?;
        self.sync_folder()
    }

    fn sync_folder(&self) -> io::Result<()> {
        match &self.folder {
            Some(folder) => sync_folder(folder),
            None => sync_folder(&open_folder(&self.main.path)?),
        }
    }
}

/// A log that goes with its main file. A folder in its place would not go, and the store would be lost for nothing.
fn is_replaceable(log: &Path) -> Result<(), Error> {
    match fs::symlink_metadata(log) {
        Ok(found) if found.is_dir() => Err(Error::NotAFile { file: log.to_path_buf() }),
        _ => Ok(()),
    }
}

impl Disk for Files {
    fn name(&self, area: Area) -> PathBuf {
        self.of(area).path.clone()
    }

    fn read(&mut self, area: Area, buffer: &mut [u8]) -> io::Result<Option<usize>> {
        let one = self.of_mut(area);
        let Some(file) = &one.file else { return Ok(None) };
        let mut len = 0;
        while len < buffer.len() {
            match file.read_at(&mut buffer[len..], len as u64) {
                Ok(0) => {
                    one.len = Some(len);
                    return Ok(Some(len));
                }
                Ok(n) => len += n,
                Err(error) if error.kind() == io::ErrorKind::Interrupted => {}
                Err(error) => return Err(error),
            }
        }
        let behind = file.metadata()?.len() > len as u64;
        one.len = (!behind).then_some(len);
        Ok(Some(len + usize::from(behind)))
    }

    fn drop_cached(&mut self, area: Area) -> io::Result<()> {
        drop_cached(self.of(area).open_file()?);
        Ok(())
    }

    fn compare_with_medium(&mut self, area: Area, bytes: &[u8]) -> io::Result<Comparison> {
        let one = self.of(area);
        match Direct::open(&one.path, one.open_file()?)? {
            Some(mut direct) => direct.compare(bytes),
            None => Ok(Comparison::Unknown),
        }
    }

    fn create(&mut self, area: Area) -> io::Result<()> {
        if self.of(area).file.is_none() {
            let file = begin_log(&self.of(area).path)?;
            if let Some(main) = &self.main.file {
                give_away(&file, main);
            }
            let one = self.of_mut(area);
            (one.file, one.stage) = (Some(file), Stage::Begun);
        }
        let one = self.of_mut(area);
        if one.stage != Stage::Begun {
            return Err(io::ErrorKind::AlreadyExists.into());
        }
        one.len = None;
        self.set_len(area, 0)
    }

    fn publish(&mut self, area: Area) -> io::Result<()> {
        self.remove_replaced()?;
        let one = self.of_mut(area);
        if one.stage == Stage::Begun {
            fs::rename(creating_path(&one.path), &one.path)?;
            one.stage = Stage::Renamed;
            self.sync_folder()?;
            self.of_mut(area).stage = Stage::Named;
        }
        if area == Area::Main {
            (self.replaced, self.folder) = (None, None);
        }
        Ok(())
    }

    /// Or a main file that is lost later would be taken for one that was never made.
    fn remove_left(&mut self) {
        for one in [&self.log, &self.main] {
            let _ = remove_if_there(&creating_path(&one.path));
        }
    }

    fn write_at(&mut self, area: Area, at: usize, bytes: &[u8]) -> io::Result<()> {
        let one = self.of_mut(area);
        let known = one.len.take();
        one.open_file()?.write_all_at(bytes, at as u64)?;
        let end = if bytes.is_empty() { 0 } else { at + bytes.len() };
        one.len = known.map(|len| len.max(end));
        Ok(())
    }

    fn set_len(&mut self, area: Area, len: usize) -> io::Result<()> {
        let one = self.of_mut(area);
        if one.len.take() != Some(len) {
            one.open_file()?.set_len(len as u64)?;
        }
        one.len = Some(len);
        Ok(())
    }

    fn sync(&mut self, area: Area) -> io::Result<()> {
        self.of(area).open_file()?.sync_all()
    }

    fn is_intact(&mut self, area: Area) -> io::Result<bool> {
        let one = self.of(area);
        let now = one.open_file()?.metadata()?;
        Ok(now.nlink() > 0 && one.len.is_none_or(|len| len as u64 == now.len()))
    }
}
