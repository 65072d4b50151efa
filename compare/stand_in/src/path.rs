//! Names of files in memory.

use std::ffi::{OsStr, OsString};

use crate::world::with_disk;

/// A file's name. One type serves as `Path` and as `PathBuf`: a name in
/// memory has no parts, so borrowing it needs no type of its own.
#[derive(Debug, Clone, PartialEq, Eq, PartialOrd, Ord)]
pub struct PathBuf(OsString);

pub type Path = PathBuf;

impl PathBuf {
    pub fn as_os_str(&self) -> &OsStr {
        &self.0
    }

    pub fn to_path_buf(&self) -> PathBuf {
        self.clone()
    }

    pub fn exists(&self) -> bool {
        with_disk(|disk| disk.read_file(self).is_some())
    }
}

impl From<OsString> for PathBuf {
    fn from(name: OsString) -> Self {
        Self(name)
    }
}

impl From<&str> for PathBuf {
    fn from(name: &str) -> Self {
        Self(name.into())
    }
}
