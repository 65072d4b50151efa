//! What a call on real files can answer instead of its result.
use crate::Refusal;
use std::fmt;
use std::io;
use std::path::PathBuf;

/// A symbolic link where none may be.
const ELOOP: i32 = 40;
/// Too many files are open, of all programs or of this one.
const ENFILE: i32 = 23;
const EMFILE: i32 = 24;

/// Why a call did not do its work. Where it is about a file, a page or a process, it names it.
#[derive(Debug)]
#[non_exhaustive]
pub enum Error {
    /// The store refused the call; nothing was changed.
    Refused(Refusal),
    /// Refusal 14, with the lowest page that is missing; nothing was changed.
    Joining {
        /// The page that isn't staged.
        page: usize,
    },
    /// An opening was refused for what this file holds; nothing was changed.
    RefusedFile {
        /// The file.
        file: PathBuf,
        /// Why.
        refusal: Refusal,
    },
    /// A commit with a staged page at or above its page count, which would be committed and then read as nothing. The library takes
    /// it, as the Rust does; [`Store`](crate::Store) does not, and nothing was changed.
    StagedBeyond {
        /// The lowest such page.
        page: u32,
        /// The page count of the commit's header.
        page_count: u32,
    },
    /// A commit or a batch behind bytes at the log's end that are no frame, where no opening would find it. Only a plain opening leaves such
    /// bytes there. The library takes it, as the Rust does; [`Store`](crate::Store) does not, and nothing was changed.
    TornTail {
        /// The log.
        file: PathBuf,
        /// How many bytes are no frame.
        bytes: usize,
    },
    /// Another program, or another `Store` of this one, has the store open, and did not close it in the time that was waited.
    Locked {
        /// The file that is locked, the main one.
        file: PathBuf,
        /// Who holds the lock, where the system tells.
        holder: Option<String>,
    },
    /// No store is made under a name that ends in -wal or -creating: another store's files would be taken for it.
    ReservedName {
        /// The file.
        file: PathBuf,
    },
    /// A creation found this file, and left it.
    AlreadyExists {
        /// The file.
        file: PathBuf,
    },
    /// There is no such file.
    NotFound {
        /// The file.
        file: PathBuf,
    },
    /// What stands there is no regular file: a folder, a pipe, a device, or a symbolic link in a log's place.
    NotAFile {
        /// The file.
        file: PathBuf,
    },
    /// The file has more than one hard link. Under another name the store would have another log.
    Linked {
        /// The file.
        file: PathBuf,
        /// How many links it has.
        links: u64,
    },
    /// The file was removed, replaced or given another length while the store was open. The call wrote nothing; the store has stopped,
    /// unless the call was a [`preview`](crate::Store::preview).
    Replaced {
        /// The file.
        file: PathBuf,
    },
    /// The disk failed. An open store stops for good: what it has in memory may not be what lies on the disk.
    Io {
        /// The file.
        file: PathBuf,
        /// What the system said.
        source: io::Error,
    },
    /// The store stopped in an earlier call. Open the files again.
    Stopped,
}

impl Error {
    /// The refusal, if it is one.
    pub fn refusal(&self) -> Option<Refusal> {
        match self {
            Error::Refused(refusal) | Error::RefusedFile { refusal, .. } => Some(*refusal),
            Error::Joining { .. } => Some(Refusal::Joining),
            _ => None,
        }
    }

    /// An error of the system's, about a file.
    pub(crate) fn of_file(file: impl Into<PathBuf>, source: io::Error) -> Error {
        let (file, source) = match source.downcast::<Error>() {
            Ok(error) => return error,
            Err(source) => (file.into(), source),
        };
        match source.kind() {
            io::ErrorKind::NotFound => Error::NotFound { file },
            io::ErrorKind::AlreadyExists => Error::AlreadyExists { file },
            io::ErrorKind::IsADirectory => Error::NotAFile { file },
            _ if source.raw_os_error() == Some(ELOOP) => Error::NotAFile { file },
            _ => Error::Io { file, source },
        }
    }
}

impl fmt::Display for Error {
    fn fmt(&self, f: &mut fmt::Formatter<'_>) -> fmt::Result {
        match self {
            Error::Refused(refusal) => refusal.fmt(f),
            Error::Joining { page } => write!(f, "{}: page {page}", Refusal::Joining),
            Error::RefusedFile { file, refusal } => write!(f, "{}: {refusal}", file.display()),
            Error::StagedBeyond { page, page_count } => {
                write!(f, "page {page} is staged, and a page count of {page_count} would leave it out")
            }
            Error::TornTail { file, bytes } => write!(
                f,
                "{} ends in {bytes} bytes that are no frame, behind which no opening would find what is committed; a clean opening cuts them off",
                file.display()
            ),
            Error::Locked { file, holder } => {
                let holder = holder.as_deref().unwrap_or("a controller, or another lateenbael");
                write!(f, "{}: another program has the store open ({holder})", file.display())
            }
            Error::ReservedName { file } => write!(
                f,
                "{}: a name that ends in -wal or -creating is that of another store's file",
                file.display()
            ),
            Error::AlreadyExists { file } => write!(f, "{} is there already", file.display()),
            Error::NotFound { file } => write!(f, "{}: there is no such file", file.display()),
            Error::NotAFile { file } => write!(f, "{} is no regular file", file.display()),
            Error::Linked { file, links } => write!(
                f,
                "{} has {links} hard links, and each name would have a log of its own",
                file.display()
            ),
            Error::Replaced { file } => write!(f, "{} was removed, replaced or altered while the store was open", file.display()),
            Error::Io { file, source } if is_forbidden(source) => write!(f, "{}: {source}", file.display()),
            Error::Io { file, source } => write!(f, "{}: the disk failed: {source}", file.display()),
            Error::Stopped => write!(f, "the store has stopped in an earlier call; open it again"),
        }
    }
}

/// Whether the file is out of reach, and the disk has not failed.
fn is_forbidden(error: &io::Error) -> bool {
    use io::ErrorKind::*;
    matches!(
        error.kind(),
        PermissionDenied | ReadOnlyFilesystem | NotADirectory | ResourceBusy | InvalidFilename | FileTooLarge
    ) || matches!(error.raw_os_error(), Some(ENFILE | EMFILE))
}

impl std::error::Error for Error {
    fn source(&self) -> Option<&(dyn std::error::Error + 'static)> {
        match self {
            Error::Io { source, .. } => Some(source),
            Error::Refused(refusal) | Error::RefusedFile { refusal, .. } => Some(refusal),
            _ => None,
        }
    }
}

/// For functions that answer the system's errors: the error itself is inside.
impl From<Error> for io::Error {
    fn from(error: Error) -> io::Error {
        let kind = match &error {
            Error::NotFound { .. } => io::ErrorKind::NotFound,
            Error::AlreadyExists { .. } => io::ErrorKind::AlreadyExists,
            Error::Locked { .. } => io::ErrorKind::WouldBlock,
            Error::RefusedFile { .. } => io::ErrorKind::InvalidData,
            Error::Io { source, .. } => source.kind(),
            _ => io::ErrorKind::Other,
        };
        io::Error::new(kind, error)
    }
}

impl From<Refusal> for io::Error {
    fn from(refusal: Refusal) -> io::Error {
        Error::Refused(refusal).into()
    }
}

impl From<Refusal> for Error {
    fn from(refusal: Refusal) -> Error {
        Error::Refused(refusal)
    }
}

impl From<(Refusal, usize)> for Error {
    fn from((refusal, page): (Refusal, usize)) -> Error {
        match refusal {
            Refusal::Joining => Error::Joining { page },
            other => Error::Refused(other),
        }
    }
}
