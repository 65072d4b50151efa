//! The calls of a list, as they are written and read.

use std::fmt::{self, Display, Formatter};

use engine::sql::pager::header::DbHeader;
use lists::hex;

use crate::side::{Area, Cut};
use crate::spec::{self, Spec};

#[derive(Debug, Clone, PartialEq, Eq)]
pub enum Call {
    Salt(u32),
    Create,
    Open(Opening),
    Stage(u32, Spec),
    Clear,
    Drop,
    Batch(Spec),
    BatchRaw(Spec),
    Clock(u64),
    Preview(DbHeader),
    Commit(DbHeader),
    Checkpoint,
    Read(u32),
    Header,
    State,
    Batches,
    Pages,
    Loglist,
    Cut(Cut),
    Edit(Edit),
}

#[derive(Debug, Clone, Copy, PartialEq, Eq)]
pub enum Opening {
    ReadWrite,
    ReadOnly,
    Clean,
}

/// What is done to the files while no store is open.
#[derive(Debug, Clone, PartialEq, Eq)]
pub enum Edit {
    Truncate(Area, usize),
    Flip(Area, usize, u8),
    Put(Area, usize, Vec<u8>),
    AppendLog(Spec),
    /// A good frame: page, commit count, body.
    Frame(u32, u32, Spec),
    RemoveLog,
    Remove,
}

/// The call on a line, if there is one; a comment is none.
pub fn parse(line: &str) -> Result<Option<Call>, String> {
    let written = line.split('#').next().unwrap_or_default();
    let words: Vec<_> = written.split_whitespace().collect();
    match words[..] {
        [] => Ok(None),
        _ => match of_words(&words) {
            Some(call) => Ok(Some(call)),
            None => Err(format!("no such call: {written}")),
        },
    }
}

fn of_words(words: &[&str]) -> Option<Call> {
    Some(match words {
        ["salt", digits] => Call::Salt(u32::from_str_radix(digits, 16).ok()?),
        ["create"] => Call::Create,
        ["open", "rw"] => Call::Open(Opening::ReadWrite),
        ["open", "ro"] => Call::Open(Opening::ReadOnly),
        ["open", "clean"] => Call::Open(Opening::Clean),
        ["stage", page, spec] => Call::Stage(page.parse().ok()?, Spec::parse(spec)?),
        ["clear"] => Call::Clear,
        ["drop"] => Call::Drop,
        ["batch", spec] => Call::Batch(Spec::parse(spec)?),
        ["batch-raw", spec] => Call::BatchRaw(Spec::parse(spec)?),
        ["clock", value] => Call::Clock(value.parse().ok()?),
        ["preview", fields @ ..] => Call::Preview(spec::header(fields)?),
        ["commit", fields @ ..] => Call::Commit(spec::header(fields)?),
        ["fold"] => Call::Checkpoint,
        ["read", page] => Call::Read(page.parse().ok()?),
        ["header"] => Call::Header,
        ["state"] => Call::State,
        ["batches"] => Call::Batches,
        ["pages"] => Call::Pages,
        ["loglist"] => Call::Loglist,
        ["cut", stores, bytes] => Call::Cut(Cut {
            stores: stores.parse().ok()?,
            bytes: bytes.parse().ok()?,
        }),
        _ => Call::Edit(edit(words)?),
    })
}

fn edit(words: &[&str]) -> Option<Edit> {
    Some(match words {
        ["append-log", spec] => Edit::AppendLog(Spec::parse(spec)?),
        ["frame", page, commit, spec] => {
            Edit::Frame(page.parse().ok()?, commit.parse().ok()?, Spec::parse(spec)?)
        }
        ["rm-log"] => Edit::RemoveLog,
        ["rm"] => Edit::Remove,
        [word, at, rest @ ..] => {
            let (act, area) = word.split_once('-')?;
            let area = Area::from_name(area)?;
            let at = at.parse().ok()?;
            match (act, rest) {
                ("trunc", []) => Edit::Truncate(area, at),
                ("flip", [xor]) => Edit::Flip(area, at, xor.parse().ok()?),
                ("put", [digits]) => Edit::Put(area, at, spec::bytes_of(digits)?),
                _ => return None,
            }
        }
        _ => return None,
    })
}

impl Display for Call {
    fn fmt(&self, f: &mut Formatter<'_>) -> fmt::Result {
        match self {
            Self::Salt(salt) => write!(f, "salt {salt:08x}"),
            Self::Open(opening) => write!(f, "open {opening}"),
            Self::Stage(page, spec) => write!(f, "stage {page} {spec}"),
            Self::Batch(spec) => write!(f, "batch {spec}"),
            Self::BatchRaw(spec) => write!(f, "batch-raw {spec}"),
            Self::Clock(value) => write!(f, "clock {value}"),
            Self::Preview(header) | Self::Commit(header) => {
                write!(f, "{} {}", self.name(), spec::fields(header, " "))
            }
            Self::Read(page) => write!(f, "read {page}"),
            Self::Cut(Cut { stores, bytes }) => write!(f, "cut {stores} {bytes}"),
            Self::Edit(edit) => write!(f, "{edit}"),
            other => write!(f, "{}", other.name()),
        }
    }
}

impl Call {
    /// The first word, which is all of a call without arguments.
    pub fn name(&self) -> &'static str {
        match self {
            Self::Salt(_) => "salt",
            Self::Create => "create",
            Self::Open(_) => "open",
            Self::Stage(..) => "stage",
            Self::Clear => "clear",
            Self::Drop => "drop",
            Self::Batch(_) => "batch",
            Self::BatchRaw(_) => "batch-raw",
            Self::Clock(_) => "clock",
            Self::Preview(_) => "preview",
            Self::Commit(_) => "commit",
            Self::Checkpoint => "fold",
            Self::Read(_) => "read",
            Self::Header => "header",
            Self::State => "state",
            Self::Batches => "batches",
            Self::Pages => "pages",
            Self::Loglist => "loglist",
            Self::Cut(_) => "cut",
            Self::Edit(edit) => edit.name(),
        }
    }
}

impl Display for Opening {
    fn fmt(&self, f: &mut Formatter<'_>) -> fmt::Result {
        f.write_str(match self {
            Self::ReadWrite => "rw",
            Self::ReadOnly => "ro",
            Self::Clean => "clean",
        })
    }
}

impl Edit {
    pub fn name(&self) -> &'static str {
        match self {
            Self::Truncate(Area::Main, _) => "trunc-main",
            Self::Truncate(Area::Log, _) => "trunc-log",
            Self::Flip(Area::Main, ..) => "flip-main",
            Self::Flip(Area::Log, ..) => "flip-log",
            Self::Put(Area::Main, ..) => "put-main",
            Self::Put(Area::Log, ..) => "put-log",
            Self::AppendLog(_) => "append-log",
            Self::Frame(..) => "frame",
            Self::RemoveLog => "rm-log",
            Self::Remove => "rm",
        }
    }
}

impl Display for Edit {
    fn fmt(&self, f: &mut Formatter<'_>) -> fmt::Result {
        f.write_str(self.name())?;
        match self {
            Self::Truncate(_, length) => write!(f, " {length}"),
            Self::Flip(_, at, xor) => write!(f, " {at} {xor}"),
            Self::Put(_, at, bytes) => write!(f, " {at} {}", hex::digits(bytes)),
            Self::AppendLog(spec) => write!(f, " {spec}"),
            Self::Frame(page, commit, spec) => write!(f, " {page} {commit} {spec}"),
            Self::RemoveLog | Self::Remove => Ok(()),
        }
    }
}

#[cfg(test)]
mod tests {
    use super::*;

    #[test]
    fn what_is_printed_is_read_back() {
        for line in [
            "salt 0000beef",
            "create",
            "open rw",
            "open ro",
            "open clean",
            "stage 5 fill:07",
            "clear",
            "drop",
            "batch 3",
            "batch-raw inline:4d56",
            "clock 18446744073709551615",
            "preview 1024 1 6 4294967295",
            "commit 2 1 4 0",
            "fold",
            "read 4294967295",
            "header",
            "state",
            "batches",
            "pages",
            "loglist",
            "cut 3 17",
            "trunc-log 36",
            "flip-log 40 255",
            "put-log 16 00000000",
            "append-log inline:01",
            "frame 5 0 9",
            "rm-log",
            "trunc-main 4096",
            "flip-main 0 1",
            "put-main 20 00040000",
            "rm",
        ] {
            let call = parse(line).unwrap().unwrap();
            assert_eq!(call.to_string(), line);
            assert_eq!(call.name(), line.split(' ').next().unwrap());
        }
    }

    #[test]
    fn comments_and_mistakes() {
        assert_eq!(parse("  # nothing"), Ok(None));
        assert_eq!(parse("fold # now"), Ok(Some(Call::Checkpoint)));
        for line in [
            "open",
            "fold 1",
            "commit 1 2 3",
            "preview",
            "preview 1 2 3 4 5",
            "flip-log 1 256",
            "trunc-x 1",
            "salt x",
        ] {
            assert!(parse(line).is_err(), "{line}");
        }
    }
}
