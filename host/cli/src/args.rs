//! The words of a command line: what stands alone, flags, and options with a value. Words are bytes, as file names are.
use crate::failure::Failure;
use lateenbael::DEFAULT_WAIT;
use std::ffi::{OsStr, OsString};
use std::os::unix::ffi::OsStrExt;
use std::slice;
use std::str::FromStr;
use std::time::Duration;

/// Which options a command knows, and the line that says how it is called.
#[derive(Clone, Copy)]
pub struct Known {
    pub flags: &'static [&'static str],
    pub valued: &'static [&'static str],
    pub usage: &'static str,
}

/// A command's words, its options taken out.
pub struct Args {
    words: Vec<OsString>,
    options: Vec<(&'static str, OsString)>,
    usage: &'static str,
}

impl Args {
    pub fn parse(given: &[OsString], known: Known) -> Result<Args, Failure> {
        let (mut words, mut options) = (Vec::new(), Vec::new());
        let mut given = given.iter();
        while let Some(word) = given.next() {
            match word.as_bytes() {
                b"--" => words.extend(given.by_ref().cloned()),
                [b'-', _, ..] => options.push(option(word, &mut given, known)?),
                _ => words.push(word.clone()),
            }
        }
        let usage = known.usage;
        Ok(Args { words, options, usage })
    }

    /// The words, which must be so many.
    pub fn words<const N: usize>(&self) -> Result<[&OsStr; N], Failure> {
        let words: Vec<&OsStr> = self.words.iter().map(OsString::as_os_str).collect();
        words.try_into().map_err(|_| self.expected())
    }

    /// The first word, and all behind it.
    pub fn first_and_rest(&self) -> Result<(&OsStr, &[OsString]), Failure> {
        let (first, rest) = self.words.split_first().ok_or_else(|| self.expected())?;
        Ok((first, rest))
    }

    pub fn expected(&self) -> Failure {
        Failure::Usage(format!("expected: {}", self.usage))
    }

    pub fn has(&self, flag: &str) -> bool {
        self.options.iter().any(|(name, _)| *name == flag)
    }

    /// Every value given for an option.
    pub fn all<'a>(&'a self, option: &'a str) -> impl Iterator<Item = &'a OsStr> {
        self.options
            .iter()
            .filter(move |(name, _)| *name == option)
            .map(|(_, value)| value.as_os_str())
    }

    /// The last number given for an option.
    pub fn number<T: FromStr>(&self, option: &str) -> Result<Option<T>, Failure> {
        let value = self.all(option).last();
        value
            .map(|value| number(value).map_err(|f| f.about(format!("--{option}"))))
            .transpose()
    }

    /// How long a lock is waited for.
    pub fn wait(&self) -> Result<Duration, Failure> {
        let Some(value) = self.all("wait").last() else {
            return Ok(DEFAULT_WAIT);
        };
        let seconds: Option<f64> = value.to_str().and_then(|value| value.parse().ok());
        let wait = seconds.and_then(|seconds| Duration::try_from_secs_f64(seconds).ok());
        wait.ok_or_else(|| Failure::Usage(format!("--wait: \"{}\" is no number of seconds", value.display())))
    }
}

/// An option's name and value; a flag's value is empty.
fn option(word: &OsStr, behind: &mut slice::Iter<OsString>, known: Known) -> Result<(&'static str, OsString), Failure> {
    let unknown = || Failure::Usage(format!("{} is no option here", word.display()));
    let option = word.as_bytes().strip_prefix(b"--").ok_or_else(unknown)?;
    let (name, value) = match split_at_equals(OsStr::from_bytes(option)) {
        Some((name, value)) => (name, Some(value)),
        None => (OsStr::from_bytes(option), None),
    };
    let named = |names: &'static [&'static str]| names.iter().copied().find(|known| name == *known);
    if let (Some(flag), None) = (named(known.flags), value) {
        return Ok((flag, OsString::new()));
    }
    let option = named(known.valued).ok_or_else(unknown)?;
    let value = value
        .or_else(|| behind.next().map(OsString::as_os_str))
        .filter(|value| !value.is_empty());
    let value = value.ok_or_else(|| Failure::Usage(format!("--{option} wants a value")))?;
    Ok((option, value.to_os_string()))
}

/// An empty word names nothing: as a rule a script has lost it.
pub fn none_is_empty(words: &[OsString]) -> Result<(), Failure> {
    match (1..).zip(words).find(|(_, word)| word.is_empty()) {
        Some((n, _)) => Err(Failure::Usage(format!("a word is empty: number {n} behind lateenbael"))),
        None => Ok(()),
    }
}

/// A word's parts before and behind its first `=`.
pub fn split_at_equals(word: &OsStr) -> Option<(&OsStr, &OsStr)> {
    let bytes = word.as_bytes();
    let at = bytes.iter().position(|byte| *byte == b'=')?;
    Some((OsStr::from_bytes(&bytes[..at]), OsStr::from_bytes(&bytes[at + 1..])))
}

pub fn number<T: FromStr>(word: &OsStr) -> Result<T, Failure> {
    let number = word.to_str().and_then(|word| word.parse().ok());
    number.ok_or_else(|| Failure::Usage(format!("\"{}\" is no number that fits here", word.display())))
}
