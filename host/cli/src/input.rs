//! What a command is given to read: pages, and batches as text.
use crate::args::{number, split_at_equals};
use crate::batch_text;
use crate::failure::Failure;
use lateenbael::BatchBuilder;
use lateenbael::sys::PAGE_SIZE;
use std::collections::HashSet;
use std::ffi::OsStr;
use std::fs::{self, File};
use std::io::{self, Read};

/// A log has 1,024 frames, and a batch's text is at most 7 times as long as the 4,096 bytes of its frame: 28 MiB. The rest is for
/// remarks and empty lines.
const TEXT_LIMIT: usize = 32 << 20;

/// What a word names: a file, or standard input if it is `-`.
#[derive(Clone, Copy)]
pub struct Source<'a>(pub &'a OsStr);

impl Source<'_> {
    pub fn is_standard_input(self) -> bool {
        self.0 == "-"
    }

    /// What messages call it.
    pub fn name(self) -> String {
        match self.is_standard_input() {
            true => "standard input".to_string(),
            false => self.0.display().to_string(),
        }
    }

    /// The bytes, no more than so many.
    fn read(self, most: usize) -> io::Result<Vec<u8>> {
        match self.is_standard_input() {
            true => read_at_most(io::stdin().lock(), most),
            false => read_at_most(File::open(self.0)?, most),
        }
    }

    /// A page's bytes.
    pub fn page(self) -> Result<[u8; PAGE_SIZE], Failure> {
        let bytes = self.read(PAGE_SIZE + 1).map_err(|e| self.failed(e))?;
        let more = if bytes.len() > PAGE_SIZE { " or more" } else { "" };
        let wrong = format!("{}: {} bytes{more}, and a page has {PAGE_SIZE}", self.name(), bytes.len());
        bytes.try_into().map_err(|_| Failure::Refused(wrong))
    }

    /// A text of at most so many bytes. A longer regular file is refused before it is read.
    pub fn text(self, limit: usize) -> Result<String, Failure> {
        let too_long = || Failure::Refused(format!("{}: longer than {limit} bytes, which is the limit", self.name()));
        if !self.is_standard_input() && fs::metadata(self.0).is_ok_and(|found| found.is_file() && found.len() > limit as u64) {
            return Err(too_long());
        }
        let bytes = self.read(limit + 1).map_err(|e| self.failed(e))?;
        if bytes.len() > limit {
            return Err(too_long());
        }
        String::from_utf8(bytes).map_err(|error| {
            let before = &error.as_bytes()[..error.utf8_error().valid_up_to()];
            let line = 1 + before.iter().filter(|byte| **byte == b'\n').count();
            Failure::Usage(format!("{}, line {line}: not UTF-8", self.name()))
        })
    }

    fn failed(self, error: io::Error) -> Failure {
        Failure::file(self.name(), error)
    }
}

/// Standard input can be read once.
pub fn at_most_one_standard_input<'a>(sources: impl Iterator<Item = &'a Source<'a>>) -> Result<(), Failure> {
    match sources.filter(|source| source.is_standard_input()).count() {
        0 | 1 => Ok(()),
        _ => Err(Failure::Usage("standard input (-) is given more than once".to_string())),
    }
}

/// Of a page that is given twice one file would be lost.
pub fn each_page_once(mut pages: impl Iterator<Item = u32>) -> Result<(), Failure> {
    let mut seen = HashSet::new();
    match pages.find(|page| !seen.insert(*page)) {
        Some(page) => Err(Failure::Usage(format!("page {page} is given more than once"))),
        None => Ok(()),
    }
}

/// `PAGE=FILE`: the number, and what the file is.
pub fn page_word(word: &OsStr) -> Result<(u32, Source<'_>), Failure> {
    let unclear = |why: &str| Failure::Usage(format!("{} {why}", word.display()));
    let (page, file) = split_at_equals(word).ok_or_else(|| unclear("is not PAGE=FILE"))?;
    let page = number(page).map_err(|f| f.about(word.display()))?;
    match file.is_empty() {
        true => Err(unclear("names no file")),
        false => Ok((page, Source(file))),
    }
}

/// The batches of some texts, in order.
pub fn batches_of(sources: &[Source]) -> Result<Vec<BatchBuilder>, Failure> {
    let mut batches = Vec::new();
    for source in sources {
        batches.extend(batch_text::parse(&source.name(), &source.text(TEXT_LIMIT)?)?);
    }
    Ok(batches)
}

fn read_at_most(from: impl Read, most: usize) -> io::Result<Vec<u8>> {
    let mut bytes = Vec::new();
    from.take(most as u64).read_to_end(&mut bytes)?;
    Ok(bytes)
}
