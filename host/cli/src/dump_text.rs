//! A whole store as text: printed by `dump`, read by `restore`. What was printed reads back to the same store.
use crate::batch_text;
use crate::failure::Failure;
use lateenbael::sys::{DbHeader, PAGE_SIZE, PAGES};
use lateenbael::{Batch, BatchBuilder, Page, Snapshot};
use std::fmt::Write;
use std::str::FromStr;

const FIRST_LINE: &str = "lateenbael-dump 1";
const LAST_LINE: &str = "end";

/// Bytes on a line.
const LINE: usize = 32;

/// As many batches as a log has frames.
const MOST_BATCHES: usize = 1024;

// ---- printing

pub fn print(snapshot: &Snapshot) -> String {
    let h = snapshot.header;
    let mut text = format!("{FIRST_LINE}\n");
    let _ = writeln!(
        text,
        "header {} {} {} {}",
        h.page_count, h.schema_root_page, h.format_version, h.freelist_head
    );
    let _ = writeln!(text, "clock {}", snapshot.clock_high_water);
    let pages = snapshot.pages.iter().enumerate();
    text.extend(pages.map(|(number, page)| page_text(number, page.as_ref())));
    text.extend(snapshot.batches.iter().map(body_text));
    text + LAST_LINE + "\n"
}

/// Page 0 is left out where it is nowhere, for that is nothing bad.
fn page_text(number: usize, page: Option<&Page>) -> String {
    match page {
        Some(bytes) => format!("page {number}\n{}", hex_lines(bytes)),
        None if number == 0 => String::new(),
        None => format!("page {number} nowhere\n"),
    }
}

fn hex_lines(bytes: &[u8; PAGE_SIZE]) -> String {
    let mut text = String::new();
    let (lines, _) = bytes.as_chunks::<LINE>();
    for run in lines.chunk_by(|one, next| one == next && *one == [0; LINE]) {
        match run[0] == [0; LINE] {
            true => text += &format!("zeros {}\n", run.len()),
            false => text += &hex_line(&run[0]),
        }
    }
    text
}

fn hex_line(bytes: &[u8; LINE]) -> String {
    let digit = |value: u8| char::from(b"0123456789abcdef"[usize::from(value)]);
    let digits = bytes.iter().flat_map(|byte| [digit(byte >> 4), digit(byte & 15)]);
    digits.chain(['\n']).collect()
}

/// A batch's rows, or its bytes where the rows don't give them back: another program may have written it otherwise.
fn body_text(body: &Page) -> String {
    let rows = Batch::decode(&body[..]).map(|batch| batch_text::print(&batch));
    let is_exact = |rows: &String| matches!(batch_text::parse("", rows).as_deref(), Ok([read]) if read.body() == &**body);
    match rows.ok().filter(is_exact) {
        Some(rows) => rows,
        None => format!("body\n{}", hex_lines(body)),
    }
}

// ---- reading

/// The store of a text; `name` says where it comes from.
pub fn parse(name: &str, text: &str) -> Result<Snapshot, Failure> {
    let mut lines = (1..).zip(text.lines());
    if lines.next().is_none_or(|(_, line)| line != FIRST_LINE) {
        return Err(unclear(&format!(
            "{name}, line 1: no dump that this program reads, which begins with {FIRST_LINE}"
        )));
    }
    if text.lines().next_back() != Some(LAST_LINE) {
        return Err(Failure::Refused(format!("{name}: cut off, for its last line is not {LAST_LINE}")));
    }
    let mut dump = Dump::default();
    for (n, line) in lines {
        dump.add_line(line).map_err(|failure| failure.about(format!("{name}, line {n}")))?;
    }
    dump.finished().map_err(|failure| failure.about(name))
}

/// What the lines so far have told.
#[derive(Default)]
struct Dump {
    header: Option<DbHeader>,
    clock: Option<u64>,
    pages: Vec<Option<Page>>,
    batches: Vec<Page>,
    /// The batch whose rows are being read, which may go on.
    building: Vec<BatchBuilder>,
    /// The bytes that are being read.
    block: Option<Block>,
    ended: bool,
}

struct Block {
    is_page: bool,
    bytes: Vec<u8>,
}

impl Dump {
    fn add_line(&mut self, line: &str) -> Result<(), Failure> {
        let words: Vec<&str> = line.split_whitespace().collect();
        if words.is_empty() || words[0].starts_with('#') {
            return Ok(());
        }
        if self.ended {
            return Err(unclear("a line behind the last one"));
        }
        if let Some(block) = self.block.take() {
            return self.add_bytes(block, &words);
        }
        match words[..] {
            ["header", count, root, version, freelist] => set_once(&mut self.header, header_of([count, root, version, freelist])?),
            ["clock", clock] => set_once(&mut self.clock, parsed(clock)?),
            ["page", number] => self.begin_page(parsed(number)?).map(|()| self.begin_block(true)),
            ["page", number, "nowhere"] => self.begin_page(parsed(number)?).map(|()| self.pages.push(None)),
            ["body"] => self.end_batch().map(|()| self.begin_block(false)),
            ["batch", ..] => self.end_batch().and_then(|()| batch_text::add_line(&mut self.building, line)),
            ["tombstone" | "present" | "column", ..] => batch_text::add_line(&mut self.building, line),
            [LAST_LINE] => self.end_batch().map(|()| self.ended = true),
            _ => Err(unclear("no line of a dump")),
        }
    }

    /// Pages come in order; page 0 may be left out.
    fn begin_page(&mut self, number: usize) -> Result<(), Failure> {
        if number == 1 && self.pages.is_empty() {
            self.pages.push(None);
        }
        let expected = self.pages.len();
        match number == expected && number < PAGES {
            true => Ok(()),
            false => Err(unclear(&format!(
                "page {number}, where page {expected} of at most {PAGES} would follow"
            ))),
        }
    }

    fn begin_block(&mut self, is_page: bool) {
        let bytes = Vec::new();
        self.block = Some(Block { is_page, bytes });
    }

    fn add_bytes(&mut self, mut block: Block, words: &[&str]) -> Result<(), Failure> {
        let there = block.bytes.len();
        let more = match words {
            ["zeros", lines] => vec![0; LINE * parsed::<usize>(lines)?.min(PAGE_SIZE)],
            [digits] if digits.len() == 2 * LINE => bytes_of(digits)?,
            _ => return Err(unclear(&format!("{} hexadecimal digits, or zeros LINES, would follow", 2 * LINE))),
        };
        block.bytes.extend(more);
        match (block.bytes.len(), block.bytes.try_into()) {
            (_, Ok(whole)) => self.end_block(block.is_page, whole),
            (len, Err(bytes)) if len < PAGE_SIZE => {
                let is_page = block.is_page;
                self.block = Some(Block { is_page, bytes });
                Ok(())
            }
            _ => Err(unclear(&format!("{} bytes more would be enough", PAGE_SIZE - there))),
        }
    }

    fn end_block(&mut self, is_page: bool, bytes: Page) -> Result<(), Failure> {
        match is_page {
            true => self.pages.push(Some(bytes)),
            false => self.add_batch(bytes)?,
        }
        Ok(())
    }

    fn end_batch(&mut self) -> Result<(), Failure> {
        match self.building.pop() {
            Some(batch) => self.add_batch(Box::new(*batch.body())),
            None => Ok(()),
        }
    }

    fn add_batch(&mut self, body: Page) -> Result<(), Failure> {
        self.batches.push(body);
        match self.batches.len() > MOST_BATCHES {
            true => Err(Failure::Refused(format!(
                "more than {MOST_BATCHES} batches, and a log has {MOST_BATCHES} frames"
            ))),
            false => Ok(()),
        }
    }

    fn finished(mut self) -> Result<Snapshot, Failure> {
        let header = self.header.ok_or_else(|| unclear("no line says the header"))?;
        if header.page_count > 0 && self.pages.is_empty() {
            self.pages.push(None);
        }
        Ok(Snapshot {
            header,
            clock_high_water: self.clock.ok_or_else(|| unclear("no line says the clock"))?,
            pages: self.pages,
            batches: self.batches,
        })
    }
}

fn header_of([count, root, version, freelist]: [&str; 4]) -> Result<DbHeader, Failure> {
    Ok(DbHeader {
        page_count: parsed(count)?,
        schema_root_page: parsed(root)?,
        format_version: parsed(version)?,
        freelist_head: parsed(freelist)?,
    })
}

fn set_once<T>(place: &mut Option<T>, value: T) -> Result<(), Failure> {
    match place.replace(value) {
        None => Ok(()),
        Some(_) => Err(unclear("told for the second time")),
    }
}

fn bytes_of(digits: &str) -> Result<Vec<u8>, Failure> {
    let (pairs, _) = digits.as_bytes().as_chunks::<2>();
    let byte = |pair: &[u8; 2]| Some(16 * digit(pair[0])? + digit(pair[1])?);
    let bytes: Option<Vec<u8>> = pairs.iter().map(byte).collect();
    bytes.ok_or_else(|| unclear("not all of these are hexadecimal digits"))
}

fn digit(digit: u8) -> Option<u8> {
    char::from(digit).to_digit(16).and_then(|value| u8::try_from(value).ok())
}

fn parsed<T: FromStr>(word: &str) -> Result<T, Failure> {
    word.parse().map_err(|_| unclear(&format!("{word:?} is no number that fits here")))
}

fn unclear(why: &str) -> Failure {
    Failure::Usage(why.to_string())
}
