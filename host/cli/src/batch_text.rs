//! The readable form of batches: printed by `batches`, read by `append`. What was printed reads back to the same bytes.
use crate::failure::Failure;
use lateenbael::{Batch, BatchBuilder, Record, Value, Vector};
use std::fmt::Write;

// ---- printing

pub fn print(batch: &Batch) -> String {
    let mut text = format!("batch {}\n", batch.commit_ts());
    for record in batch.records() {
        print_record(&mut text, &record);
    }
    text
}

fn print_record(text: &mut String, record: &Record) {
    let word = if record.columns.is_some() { "present" } else { "tombstone" };
    let _ = writeln!(text, "{word} {} {}", quoted(&record.table), record.rowid);
    for column in record.columns.into_iter().flatten() {
        let _ = writeln!(text, "  column {} {}", quoted(&column.name), value_text(column.value));
    }
}

fn value_text(value: Value) -> String {
    match value {
        Value::Null => "null".to_string(),
        Value::Integer(n) => format!("integer {n}"),
        Value::Real(x) if x.is_nan() => format!("real 0x{:016x}", x.to_bits()),
        Value::Real(x) => format!("real {x:?}"),
        Value::Text(text) => format!("text {}", quoted(&text)),
        Value::Bool(flag) => format!("bool {flag}"),
        Value::Vector(vector) => vector
            .elements()
            .fold("vector".to_string(), |text, x| text + " " + &element_text(x)),
    }
}

fn element_text(x: f32) -> String {
    match x.is_nan() {
        true => format!("0x{:08x}", x.to_bits()),
        false => format!("{x:?}"),
    }
}

fn quoted(text: &str) -> String {
    let mut out = String::from('"');
    for c in text.chars() {
        match c {
            '"' | '\\' => out.extend(['\\', c]),
            '\n' => out.push_str("\\n"),
            '\r' => out.push_str("\\r"),
            '\t' => out.push_str("\\t"),
            c if c.is_control() => out.extend(c.escape_unicode()),
            c => out.push(c),
        }
    }
    out.push('"');
    out
}

// ---- reading

/// More batches than a log has frames are no use, and each takes a page's memory.
const LOG_FRAMES: usize = 1024;

/// The batches of a text; `name` says where it comes from.
pub fn parse(name: &str, text: &str) -> Result<Vec<BatchBuilder>, Failure> {
    let mut batches = Vec::new();
    for (n, line) in (1..).zip(text.lines()) {
        add_line(&mut batches, line).map_err(|failure| failure.about(format!("{name}, line {n}")))?;
    }
    Ok(batches)
}

/// One line: a batch begun, or something added to the last one.
pub fn add_line(batches: &mut Vec<BatchBuilder>, line: &str) -> Result<(), Failure> {
    let tokens = tokens(line)?;
    let Some((Token::Word(word), rest)) = tokens.split_first() else {
        return if tokens.is_empty() {
            Ok(())
        } else {
            Err(unclear("a line begins with a word"))
        };
    };
    if word == "batch" {
        let [Token::Word(time)] = rest else {
            return Err(unclear("expected: batch TIME"));
        };
        if batches.len() == LOG_FRAMES {
            return Err(Failure::Refused(format!(
                "more than {LOG_FRAMES} batches, and a log has {LOG_FRAMES} frames"
            )));
        }
        batches.push(BatchBuilder::new(parsed(time)?));
        return Ok(());
    }
    let batch = batches.last_mut().ok_or_else(|| unclear("no batch has begun"))?;
    match (word.as_str(), rest) {
        ("tombstone", [Token::Quoted(table), Token::Word(rowid)]) => Ok(batch.add_tombstone(table, parsed(rowid)?)?),
        ("present", [Token::Quoted(table), Token::Word(rowid)]) => Ok(batch.begin_present(table, parsed(rowid)?)?),
        ("column", [Token::Quoted(name), Token::Word(kind), values @ ..]) => add_column(batch, name, kind, values),
        ("tombstone" | "present", _) => Err(unclear(&format!("expected: {word} \"TABLE\" ROWID"))),
        ("column", _) => Err(unclear("expected: column \"NAME\" KIND VALUE")),
        _ => Err(unclear(&format!("{word} is none of batch, tombstone, present, column"))),
    }
}

fn add_column(batch: &mut BatchBuilder, name: &str, kind: &str, values: &[Token]) -> Result<(), Failure> {
    let bytes;
    let value = match (kind, values) {
        ("null", []) => Value::Null,
        ("integer", [Token::Word(n)]) => Value::Integer(parsed(n)?),
        ("real", [Token::Word(x)]) => Value::Real(real(x)?),
        ("text", [Token::Quoted(text)]) => text.as_str().into(),
        ("bool", [Token::Word(flag)]) => Value::Bool(parsed(flag)?),
        ("vector", elements) => {
            bytes = Vector::bytes_of(&elements.iter().map(element).collect::<Result<Vec<f32>, Failure>>()?);
            Value::Vector(Vector(&bytes))
        }
        _ => return Err(unclear(&format!("no such value: {kind}, with {} words behind it", values.len()))),
    };
    Ok(batch.add_column(name, value)?)
}

fn unclear(why: &str) -> Failure {
    Failure::Usage(why.to_string())
}

fn parsed<T: std::str::FromStr>(word: &str) -> Result<T, Failure> {
    word.parse().map_err(|_| unfitting(word))
}

fn unfitting(word: &str) -> Failure {
    unclear(&format!("{word:?} does not fit here"))
}

/// A number as it is written. Infinities are written as words: one that was written by digits is a number too large for its bits.
fn float<T: std::str::FromStr + Copy + Into<f64>>(word: &str) -> Result<T, Failure> {
    let x: T = parsed(word)?;
    match x.into() {
        real if real.is_nan() => Err(unclear("a NaN is written by its bits")),
        real if real.is_infinite() && word.contains(|c: char| c.is_ascii_digit()) => Err(unfitting(word)),
        _ => Ok(x),
    }
}

fn real(word: &str) -> Result<f64, Failure> {
    if let Some(digits) = bits_of(word, 16) {
        return Ok(f64::from_bits(digits?));
    }
    float(word)
}

fn element(token: &Token) -> Result<f32, Failure> {
    let Token::Word(word) = token else {
        return Err(unclear("an element is a number"));
    };
    if let Some(digits) = bits_of(word, 8) {
        return Ok(f32::from_bits(digits? as u32));
    }
    float(word)
}

/// The bits that a word beginning with 0x tells by so many digits.
fn bits_of(word: &str, digits: usize) -> Option<Result<u64, Failure>> {
    let hex = word.strip_prefix("0x")?;
    let right = hex.len() == digits && hex.bytes().all(|b| b.is_ascii_hexdigit());
    Some(match right {
        true => u64::from_str_radix(hex, 16).map_err(|_| unclear("no bits")),
        false => Err(unclear(&format!("0x wants {digits} hexadecimal digits behind it"))),
    })
}

// ---- words of a line

enum Token {
    Word(String),
    Quoted(String),
}

fn tokens(line: &str) -> Result<Vec<Token>, Failure> {
    let mut tokens = Vec::new();
    let mut rest = line.trim_start();
    while let Some(c) = rest.chars().next().filter(|c| *c != '#') {
        if c == '"' {
            let (text, behind) = unquoted(&rest[1..])?;
            tokens.push(Token::Quoted(text));
            rest = behind;
        } else {
            let end = rest.find(|c: char| c.is_whitespace() || c == '"' || c == '#').unwrap_or(rest.len());
            tokens.push(Token::Word(rest[..end].to_string()));
            rest = &rest[end..];
        }
        rest = rest.trim_start();
    }
    Ok(tokens)
}

/// The text up to the closing quote, and what stands behind it.
fn unquoted(line: &str) -> Result<(String, &str), Failure> {
    let mut text = String::new();
    let mut chars = line.chars();
    loop {
        match chars.next() {
            None => return Err(unclear("a closing quote is missing")),
            Some('"') => return Ok((text, chars.as_str())),
            Some('\\') => {
                let (c, behind) = escaped(chars.as_str()).ok_or_else(|| unclear("no such escape behind \\"))?;
                text.push(c);
                chars = behind.chars();
            }
            Some(c) => text.push(c),
        }
    }
}

/// The character of an escape, and what stands behind it.
fn escaped(text: &str) -> Option<(char, &str)> {
    let mut chars = text.chars();
    let c = match chars.next()? {
        c @ ('"' | '\\') => c,
        'n' => '\n',
        'r' => '\r',
        't' => '\t',
        'u' => {
            let (hex, behind) = chars.as_str().strip_prefix('{')?.split_once('}')?;
            return Some((char::from_u32(u32::from_str_radix(hex, 16).ok()?)?, behind));
        }
        _ => return None,
    };
    Some((c, chars.as_str()))
}

#[cfg(test)]
mod tests {
    use super::*;

    struct Random(u64);

    impl Random {
        fn next(&mut self) -> u64 {
            self.0 ^= self.0 << 13;
            self.0 ^= self.0 >> 7;
            self.0 ^= self.0 << 17;
            self.0
        }

        fn below(&mut self, n: u64) -> u64 {
            (self.next() >> 11) % n
        }

        /// A text of characters that are hard to write, and any others.
        fn text(&mut self) -> String {
            let hard = [
                '"', '\\', '#', '\n', '\r', '\t', ' ', '\0', '\u{7f}', '\u{85}', '\u{2028}', '{', '}', 'ü', '🚡',
            ];
            let any = |r: &mut Random| char::from_u32(r.below(0x11_0000) as u32).unwrap_or('x');
            let len = self.below(8);
            (0..len)
                .map(|_| match self.below(2) {
                    0 => hard[self.below(hard.len() as u64) as usize],
                    _ => any(self),
                })
                .collect()
        }

        fn add_column(&mut self, batch: &mut BatchBuilder) -> Result<(), lateenbael::Refusal> {
            let (name, text) = (self.text(), self.text());
            let bits: Vec<u8> = (0..self.below(4)).flat_map(|_| (self.next() as u32).to_le_bytes()).collect();
            let value = match self.below(6) {
                0 => Value::Null,
                1 => Value::Integer(self.next() as i64),
                2 => Value::Real(f64::from_bits(self.next() | (self.below(2) * (0x7ff0 << 48)))),
                3 => text.as_str().into(),
                4 => Value::Bool(self.below(2) == 1),
                _ => Value::Vector(Vector(&bits)),
            };
            batch.add_column(&name, value)
        }
    }

    #[test]
    fn every_batch_reads_back_to_its_bytes() {
        let mut random = Random(20);
        for _ in 0..3000 {
            let mut batch = BatchBuilder::new(random.next());
            for _ in 0..random.below(60) {
                // What does not fit, or has no row before it, is left out.
                let _ = match random.below(5) {
                    0 => batch.add_tombstone(&random.text(), random.next() as i64),
                    1 => batch.begin_present(&random.text(), random.next() as i64),
                    _ => random.add_column(&mut batch),
                };
            }
            let text = print(&Batch::decode(batch.body()).unwrap());
            let back = parse("text", &text).unwrap_or_else(|failure| panic!("{failure}\n{text}"));
            assert_eq!(back.len(), 1);
            assert!(back[0].body() == batch.body(), "{text}");
        }
    }
}
