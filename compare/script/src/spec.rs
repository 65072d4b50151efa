//! Page content as a list of calls names it.

use std::fmt::{self, Display, Formatter};

use engine::sql::pager::header::{DbHeader, encode_header};
use engine::sql::pager::page::PAGE_SIZE;
use lists::hex;
use splitmix::mix;

#[derive(Debug, Clone, PartialEq, Eq)]
pub enum Spec {
    Seed(u64),
    Fill(u8),
    Header(DbHeader),
    Inline(Vec<u8>),
}

impl Spec {
    /// The bytes as they are named, not padded.
    pub fn bytes(&self) -> Vec<u8> {
        match self {
            Self::Seed(seed) => seeded(*seed),
            Self::Fill(byte) => vec![*byte; PAGE_SIZE],
            Self::Header(header) => encode_header(header).to_vec(),
            Self::Inline(bytes) => bytes.clone(),
        }
    }

    /// Zeros up to a page's length; what is longer stays so.
    pub fn padded(&self) -> Vec<u8> {
        let mut bytes = self.bytes();
        if bytes.len() < PAGE_SIZE {
            bytes.resize(PAGE_SIZE, 0);
        }
        bytes
    }

    pub fn parse(word: &str) -> Option<Self> {
        match word.split_once(':') {
            None => word.parse().ok().map(Self::Seed),
            Some(("fill", byte)) => u8::from_str_radix(byte, 16).ok().map(Self::Fill),
            Some(("header", fields)) => {
                let fields: Vec<_> = fields.split(',').collect();
                header(&fields).map(Self::Header)
            }
            Some(("inline", digits)) => bytes_of(digits).map(Self::Inline),
            Some(_) => None,
        }
    }
}

fn seeded(seed: u64) -> Vec<u8> {
    if seed == 0 {
        return vec![0; PAGE_SIZE];
    }
    let first = seed.wrapping_mul(0x9e37_79b9_7f4a_7c15).wrapping_add(1);
    (0..PAGE_SIZE as u64 / 8)
        .flat_map(|k| mix(first.wrapping_add(k)).to_le_bytes())
        .collect()
}

/// A header by its four fields: count, root, version, freelist.
pub fn header(fields: &[&str]) -> Option<DbHeader> {
    let [count, root, version, freelist] = fields else {
        return None;
    };
    Some(DbHeader {
        page_count: count.parse().ok()?,
        schema_root_page: root.parse().ok()?,
        format_version: version.parse().ok()?,
        freelist_head: freelist.parse().ok()?,
    })
}

/// The four fields with something between them.
pub fn fields(header: &DbHeader, between: &str) -> String {
    let DbHeader {
        page_count,
        schema_root_page,
        format_version,
        freelist_head,
    } = header;
    [
        page_count.to_string(),
        schema_root_page.to_string(),
        format_version.to_string(),
        freelist_head.to_string(),
    ]
    .join(between)
}

/// Bytes in hexadecimal without spaces; `-` is none.
pub fn bytes_of(digits: &str) -> Option<Vec<u8>> {
    if digits == "-" {
        return Some(Vec::new());
    }
    if !digits.len().is_multiple_of(2) || !digits.is_ascii() {
        return None;
    }
    (0..digits.len() / 2)
        .map(|at| u8::from_str_radix(&digits[2 * at..2 * at + 2], 16).ok())
        .collect()
}

impl Display for Spec {
    fn fmt(&self, f: &mut Formatter<'_>) -> fmt::Result {
        match self {
            Self::Seed(seed) => write!(f, "{seed}"),
            Self::Fill(byte) => write!(f, "fill:{byte:02x}"),
            Self::Header(header) => write!(f, "header:{}", fields(header, ",")),
            Self::Inline(bytes) => write!(f, "inline:{}", hex::digits(bytes)),
        }
    }
}

#[cfg(test)]
mod tests {
    use super::*;

    #[test]
    fn seeds() {
        assert_eq!(Spec::Seed(0).bytes(), [0; PAGE_SIZE]);
        let page = Spec::Seed(3).bytes();
        assert_eq!(page.len(), PAGE_SIZE);
        let word = mix(3u64.wrapping_mul(0x9e37_79b9_7f4a_7c15).wrapping_add(512));
        assert_eq!(page[4_088..], word.to_le_bytes());
    }

    #[test]
    fn what_is_printed_is_read_back() {
        for word in ["17", "fill:0a", "header:3,1,4,0", "inline:00ff", "inline:"] {
            assert_eq!(Spec::parse(word).unwrap().to_string(), word);
        }
        for word in ["fill:1ff", "header:1,2,3", "inline:0", "other:1", "x"] {
            assert_eq!(Spec::parse(word), None);
        }
    }
}
