//! `script desk KIND FILE`: what the port tells at a desk of one file's bytes.

use lateenbael::sys;

use crate::port::batch;

/// What is printed of a file's bytes.
pub type Kind = fn(&[u8]) -> Vec<u8>;

/// All kinds, by the words that name them.
const KINDS: [(&str, Kind); 2] = [("chars", chars), ("items", items)];

pub fn kind(name: &str) -> Option<Kind> {
    let mut kinds = KINDS.into_iter();
    kinds.find_map(|(known, kind)| (known == name).then_some(kind))
}

/// The characters of a text of any length.
fn chars(text: &[u8]) -> Vec<u8> {
    // Safety: the text is lent whole, and only read.
    let answer = unsafe { sys::lateenbael_from_utf8(text.as_ptr(), text.len()) };
    match answer.refusal {
        0 => format!("chars {}\n", answer.chars).into_bytes(),
        number => format!("refused {number}\n").into_bytes(),
    }
}

/// Where a batch's body ends, or why it is refused, and how many items were
/// read.
fn items(body: &[u8]) -> Vec<u8> {
    let batch = batch::decode(body);
    format!("{}\n", batch::reading_of(&batch)).into_bytes()
}
