//! Texts that know how many characters they have.
use crate::Refusal;
use lateenbael_sys as sys;
use std::fmt;
use std::hash::{Hash, Hasher};
use std::ops::Deref;

/// A text, and how many characters (Unicode scalar values) it has, as the proved check counted them. In all else it is its `str`.
#[derive(Clone, Copy)]
pub struct Text<'a> {
    text: &'a str,
    char_count: usize,
}

/// How many characters bytes are. Refusal 19.
fn counted(bytes: &[u8]) -> Result<usize, Refusal> {
    // SAFETY: a whole slice is lent, which the call reads and does not keep.
    let answer = unsafe { sys::lateenbael_from_utf8(bytes.as_ptr(), bytes.len()) };
    Refusal::check(answer.refusal)?;
    Ok(answer.chars)
}

impl<'a> Text<'a> {
    /// The text that bytes are. Refusal 19.
    pub fn from_utf8(bytes: &'a [u8]) -> Result<Text<'a>, Refusal> {
        Ok(Text::checked(bytes, counted(bytes)?))
    }

    /// Bytes that the proved check has taken, and its number of characters.
    pub(crate) fn checked(bytes: &'a [u8], char_count: usize) -> Text<'a> {
        let text = std::str::from_utf8(bytes).expect("a checked text is UTF-8");
        Text { text, char_count }
    }

    /// How many characters it has. The number is there already: `chars().count()` reads the text for it.
    pub fn char_count(&self) -> usize {
        self.char_count
    }

    /// The text itself.
    pub fn as_str(self) -> &'a str {
        self.text
    }
}

impl<'a> From<&'a str> for Text<'a> {
    fn from(text: &'a str) -> Self {
        let char_count = counted(text.as_bytes()).expect("a str is UTF-8");
        Text { text, char_count }
    }
}

impl Deref for Text<'_> {
    type Target = str;

    fn deref(&self) -> &str {
        self.text
    }
}

impl AsRef<str> for Text<'_> {
    fn as_ref(&self) -> &str {
        self.text
    }
}

impl PartialEq for Text<'_> {
    fn eq(&self, other: &Self) -> bool {
        self.text == other.text
    }
}

impl Eq for Text<'_> {}

impl PartialEq<str> for Text<'_> {
    fn eq(&self, other: &str) -> bool {
        self.text == other
    }
}

impl PartialEq<&str> for Text<'_> {
    fn eq(&self, other: &&str) -> bool {
        self.text == *other
    }
}

impl Hash for Text<'_> {
    fn hash<H: Hasher>(&self, state: &mut H) {
        self.text.hash(state);
    }
}

impl fmt::Debug for Text<'_> {
    fn fmt(&self, f: &mut fmt::Formatter<'_>) -> fmt::Result {
        fmt::Debug::fmt(self.text, f)
    }
}

impl fmt::Display for Text<'_> {
    fn fmt(&self, f: &mut fmt::Formatter<'_>) -> fmt::Result {
        fmt::Display::fmt(self.text, f)
    }
}
