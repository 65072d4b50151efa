//! JSON, written: one object on one line, for scripts.
use std::fmt::Write;

/// A value as its text.
pub struct Json(String);

impl Json {
    pub fn text(text: &str) -> Json {
        let mut out = String::from('"');
        for c in text.chars() {
            match c {
                '"' | '\\' => out.extend(['\\', c]),
                c if c.is_control() => {
                    let _ = write!(out, "\\u{:04x}", u32::from(c));
                }
                c => out.push(c),
            }
        }
        out.push('"');
        Json(out)
    }

    /// A number as Rust writes it; null where JSON has none, for infinities and what is not a number.
    pub fn real(x: f64) -> Json {
        match x.is_finite() {
            true => Json(format!("{x:?}")),
            false => Json::from(None::<u64>),
        }
    }

    /// The same of 32 bits, by the digits that tell it from other floats of that size.
    pub fn small_real(x: f32) -> Json {
        match x.is_finite() {
            true => Json(format!("{x:?}")),
            false => Json::from(None::<u64>),
        }
    }

    pub fn list(items: impl IntoIterator<Item = Json>) -> Json {
        let items: Vec<String> = items.into_iter().map(|item| item.0).collect();
        Json(format!("[{}]", items.join(",")))
    }

    /// Names are plain words, which need no escape.
    pub fn object(fields: impl IntoIterator<Item = (&'static str, Json)>) -> Json {
        let fields: Vec<String> = fields.into_iter().map(|(name, value)| format!("\"{name}\":{}", value.0)).collect();
        Json(format!("{{{}}}", fields.join(",")))
    }

    /// The value and the line's end.
    pub fn line(self) -> String {
        self.0 + "\n"
    }
}

macro_rules! written_as_they_are {
    ($($kind:ty)*) => {$(
        impl From<$kind> for Json {
            fn from(value: $kind) -> Json {
                Json(value.to_string())
            }
        }
    )*};
}

written_as_they_are!(bool u16 u32 u64 i64 usize);

impl<T: Into<Json>> From<Option<T>> for Json {
    fn from(value: Option<T>) -> Json {
        value.map_or(Json("null".to_string()), T::into)
    }
}

impl From<&str> for Json {
    fn from(text: &str) -> Json {
        Json::text(text)
    }
}
