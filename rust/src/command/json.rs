//! Answers as JSON, one object a line.

use std::fmt;

/// A value of JSON.
#[derive(Clone, Debug, PartialEq)]
pub enum Json {
    Bool(bool),
    Number(usize),
    Text(String),
    List(Vec<Json>),
    Object(Fields),
}

/// The fields of an object, in their order.
pub type Fields = Vec<(&'static str, Json)>;

impl fmt::Display for Json {
    fn fmt(&self, f: &mut fmt::Formatter) -> fmt::Result {
        match self {
            Json::Bool(value) => write!(f, "{value}"),
            Json::Number(value) => write!(f, "{value}"),
            Json::Text(text) => quoted(f, text),
            Json::List(values) => joined(f, "[]", values, |f, value| write!(f, "{value}")),
            Json::Object(fields) => joined(f, "{}", fields, |f, (name, value)| {
                quoted(f, name)?;
                write!(f, ":{value}")
            }),
        }
    }
}

fn joined<T>(
    f: &mut fmt::Formatter,
    ends: &str,
    all: &[T],
    one: impl Fn(&mut fmt::Formatter, &T) -> fmt::Result,
) -> fmt::Result {
    f.write_str(&ends[..1])?;
    for (i, value) in all.iter().enumerate() {
        f.write_str(if i > 0 { "," } else { "" })?;
        one(f, value)?;
    }
    f.write_str(&ends[1..])
}

fn quoted(f: &mut fmt::Formatter, text: &str) -> fmt::Result {
    f.write_str("\"")?;
    for letter in text.chars() {
        match letter {
            '"' | '\\' => write!(f, "\\{letter}")?,
            '\n' => f.write_str("\\n")?,
            _ if letter < ' ' => write!(f, "\\u{:04x}", u32::from(letter))?,
            _ => write!(f, "{letter}")?,
        }
    }
    f.write_str("\"")
}

impl From<bool> for Json {
    fn from(value: bool) -> Self {
        Json::Bool(value)
    }
}

impl From<usize> for Json {
    fn from(value: usize) -> Self {
        Json::Number(value)
    }
}

impl From<u8> for Json {
    fn from(value: u8) -> Self {
        Json::Number(value.into())
    }
}

impl From<&str> for Json {
    fn from(value: &str) -> Self {
        Json::Text(value.to_string())
    }
}

impl From<String> for Json {
    fn from(value: String) -> Self {
        Json::Text(value)
    }
}

impl From<Fields> for Json {
    fn from(value: Fields) -> Self {
        Json::Object(value)
    }
}

/// A list of values.
pub fn list<T: Into<Json>>(values: impl IntoIterator<Item = T>) -> Json {
    Json::List(values.into_iter().map(Into::into).collect())
}

/// A list of bytes.
pub fn bytes(values: &[u8]) -> Json {
    list(values.iter().copied())
}
