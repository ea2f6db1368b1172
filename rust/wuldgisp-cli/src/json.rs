//! JSON, as far as answers need it: values that are printed on one line.

use std::fmt;

#[derive(Clone, Debug)]
pub enum Json {
    Null,
    Bool(bool),
    Number(u64),
    Text(String),
    List(Vec<Json>),
    Object(Vec<(String, Json)>),
}

impl Json {
    pub fn text(text: impl Into<String>) -> Self {
        Json::Text(text.into())
    }

    pub fn number(number: usize) -> Self {
        Json::Number(number as u64)
    }

    /// A number, or null.
    pub fn optional(number: Option<u32>) -> Self {
        number.map_or(Json::Null, Json::from)
    }

    pub fn list<T>(values: impl IntoIterator<Item = T>, json: impl FnMut(T) -> Json) -> Self {
        Json::List(values.into_iter().map(json).collect())
    }

    pub fn object<const N: usize>(members: [(&str, Json); N]) -> Self {
        Json::Object(members.into_iter().map(|(key, value)| (key.to_owned(), value)).collect())
    }

    /// An object with members behind those that it has.
    pub fn and<const N: usize>(self, members: [(&str, Json); N]) -> Self {
        self.join(Json::object(members))
    }

    /// An object with the members of another behind those that it has.
    pub fn join(self, other: Json) -> Self {
        let (Json::Object(mut all), Json::Object(members)) = (self, other) else {
            unreachable!("members are an object's")
        };
        all.extend(members);
        Json::Object(all)
    }

    /// A name: its text, or an object with its bytes in hexadecimal where they are no UTF-8.
    pub fn name(bytes: &[u8]) -> Self {
        match std::str::from_utf8(bytes) {
            Ok(text) => Json::text(text),
            Err(_) => {
                let hex: String = bytes.iter().map(|byte| format!("{byte:02x}")).collect();
                Json::object([("hex", Json::Text(hex))])
            }
        }
    }
}

impl From<u32> for Json {
    fn from(number: u32) -> Self {
        Json::Number(number.into())
    }
}

impl fmt::Display for Json {
    fn fmt(&self, f: &mut fmt::Formatter) -> fmt::Result {
        match self {
            Json::Null => write!(f, "null"),
            Json::Bool(value) => write!(f, "{value}"),
            Json::Number(number) => write!(f, "{number}"),
            Json::Text(text) => escaped(f, text),
            Json::List(values) => {
                write!(f, "[")?;
                for (own, value) in values.iter().enumerate() {
                    write!(f, "{}{value}", if own == 0 { "" } else { "," })?;
                }
                write!(f, "]")
            }
            Json::Object(members) => {
                write!(f, "{{")?;
                for (own, (key, value)) in members.iter().enumerate() {
                    write!(f, "{}", if own == 0 { "" } else { "," })?;
                    escaped(f, key)?;
                    write!(f, ":{value}")?;
                }
                write!(f, "}}")
            }
        }
    }
}

/// A string between quotes.
fn escaped(f: &mut fmt::Formatter, text: &str) -> fmt::Result {
    write!(f, "\"")?;
    for c in text.chars() {
        match c {
            '"' | '\\' => write!(f, "\\{c}")?,
            _ if c.is_control() => write!(f, "\\u{:04x}", u32::from(c))?,
            _ => write!(f, "{c}")?,
        }
    }
    write!(f, "\"")
}
