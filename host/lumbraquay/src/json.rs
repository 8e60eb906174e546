//! JSON values as text. A number of an object from 2^53 on, which some readers round, has a twin: after "lsn" comes
//! "lsn_text", the same number as a text.

use std::fmt::{self, Display, Formatter};

use crate::plain::is_plain;

/// From here on a number has a twin.
const MOST_EXACT: u64 = 1 << 53;

#[derive(Clone, Debug)]
pub enum Json {
    Null,
    Number(u64),
    Flag(bool),
    Text(String),
    List(Vec<Json>),
    Object(Vec<(&'static str, Json)>),
}

impl Json {
    pub fn text(text: impl Display) -> Json {
        Json::Text(text.to_string())
    }
}

impl From<u64> for Json {
    fn from(number: u64) -> Json {
        Json::Number(number)
    }
}

impl From<usize> for Json {
    fn from(number: usize) -> Json {
        Json::Number(number as u64)
    }
}

impl From<bool> for Json {
    fn from(flag: bool) -> Json {
        Json::Flag(flag)
    }
}

impl From<&str> for Json {
    fn from(text: &str) -> Json {
        Json::Text(text.to_string())
    }
}

impl Display for Json {
    fn fmt(&self, f: &mut Formatter) -> fmt::Result {
        match self {
            Json::Null => f.write_str("null"),
            Json::Number(number) => write!(f, "{number}"),
            Json::Flag(flag) => write!(f, "{flag}"),
            Json::Text(text) => write_text(f, text),
            Json::List(items) => {
                f.write_str("[")?;
                for (at, item) in items.iter().enumerate() {
                    write!(f, "{}{item}", if at == 0 { "" } else { "," })?;
                }
                f.write_str("]")
            }
            Json::Object(fields) => {
                f.write_str("{")?;
                for (at, (name, value)) in fields.iter().enumerate() {
                    write!(f, "{}\"{name}\":{value}", if at == 0 { "" } else { "," })?;
                    if let Json::Number(number @ MOST_EXACT..) = value {
                        write!(f, ",\"{name}_text\":\"{number}\"")?;
                    }
                }
                f.write_str("}")
            }
        }
    }
}

fn write_text(f: &mut Formatter, text: &str) -> fmt::Result {
    f.write_str("\"")?;
    for letter in text.chars() {
        match letter {
            '"' => f.write_str("\\\"")?,
            '\\' => f.write_str("\\\\")?,
            letter if is_plain(letter) => write!(f, "{letter}")?,
            letter => {
                for unit in letter.encode_utf16(&mut [0; 2]) {
                    write!(f, "\\u{unit:04x}")?;
                }
            }
        }
    }
    f.write_str("\"")
}
