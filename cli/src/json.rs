//! JSON for programs: a small writer, and how a name stands in it.

use crate::names;
use std::fmt;

/// A value.
#[derive(Clone, Debug, PartialEq)]
pub enum Json {
    Null,
    Truth(bool),
    Number(u64),
    Text(String),
    List(Vec<Json>),
    Object(Vec<(&'static str, Json)>),
}

impl Json {
    pub fn text(words: impl Into<String>) -> Json {
        Json::Text(words.into())
    }

    pub fn numbers(numbers: &[u64]) -> Json {
        Json::List(numbers.iter().map(|&n| Json::Number(n)).collect())
    }
}

/// A name: as text where it is printable, else null; and as hex digits always.
pub fn name(name: &[u8]) -> Vec<(&'static str, Json)> {
    let text = names::text(name).map_or(Json::Null, Json::text);
    vec![("name", text), ("hex", Json::Text(names::hex(name)))]
}

impl fmt::Display for Json {
    fn fmt(&self, f: &mut fmt::Formatter<'_>) -> fmt::Result {
        match self {
            Json::Null => f.write_str("null"),
            Json::Truth(truth) => write!(f, "{truth}"),
            Json::Number(number) => write!(f, "{number}"),
            Json::Text(text) => escaped(f, text),
            Json::List(items) => {
                f.write_str("[")?;
                for (i, item) in items.iter().enumerate() {
                    write!(f, "{}{item}", if i == 0 { "" } else { "," })?;
                }
                f.write_str("]")
            }
            Json::Object(fields) => {
                f.write_str("{")?;
                for (i, (key, value)) in fields.iter().enumerate() {
                    write!(f, "{}\"{key}\":{value}", if i == 0 { "" } else { "," })?;
                }
                f.write_str("}")
            }
        }
    }
}

fn escaped(f: &mut fmt::Formatter<'_>, text: &str) -> fmt::Result {
    f.write_str("\"")?;
    for c in text.chars() {
        match c {
            '"' => f.write_str("\\\"")?,
            '\\' => f.write_str("\\\\")?,
            c if c < ' ' => write!(f, "\\u{:04x}", u32::from(c))?,
            c => write!(f, "{c}")?,
        }
    }
    f.write_str("\"")
}

#[cfg(test)]
mod tests {
    use super::*;

    #[test]
    fn every_kind_of_value() {
        let mut fields = name(b"a\"\\b");
        fields.push(("n", Json::numbers(&[1, 2])));
        fields.push(("ok", Json::Truth(true)));
        fields.push(("line", Json::text("a\n\u{1}é")));
        let wanted = r#"{"name":"a\"\\b","hex":"61225c62","n":[1,2],"ok":true,"line":"a\u000a\u0001é"}"#;
        assert_eq!(Json::Object(fields).to_string(), wanted);
        let wanted = r#"{"name":null,"hex":"00"}"#;
        assert_eq!(Json::Object(name(b"\0")).to_string(), wanted);
    }
}
