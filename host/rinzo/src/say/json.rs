//! JSON, to write.

use super::shown;
use std::fmt;
use std::path::Path;

/// A JSON value.
pub enum Json {
    /// A number, `true`, `false` or `null`, already spelt.
    Plain(String),
    /// A string.
    Text(String),
    /// An array.
    List(Vec<Json>),
    /// An object.
    Object(Vec<(&'static str, Json)>),
}

impl Json {
    /// A whole number.
    pub fn number(number: impl Into<i128>) -> Json {
        Json::Plain(number.into().to_string())
    }

    /// Yes or no.
    pub fn truth(truth: bool) -> Json {
        Json::Plain(truth.to_string())
    }

    /// A string.
    pub fn text(text: impl Into<String>) -> Json {
        Json::Text(text.into())
    }

    /// A file's name, to the letter where it is text.
    pub fn path(path: &Path) -> Json {
        Json::Text(path.to_str().map_or_else(|| shown::name(path), str::to_string))
    }

    /// A source name for a line: as text, and its bytes in hexadecimal, of which nothing is lost.
    pub fn source(source: &[u8; 16]) -> [(&'static str, Json); 2] {
        let bytes = source.iter().map(|byte| format!("{byte:02x}")).collect();
        [("source", Json::Text(shown::source(source))), ("source-bytes", Json::Text(bytes))]
    }

    /// A float by its bits and its value; JSON has no value for infinities and not-a-numbers.
    pub fn float(bits: String, value: f64) -> Json {
        let value = if value.is_finite() { format!("{value:?}") } else { "null".to_string() };
        Json::Object(vec![("bits", Json::Text(bits)), ("value", Json::Plain(value))])
    }
}

impl fmt::Display for Json {
    fn fmt(&self, f: &mut fmt::Formatter) -> fmt::Result {
        match self {
            Json::Plain(text) => f.write_str(text),
            Json::Text(text) => write_text(f, text),
            Json::List(items) => {
                f.write_str("[")?;
                for (i, item) in items.iter().enumerate() {
                    write!(f, "{}{item}", if i == 0 { "" } else { "," })?;
                }
                f.write_str("]")
            }
            Json::Object(fields) => {
                f.write_str("{")?;
                for (i, (name, value)) in fields.iter().enumerate() {
                    write!(f, "{}\"{name}\":{value}", if i == 0 { "" } else { "," })?;
                }
                f.write_str("}")
            }
        }
    }
}

fn write_text(f: &mut fmt::Formatter, text: &str) -> fmt::Result {
    f.write_str("\"")?;
    for c in text.chars() {
        match c {
            '"' => f.write_str("\\\"")?,
            '\\' => f.write_str("\\\\")?,
            c if shown::is_hidden(c) => write!(f, "\\u{:04x}", c as u32)?,
            c => write!(f, "{c}")?,
        }
    }
    f.write_str("\"")
}

#[cfg(test)]
mod tests {
    use super::Json;

    #[test]
    fn strings_are_escaped() {
        assert_eq!(Json::text("a\"b\\c\n").to_string(), "\"a\\\"b\\\\c\\u000a\"");
        assert_eq!(Json::text("\u{7f}\u{9b}\u{202e}\u{e9}").to_string(), "\"\\u007f\\u009b\\u202e\u{e9}\"");
    }

    #[test]
    fn floats_without_a_value_are_null() {
        assert_eq!(Json::float("7fc00000".to_string(), f64::NAN).to_string(), "{\"bits\":\"7fc00000\",\"value\":null}");
        assert_eq!(Json::float("3fc00000".to_string(), 1.5).to_string(), "{\"bits\":\"3fc00000\",\"value\":1.5}");
    }

    #[test]
    fn objects_and_lists_nest() {
        let json =
            Json::Object(vec![("a", Json::List(vec![Json::number(1), Json::number(-2)])), ("b", Json::Object(vec![]))]);
        assert_eq!(json.to_string(), "{\"a\":[1,-2],\"b\":{}}");
    }
}
