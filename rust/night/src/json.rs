//! JSON, as far as it is written here: an object a line.

use std::fmt::Write;

pub enum Value {
    Null,
    Flag(bool),
    Number(i64),
    Text(String),
    List(Vec<Value>),
}

impl From<usize> for Value {
    fn from(number: usize) -> Value {
        Value::Number(number as i64)
    }
}

impl From<u32> for Value {
    fn from(number: u32) -> Value {
        Value::Number(number.into())
    }
}

impl From<String> for Value {
    fn from(text: String) -> Value {
        Value::Text(text)
    }
}

impl From<&str> for Value {
    fn from(text: &str) -> Value {
        Value::Text(text.to_string())
    }
}

impl<T: Into<Value>> From<Option<T>> for Value {
    fn from(value: Option<T>) -> Value {
        value.map_or(Value::Null, Into::into)
    }
}

/// The lines of a text, which may be any bytes.
pub fn lines(text: &[u8]) -> Value {
    let lines = text.split_inclusive(|&byte| byte == b'\n');
    let line = |line: &[u8]| String::from_utf8_lossy(line.strip_suffix(b"\n").unwrap_or(line)).into_owned();
    Value::List(lines.map(|text| line(text).into()).collect())
}

/// An object with its LF.
pub fn object(fields: Vec<(&str, Value)>) -> String {
    let fields: Vec<String> =
        fields.iter().map(|(name, value)| format!("{}:{}", text(name), value.written())).collect();
    format!("{{{}}}\n", fields.join(","))
}

fn text(text: &str) -> String {
    let mut written = String::from('"');
    for char in text.chars() {
        match char {
            '"' | '\\' => written.extend(['\\', char]),
            '\n' => written += "\\n",
            // Writing to a string does not fail.
            char if char.is_control() => drop(write!(written, "\\u{:04x}", char as u32)),
            char => written.push(char),
        }
    }
    written + "\""
}

impl Value {
    fn written(&self) -> String {
        match self {
            Value::Null => "null".to_string(),
            Value::Flag(flag) => flag.to_string(),
            Value::Number(number) => number.to_string(),
            Value::Text(words) => text(words),
            Value::List(values) => format!("[{}]", values.iter().map(Value::written).collect::<Vec<_>>().join(",")),
        }
    }
}

#[cfg(test)]
mod tests {
    use super::*;

    #[test]
    fn any_text_is_a_string() {
        let written =
            object(vec![("a\"b", "\\ \u{0} \u{7f} \u{e4}\n".into()), ("n", Value::Null), ("c", 7_usize.into())]);
        assert_eq!(written, "{\"a\\\"b\":\"\\\\ \\u0000 \\u007f \u{e4}\\n\",\"n\":null,\"c\":7}\n");
        let written = object(vec![("l", lines(b"x\n\xff\ny")), ("f", Value::Flag(true))]);
        assert_eq!(written, "{\"l\":[\"x\",\"\u{fffd}\",\"y\"],\"f\":true}\n");
    }
}
