//! JSON, one object a line.

use crate::escape::is_hidden;

/// An object whose fields stand in the order in which they are given.
#[derive(Default)]
pub struct Object(String);

impl Object {
    /// A field whose value is JSON already.
    pub fn with(mut self, name: &str, value: impl AsRef<str>) -> Object {
        if !self.0.is_empty() {
            self.0.push(',');
        }
        self.0 += &string(name.as_bytes());
        self.0.push(':');
        self.0 += value.as_ref();
        self
    }

    pub fn end(self) -> String {
        format!("{{{}}}", self.0)
    }

    /// The object on a line of its own.
    pub fn line(self) -> String {
        self.end() + "\n"
    }
}

/// Bytes that are UTF-8 as a string, others as `{"hex":"..."}`.
pub fn string(bytes: &[u8]) -> String {
    let Ok(text) = std::str::from_utf8(bytes) else {
        let hex: String = bytes.iter().map(|byte| format!("{byte:02x}")).collect();
        return format!("{{\"hex\":\"{hex}\"}}");
    };
    let mut written = String::from("\"");
    for c in text.chars() {
        match c {
            '"' | '\\' => written.extend(['\\', c]),
            c if is_hidden(c) => written += &escaped(c),
            c => written.push(c),
        }
    }
    written + "\""
}

fn escaped(c: char) -> String {
    let mut units = [0; 2];
    let units = c.encode_utf16(&mut units);
    units.iter().map(|unit| format!("\\u{unit:04x}")).collect()
}

/// A string, or `null`.
pub fn string_or_null(bytes: Option<&[u8]>) -> String {
    bytes.map_or("null".to_string(), string)
}

pub fn list(items: impl Iterator<Item = String>) -> String {
    format!("[{}]", items.collect::<Vec<_>>().join(","))
}

#[cfg(test)]
mod tests {
    use super::*;

    #[test]
    fn strings_are_exact_or_hex() {
        assert_eq!(string(b"a \"b\" \\c"), r#""a \"b\" \\c""#);
        assert_eq!(string(b"\n\x1b\x7f"), r#""\u000a\u001b\u007f""#);
        assert_eq!(string("é\u{9b}\u{202e}".as_bytes()), "\"é\\u009b\\u202e\"");
        assert_eq!(string("\u{e0041}".as_bytes()), r#""\udb40\udc41""#);
        assert_eq!(string(b"a\xff"), r#"{"hex":"61ff"}"#);
        assert_eq!(string(b""), r#""""#);
    }

    #[test]
    fn objects_keep_their_order() {
        let object = Object::default().with("b", "1").with("a", "[]");
        assert_eq!(object.line(), "{\"b\":1,\"a\":[]}\n");
        assert_eq!(Object::default().end(), "{}");
        assert_eq!(list(["1", "2"].into_iter().map(String::from)), "[1,2]");
    }
}
