//! One line of JSON. docs/JSON.md says which lines there are.
use std::fmt::Write;

/// An object on one line. Every object says first what it is.
pub struct Object(String);

impl Object {
    /// `{"answer":".."`, to be gone on with.
    pub fn new(answer: &str) -> Object {
        Object("{".to_string()).text("answer", answer)
    }

    pub fn text(mut self, key: &str, value: &str) -> Object {
        self.key(key);
        self.string(value);
        self
    }

    /// Bytes as text if they are UTF-8; else under the key with `_hex`, in hex digits. No two byte strings look alike.
    pub fn bytes(mut self, key: &str, value: &[u8]) -> Object {
        if let Ok(text) = std::str::from_utf8(value) {
            return self.text(key, text);
        }
        self.key(&format!("{key}_hex"));
        self.string(&value.iter().fold(String::new(), |hex, b| hex + &format!("{b:02x}")));
        self
    }

    pub fn number(mut self, key: &str, value: impl Into<u64>) -> Object {
        self.key(key);
        let _ = write!(self.0, "{}", value.into());
        self
    }

    pub fn count(self, key: &str, value: usize) -> Object {
        self.number(key, value as u64)
    }

    /// The object, or where there is no value the object without the key.
    pub fn optional<T>(self, value: Option<T>, put: impl FnOnce(Object, T) -> Object) -> Object {
        match value {
            Some(value) => put(self, value),
            None => self,
        }
    }

    pub fn end(self) -> String {
        self.0 + "}\n"
    }

    fn key(&mut self, key: &str) {
        if self.0.len() > 1 {
            self.0.push(',');
        }
        self.string(key);
        self.0.push(':');
    }

    /// Only what is printable ASCII stands as it is, so that no line steers a terminal.
    fn string(&mut self, text: &str) {
        self.0.push('"');
        for c in text.chars() {
            match c {
                '"' | '\\' => self.0.extend(['\\', c]),
                ' '..='~' => self.0.push(c),
                c => c.encode_utf16(&mut [0; 2]).iter().for_each(|unit| {
                    let _ = write!(self.0, "\\u{unit:04x}");
                }),
            }
        }
        self.0.push('"');
    }
}

#[cfg(test)]
mod tests {
    use super::Object;

    #[test]
    fn an_object_stands_on_one_line_of_ascii() {
        let object = Object::new("record").bytes("name", "a\"\\\n\u{e4}\u{1f600}\x1b".as_bytes()).bytes("id", b"\xff\x00").count("byte", 7);
        let object = object.optional(None::<u64>, |object, none| object.number("line", none));
        let expected = r#"{"answer":"record","name":"a\"\\\u000a\u00e4\ud83d\ude00\u001b","id_hex":"ff00","byte":7}"#;
        assert_eq!(object.end(), format!("{expected}\n"));
    }
}
