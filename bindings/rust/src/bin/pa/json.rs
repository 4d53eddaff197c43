//! JSON, as far as a listing needs it. Bytes that are not UTF-8 are not lost: they go as hex digits, under a key that says so.

use crate::text::hex;

/// An object in the making.
pub struct Object {
    text: String,
}

impl Object {
    pub fn new() -> Object {
        Object { text: String::from("{") }
    }

    /// Bytes under a key: a string, or under the key with `_hex` their hex digits.
    pub fn bytes(self, key: &str, bytes: &[u8]) -> Object {
        match std::str::from_utf8(bytes) {
            Ok(text) => self.field(key, &quoted(text)),
            Err(_) => self.field(&format!("{key}_hex"), &quoted(&hex(bytes))),
        }
    }

    pub fn number(self, key: &str, number: u64) -> Object {
        self.field(key, &number.to_string())
    }

    pub fn truth(self, key: &str, truth: bool) -> Object {
        self.field(key, if truth { "true" } else { "false" })
    }

    pub fn array(self, key: &str, objects: Vec<Object>) -> Object {
        let items: Vec<String> = objects.into_iter().map(Object::end).collect();
        self.field(key, &format!("[{}]", items.join(",")))
    }

    /// Its text.
    pub fn end(mut self) -> String {
        self.text.push('}');
        self.text
    }

    fn field(mut self, key: &str, value: &str) -> Object {
        if self.text.len() > 1 {
            self.text.push(',');
        }
        self.text.push_str(&quoted(key));
        self.text.push(':');
        self.text.push_str(value);
        self
    }
}

fn quoted(text: &str) -> String {
    let mut string = String::from("\"");
    for sign in text.chars() {
        match sign {
            '"' | '\\' => string.extend(['\\', sign]),
            _ if sign.is_ascii_control() => string.extend(["\\u00", &hex(sign.to_string().as_bytes())]),
            _ => string.push(sign),
        }
    }
    string.push('"');
    string
}
