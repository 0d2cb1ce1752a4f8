//! Answers as JSON, an object a line.

use std::fmt::Write;

/// An object that is being written. Nothing goes wrong in writing to a string.
pub struct Object {
    text: String,
}

impl Default for Object {
    fn default() -> Object {
        Object { text: "{".into() }
    }
}

impl Object {
    pub fn new() -> Object {
        Object::default()
    }

    /// A value that is JSON already.
    pub fn value(mut self, key: &str, json: &str) -> Object {
        if self.text.len() > 1 {
            self.text.push(',');
        }
        let _ = write!(self.text, "{}:{json}", string(key));
        self
    }

    pub fn text(self, key: &str, text: &str) -> Object {
        self.value(key, &string(text))
    }

    pub fn number(self, key: &str, number: impl Into<u64>) -> Object {
        self.value(key, &number.into().to_string())
    }

    pub fn truth(self, key: &str, is_true: bool) -> Object {
        self.value(key, &is_true.to_string())
    }

    pub fn numbers(self, key: &str, numbers: &[u16]) -> Object {
        self.value(key, &list(numbers.iter().map(u16::to_string)))
    }

    /// A text, or nothing of it.
    pub fn maybe_text(self, key: &str, text: Option<&str>) -> Object {
        match text {
            Some(text) => self.text(key, text),
            None => self,
        }
    }

    /// The whole object.
    pub fn end(mut self) -> String {
        self.text.push('}');
        self.text
    }
}

/// A list of values that are JSON already.
pub fn list(values: impl Iterator<Item = String>) -> String {
    let values: Vec<String> = values.collect();
    format!("[{}]", values.join(","))
}

/// A text in quotes. < is escaped too, so that it can stand in a page's script.
pub fn string(text: &str) -> String {
    let mut json = String::with_capacity(text.len() + 2);
    json.push('"');
    for letter in text.chars() {
        match letter {
            '"' => json.push_str("\\\""),
            '\\' => json.push_str("\\\\"),
            '<' | '\u{0}'..='\u{1f}' | '\u{7f}' | '\u{2028}' | '\u{2029}' => {
                let _ = write!(json, "\\u{:04x}", letter as u32);
            }
            letter => json.push(letter),
        }
    }
    json.push('"');
    json
}
