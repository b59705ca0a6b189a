//! JSON: an object to the line.
use std::fmt::{Display, Write};

/// One object, as it is made.
pub struct Object(String);

impl Object {
    pub fn new() -> Object {
        Object(String::new())
    }

    fn name(&mut self, name: &str) {
        self.0.push(if self.0.is_empty() { '{' } else { ',' });
        quote(&mut self.0, name);
        self.0.push(':');
    }

    pub fn text(mut self, name: &str, value: &str) -> Object {
        self.name(name);
        quote(&mut self.0, value);
        self
    }

    /// A number or a truth value.
    pub fn plain(mut self, name: &str, value: impl Display) -> Object {
        self.name(name);
        let _ = write!(self.0, "{value}");
        self
    }

    pub fn maybe(self, name: &str, value: Option<impl Display>) -> Object {
        match value {
            Some(value) => self.plain(name, value),
            None => self.plain(name, "null"),
        }
    }

    pub fn maybe_text(self, name: &str, value: Option<&str>) -> Object {
        match value {
            Some(value) => self.text(name, value),
            None => self.plain(name, "null"),
        }
    }

    /// The object's line.
    pub fn line(self) -> String {
        match self.0.is_empty() {
            true => "{}".into(),
            false => self.0 + "}",
        }
    }
}

fn quote(out: &mut String, text: &str) {
    out.push('"');
    for c in text.chars() {
        match c {
            '"' | '\\' => out.extend(['\\', c]),
            c if c.is_control() => {
                let _ = write!(out, "\\u{:04x}", u32::from(c));
            }
            c => out.push(c),
        }
    }
    out.push('"');
}

#[cfg(test)]
mod tests {
    use super::*;

    #[test]
    fn objects() {
        assert_eq!(Object::new().line(), "{}");
        let object = Object::new().text("a\"b", "\\x\u{7f}\n é").plain("n", 3).maybe("m", None::<u8>).plain("t", true);
        assert_eq!(object.line(), "{\"a\\\"b\":\"\\\\x\\u007f\\u000a é\",\"n\":3,\"m\":null,\"t\":true}");
    }
}
