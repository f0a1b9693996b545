//! A reader and a writer of JSON (RFC 8259).

use crate::error::Error;
use std::fmt;

/// Values may stand in one another up to one level less. The library has the same limit.
const DEPTH_LIMIT: usize = 128;

/// A value.
#[derive(Clone, Debug, PartialEq)]
pub(crate) enum Value {
    Null,
    Bool(bool),
    Number(f64),
    String(String),
    Array(Vec<Value>),
    Object(Members),
}

/// The members of an object, in the order of the text.
#[derive(Clone, Debug, PartialEq)]
pub(crate) struct Members(Vec<(String, Value)>);

impl Members {
    /// Adds a member.
    pub fn put(&mut self, name: &str, value: Value) {
        self.0.push((name.to_owned(), value));
    }

    /// Takes the value of a member. The last of a name counts. One that is `null` is absent.
    pub fn take(&mut self, name: &str) -> Option<Value> {
        let at = self.0.iter().rposition(|(own, _)| own == name)?;
        Some(self.0.swap_remove(at).1).filter(|value| *value != Value::Null)
    }

    /// Takes the value of a member that a reply has to have.
    pub fn need(&mut self, name: &'static str) -> Result<Value, Error> {
        self.take(name).ok_or(Error::Reply(name))
    }
}

/// An object with these members, but those that are `null`.
pub(crate) fn object<'n>(members: impl IntoIterator<Item = (&'n str, Value)>) -> Value {
    let there = members.into_iter().filter(|(_, value)| *value != Value::Null);
    Value::Object(Members(there.map(|(name, value)| (name.to_owned(), value)).collect()))
}

impl<T: Into<Value>> From<Option<T>> for Value {
    fn from(value: Option<T>) -> Value {
        value.map_or(Value::Null, Into::into)
    }
}

impl<T: Into<Value>> FromIterator<T> for Value {
    fn from_iter<I: IntoIterator<Item = T>>(items: I) -> Value {
        Value::Array(items.into_iter().map(Into::into).collect())
    }
}

macro_rules! value_from {
    ($($type:ty: $given:ident => $value:expr;)*) => {
        $(impl From<$type> for Value {
            fn from($given: $type) -> Value {
                $value
            }
        })*
    };
}

value_from! {
    bool: flag => Value::Bool(flag);
    u8: number => Value::Number(number.into());
    i32: number => Value::Number(number.into());
    u32: number => Value::Number(number.into());
    &str: text => Value::String(text.to_owned());
    String: text => Value::String(text);
    &String: text => Value::String(text.clone());
}

/// What a value of a reply is, if it is what it has to be.
macro_rules! value_into {
    ($($name:ident: $variant:ident($type:ty), $words:literal;)*) => {
        $(pub fn $name(self) -> Result<$type, Error> {
            match self {
                Value::$variant(inner) => Ok(inner),
                _ => Err(Error::Reply($words)),
            }
        })*
    };
}

impl Value {
    value_into! {
        into_flag: Bool(bool), "a boolean";
        into_text: String(String), "a text";
        into_items: Array(Vec<Value>), "a list";
        into_members: Object(Members), "an object";
    }

    /// A number from 0 to 4294967295 in whole digits.
    pub fn into_number(self) -> Result<u32, Error> {
        match self {
            Value::Number(number) if f64::from(number as u32) == number => Ok(number as u32),
            _ => Err(Error::Reply("a number")),
        }
    }

    /// Reads a text that is one value.
    pub fn read(text: &str) -> Result<Value, Error> {
        let mut reader = Reader { text, at: 0 };
        let value = reader.value(DEPTH_LIMIT)?;
        match reader.after_space() {
            None => Ok(value),
            Some(_) => reader.fail("there is more after the value"),
        }
    }
}

/// A text, and the byte where reading goes on.
struct Reader<'t> {
    text: &'t str,
    at: usize,
}

impl Reader<'_> {
    fn fail<T>(&self, reason: &'static str) -> Result<T, Error> {
        Err(Error::Json { at: self.at, reason })
    }

    fn next(&self) -> Option<u8> {
        self.text.as_bytes().get(self.at).copied()
    }

    /// The next byte after white space.
    fn after_space(&mut self) -> Option<u8> {
        while let Some(b' ' | b'\t' | b'\n' | b'\r') = self.next() {
            self.at += 1;
        }
        self.next()
    }

    /// Steps over a text if it comes next.
    fn has(&mut self, text: &str) -> bool {
        let found = self.text.as_bytes()[self.at..].starts_with(text.as_bytes());
        self.at += if found { text.len() } else { 0 };
        found
    }

    /// Reads a value, in which others stand on fewer levels than these.
    fn value(&mut self, levels: usize) -> Result<Value, Error> {
        match self.after_space() {
            Some(b'{' | b'[') if levels == 1 => self.fail("more than 127 levels"),
            Some(b'{') => self.object(levels - 1),
            Some(b'[') => self.array(levels - 1),
            Some(b'"') => self.string().map(Value::String),
            Some(b'-' | b'0'..=b'9') => self.number(),
            _ if self.has("null") => Ok(Value::Null),
            _ if self.has("true") => Ok(Value::Bool(true)),
            _ if self.has("false") => Ok(Value::Bool(false)),
            _ => self.fail("a value has to be here"),
        }
    }

    /// Whether another item comes before a closing bracket. The first one has no comma before it.
    fn has_item(&mut self, is_first: bool, end: u8) -> Result<bool, Error> {
        self.at += usize::from(is_first);
        match self.after_space() {
            Some(byte) if byte == end => {
                self.at += 1;
                Ok(false)
            }
            Some(_) if is_first => Ok(true),
            Some(b',') => {
                self.at += 1;
                Ok(true)
            }
            _ => self.fail("a comma or a closing bracket has to be here"),
        }
    }

    fn array(&mut self, levels: usize) -> Result<Value, Error> {
        let mut items = Vec::new();
        while self.has_item(items.is_empty(), b']')? {
            items.push(self.value(levels)?);
        }
        Ok(Value::Array(items))
    }

    fn object(&mut self, levels: usize) -> Result<Value, Error> {
        let mut members = Vec::new();
        while self.has_item(members.is_empty(), b'}')? {
            if self.after_space() != Some(b'"') {
                return self.fail("the name of a member has to be here");
            }
            let name = self.string()?;
            if self.after_space() != Some(b':') {
                return self.fail("a colon has to be here");
            }
            self.at += 1;
            members.push((name, self.value(levels)?));
        }
        Ok(Value::Object(Members(members)))
    }

    fn string(&mut self) -> Result<String, Error> {
        self.at += 1;
        let mut text = String::new();
        loop {
            let rest = &self.text[self.at..];
            let is_marked = |byte| byte < b' ' || byte == b'"' || byte == b'\\';
            let plain = rest.bytes().position(is_marked).unwrap_or(rest.len());
            text.push_str(&rest[..plain]);
            self.at += plain;
            match self.next() {
                Some(b'"') => {
                    self.at += 1;
                    return Ok(text);
                }
                Some(b'\\') => text.push(self.escape()?),
                Some(_) => return self.fail("a control character has to be escaped"),
                None => return self.fail("the text has no end"),
            }
        }
    }

    fn escape(&mut self) -> Result<char, Error> {
        let start = self.at;
        self.at += 2;
        let found = match self.text.as_bytes().get(start + 1) {
            Some(byte @ (b'"' | b'\\' | b'/')) => Some(char::from(*byte)),
            Some(b'b') => Some('\u{8}'),
            Some(b'f') => Some('\u{c}'),
            Some(b'n') => Some('\n'),
            Some(b'r') => Some('\r'),
            Some(b't') => Some('\t'),
            Some(b'u') => self.unicode(),
            _ => None,
        };
        found.ok_or(Error::Json { at: start, reason: "this escape is no character" })
    }

    /// The character of the digits after `\u`, or of two surrogates.
    fn unicode(&mut self) -> Option<char> {
        let first = self.four_digits()?;
        if !(0xd800..0xdc00).contains(&first) {
            return char::from_u32(first);
        }
        let second = if self.has("\\u") { self.four_digits()? } else { 0 };
        let low = second.checked_sub(0xdc00).filter(|low| *low < 0x400)?;
        char::from_u32(0x10000 + ((first - 0xd800) << 10) + low)
    }

    fn four_digits(&mut self) -> Option<u32> {
        let digits = self.text.get(self.at..self.at + 4)?;
        self.at += 4;
        let is_hex = digits.bytes().all(|byte| byte.is_ascii_hexdigit());
        u32::from_str_radix(digits, 16).ok().filter(|_| is_hex)
    }

    /// Steps over digits, of which there has to be one.
    fn digits(&mut self) -> Result<(), Error> {
        let start = self.at;
        while self.next().is_some_and(|byte| byte.is_ascii_digit()) {
            self.at += 1;
        }
        if self.at == start {
            self.fail("a digit has to be here")
        } else {
            Ok(())
        }
    }

    fn number(&mut self) -> Result<Value, Error> {
        let start = self.at;
        self.has("-");
        if !self.has("0") {
            self.digits()?;
        }
        if self.has(".") {
            self.digits()?;
        }
        if self.has("e") || self.has("E") {
            let _sign = self.has("+") || self.has("-");
            self.digits()?;
        }
        let number =
            self.text[start..self.at].parse().ok().filter(|number| f64::is_finite(*number));
        number
            .map(Value::Number)
            .ok_or(Error::Json { at: start, reason: "the number is too large" })
    }
}

/// Writes a text in quotes.
fn write_text(f: &mut fmt::Formatter<'_>, text: &str) -> fmt::Result {
    f.write_str("\"")?;
    let mut rest = text;
    while let Some(at) = rest.find(|c| c < ' ' || c == '"' || c == '\\') {
        f.write_str(&rest[..at])?;
        match rest.as_bytes()[at] {
            byte @ (b'"' | b'\\') => write!(f, "\\{}", char::from(byte))?,
            byte => write!(f, "\\u{byte:04x}")?,
        }
        rest = &rest[at + 1..];
    }
    write!(f, "{rest}\"")
}

/// Writes the value on one line, without spaces.
impl fmt::Display for Value {
    fn fmt(&self, f: &mut fmt::Formatter<'_>) -> fmt::Result {
        match self {
            Value::Null => f.write_str("null"),
            Value::Bool(flag) => write!(f, "{flag}"),
            Value::Number(number) => write!(f, "{number}"),
            Value::String(text) => write_text(f, text),
            Value::Array(items) => {
                for (place, item) in items.iter().enumerate() {
                    write!(f, "{}{item}", if place == 0 { "[" } else { "," })?;
                }
                f.write_str(if items.is_empty() { "[]" } else { "]" })
            }
            Value::Object(Members(members)) => {
                for (place, (name, value)) in members.iter().enumerate() {
                    f.write_str(if place == 0 { "{" } else { "," })?;
                    write_text(f, name)?;
                    write!(f, ":{value}")?;
                }
                f.write_str(if members.is_empty() { "{}" } else { "}" })
            }
        }
    }
}

#[cfg(test)]
mod tests {
    use super::*;

    /// Values as they are written again.
    #[test]
    fn values() {
        for (text, wanted) in [
            (" null ", "null"),
            ("[ true,false , [ ] , { } ]", "[true,false,[],{}]"),
            ("{\"b\" : 1, \"a\":[{}],\n\"b\":2}", "{\"b\":1,\"a\":[{}],\"b\":2}"),
            ("[0,-0.5,10.25,4294967295,1e3,2E-1,1e+2]", "[0,-0.5,10.25,4294967295,1000,0.2,100]"),
            (r#""\"\\\/\b\f\n\r\tä""#, r#""\"\\/\u0008\u000c\u000a\u000d\u0009ä""#),
            (r#""\u00e4\u20AC\ud83d\ude00\u0000""#, r#""ä€😀\u0000""#),
        ] {
            assert_eq!(Value::read(text).map(|value| value.to_string()).as_deref(), Ok(wanted));
        }
    }

    /// Texts that are no JSON, with the byte of the fault.
    #[test]
    fn faults() {
        for (text, wanted) in [
            ("", 0),
            ("nul", 0),
            ("[1,]", 3),
            ("[1 2]", 3),
            ("[1", 2),
            ("{1:2}", 1),
            ("{\"a\" 1}", 5),
            ("{\"a\":1,}", 7),
            ("1 2", 2),
            ("01", 1),
            ("-", 1),
            ("1.", 2),
            ("1e", 2),
            ("[1e999]", 1),
            ("+1", 0),
            ("\"a", 2),
            ("\"a\nb\"", 2),
            (r#""ä\x""#, 3),
            (r#""\u12g4""#, 1),
            (r#""\u+123""#, 1),
            (r#""\ud83d""#, 1),
            (r#""\ud83d\u0041""#, 1),
            (r#""\ude00""#, 1),
            (r#""\u00"#, 1),
        ] {
            match Value::read(text) {
                Err(Error::Json { at, .. }) => assert_eq!(at, wanted, "{text}"),
                found => panic!("{text}: {found:?}"),
            }
        }
    }

    /// 127 levels are read, and 128 are not.
    #[test]
    fn depth() {
        let nested = |levels| "[".repeat(levels) + &"]".repeat(levels);
        assert_eq!(Value::read(&nested(127)).map(|value| value.to_string()), Ok(nested(127)));
        let reason = "more than 127 levels";
        assert_eq!(Value::read(&nested(128)), Err(Error::Json { at: 127, reason }));
        let deep = "{\"a\":".repeat(100_000);
        assert_eq!(Value::read(&deep), Err(Error::Json { at: 127 * 5, reason }));
    }

    /// What a reply has to have.
    #[test]
    fn members() {
        let mut members =
            Value::read(r#"{"a":1,"b":"x","a":7,"c":null}"#).and_then(Value::into_members).unwrap();
        assert_eq!(members.need("a").and_then(Value::into_number), Ok(7));
        assert_eq!(members.need("b").and_then(Value::into_flag), Err(Error::Reply("a boolean")));
        assert_eq!(members.need("c"), Err(Error::Reply("c")));
        for text in ["-1", "0.5", "4294967296"] {
            assert!(Value::read(text).and_then(Value::into_number).is_err(), "{text}");
        }
    }
}
