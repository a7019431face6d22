//! A minimal reader of JSON, enough for the file of source examples.

/// A JSON value; an object keeps its members in the order of the file.
#[derive(Clone, Debug, PartialEq)]
pub enum Value {
    Null,
    Bool(bool),
    Number(f64),
    String(String),
    Array(Vec<Value>),
    Object(Vec<(String, Value)>),
}

impl Value {
    /// The member of an object with this name.
    pub fn get(&self, name: &str) -> Option<&Value> {
        match self {
            Value::Object(members) => members
                .iter()
                .find(|(member, _)| member == name)
                .map(|(_, value)| value),
            _ => None,
        }
    }

    /// The string, if it is one.
    pub fn as_str(&self) -> Option<&str> {
        match self {
            Value::String(string) => Some(string),
            _ => None,
        }
    }

    /// The number, if it is one.
    pub fn as_number(&self) -> Option<f64> {
        match self {
            Value::Number(number) => Some(*number),
            _ => None,
        }
    }

    /// The items, if it is an array.
    pub fn as_array(&self) -> Option<&[Value]> {
        match self {
            Value::Array(items) => Some(items),
            _ => None,
        }
    }
}

/// Why a text is no JSON, and the byte where that shows.
#[derive(Clone, Debug, PartialEq, Eq)]
pub struct Error {
    pub place: usize,
    pub reason: &'static str,
}

impl std::fmt::Display for Error {
    fn fmt(&self, formatter: &mut std::fmt::Formatter<'_>) -> std::fmt::Result {
        write!(formatter, "byte {}: {}", self.place, self.reason)
    }
}

impl std::error::Error for Error {}

/// Reads a text that is one JSON value.
pub fn parse(text: &str) -> Result<Value, Error> {
    let mut parser = Parser { text, at: 0 };
    let value = parser.value()?;
    parser.blanks();
    match parser.next() {
        None => Ok(value),
        Some(_) => parser.fail("more than one value"),
    }
}

struct Parser<'t> {
    text: &'t str,
    at: usize,
}

impl Parser<'_> {
    fn fail<T>(&self, reason: &'static str) -> Result<T, Error> {
        Err(Error {
            place: self.at,
            reason,
        })
    }

    fn rest(&self) -> &str {
        &self.text[self.at..]
    }

    fn next(&self) -> Option<char> {
        self.rest().chars().next()
    }

    fn take(&mut self) -> Option<char> {
        let character = self.next()?;
        self.at += character.len_utf8();
        Some(character)
    }

    /// Takes this text if it comes next.
    fn take_text(&mut self, wanted: &str) -> bool {
        let found = self.rest().starts_with(wanted);
        if found {
            self.at += wanted.len();
        }
        found
    }

    fn blanks(&mut self) {
        while matches!(self.next(), Some(' ' | '\t' | '\n' | '\r')) {
            self.at += 1;
        }
    }

    fn value(&mut self) -> Result<Value, Error> {
        self.blanks();
        match self.next() {
            Some('"') => Ok(Value::String(self.string()?)),
            Some('[') => self.array(),
            Some('{') => self.object(),
            Some('-' | '0'..='9') => self.number(),
            _ if self.take_text("null") => Ok(Value::Null),
            _ if self.take_text("true") => Ok(Value::Bool(true)),
            _ if self.take_text("false") => Ok(Value::Bool(false)),
            _ => self.fail("no value"),
        }
    }

    /// What stands between two brackets, with commas between the items.
    fn list<T>(
        &mut self,
        opening: &str,
        closing: &str,
        item: impl Fn(&mut Self) -> Result<T, Error>,
    ) -> Result<Vec<T>, Error> {
        let mut items = Vec::new();
        self.take_text(opening);
        self.blanks();
        if self.take_text(closing) {
            return Ok(items);
        }
        loop {
            items.push(item(self)?);
            self.blanks();
            if self.take_text(closing) {
                return Ok(items);
            }
            if !self.take_text(",") {
                return self.fail("neither a comma nor the end of the list");
            }
        }
    }

    fn array(&mut self) -> Result<Value, Error> {
        self.list("[", "]", Self::value).map(Value::Array)
    }

    fn object(&mut self) -> Result<Value, Error> {
        self.list("{", "}", Self::member).map(Value::Object)
    }

    fn member(&mut self) -> Result<(String, Value), Error> {
        self.blanks();
        let name = self.string()?;
        self.blanks();
        if !self.take_text(":") {
            return self.fail("no colon after a member's name");
        }
        Ok((name, self.value()?))
    }

    fn number(&mut self) -> Result<Value, Error> {
        let is_part =
            |character: char| matches!(character, '0'..='9' | '+' | '-' | '.' | 'e' | 'E');
        let length = self
            .rest()
            .find(|character| !is_part(character))
            .unwrap_or(self.rest().len());
        match self.rest()[..length].parse() {
            Ok(number) => {
                self.at += length;
                Ok(Value::Number(number))
            }
            Err(_) => self.fail("no number"),
        }
    }

    fn string(&mut self) -> Result<String, Error> {
        if !self.take_text("\"") {
            return self.fail("no string");
        }
        let mut string = String::new();
        loop {
            match self.take() {
                None => return self.fail("a string without its end"),
                Some('"') => return Ok(string),
                Some('\\') => string.push(self.escaped()?),
                Some('\0'..='\u{1f}') => return self.fail("a control character in a string"),
                Some(character) => string.push(character),
            }
        }
    }

    /// What stands after a backslash.
    fn escaped(&mut self) -> Result<char, Error> {
        match self.take() {
            Some(same @ ('"' | '\\' | '/')) => Ok(same),
            Some('b') => Ok('\u{8}'),
            Some('f') => Ok('\u{c}'),
            Some('n') => Ok('\n'),
            Some('r') => Ok('\r'),
            Some('t') => Ok('\t'),
            Some('u') => self.code_point(),
            _ => self.fail("no such escape"),
        }
    }

    /// The character of `\u` and four digits, or of two such that are a surrogate pair.
    fn code_point(&mut self) -> Result<char, Error> {
        let first = self.four_digits()?;
        let code = match first {
            0xd800..=0xdbff => {
                if !self.take_text("\\u") {
                    return self.fail("half a surrogate pair");
                }
                match self.four_digits()? {
                    second @ 0xdc00..=0xdfff => {
                        0x1_0000 + ((first - 0xd800) << 10) + (second - 0xdc00)
                    }
                    _ => return self.fail("half a surrogate pair"),
                }
            }
            code => code,
        };
        match char::from_u32(code) {
            Some(character) => Ok(character),
            None => self.fail("half a surrogate pair"),
        }
    }

    fn four_digits(&mut self) -> Result<u32, Error> {
        let mut code = 0;
        for _ in 0..4 {
            match self.take().and_then(|digit| digit.to_digit(16)) {
                Some(digit) => code = code * 16 + digit,
                None => return self.fail("not four hexadecimal digits"),
            }
        }
        Ok(code)
    }
}

#[cfg(test)]
mod tests {
    use super::{parse, Value};

    #[test]
    fn values_of_every_form() {
        let text = r#" {"a": [1, -2.5e1, true, false, null, []], "b": {}, "c": "x"} "#;
        let value = parse(text).unwrap();
        let items = value.get("a").and_then(Value::as_array).unwrap();
        assert_eq!(items[0].as_number(), Some(1.0));
        assert_eq!(items[1].as_number(), Some(-25.0));
        assert_eq!(items[2..4], [Value::Bool(true), Value::Bool(false)]);
        assert_eq!(items[4..], [Value::Null, Value::Array(Vec::new())]);
        assert_eq!(value.get("b"), Some(&Value::Object(Vec::new())));
        assert_eq!(value.get("c").and_then(Value::as_str), Some("x"));
        assert_eq!(value.get("d"), None);
    }

    #[test]
    fn escapes_in_strings() {
        let value = parse(r#""\"\\\/\b\f\n\r\t\u00e9\ud83d\ude00é""#).unwrap();
        assert_eq!(value.as_str(), Some("\"\\/\u{8}\u{c}\n\r\té😀é"));
    }

    #[test]
    fn what_is_no_json() {
        let texts = [
            "",
            "[1",
            "[1 2]",
            "{\"a\" 1}",
            "\"a",
            "\"\\x\"",
            "\"\\ud800\"",
            "1 2",
            "-",
            "\"\n\"",
        ];
        for text in texts {
            assert!(parse(text).is_err(), "{text:?}");
        }
    }
}
