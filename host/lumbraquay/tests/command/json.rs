//! A strict reader of JSON, to see that what the command prints is well-formed.

use std::collections::BTreeMap;
use std::iter::Peekable;
use std::str::Chars;

#[derive(Clone, Debug, PartialEq)]
pub enum Value {
    Null,
    Flag(bool),
    Number(u64),
    Text(String),
    List(Vec<Value>),
    Object(BTreeMap<String, Value>),
}

impl Value {
    pub fn read(text: &str) -> Result<Value, String> {
        let mut reader = Reader {
            rest: text.chars().peekable(),
        };
        let value = reader.value()?;
        reader.space();
        match reader.rest.next() {
            None => Ok(value),
            Some(letter) => Err(format!("'{letter}' after the value")),
        }
    }

    /// A field of an object.
    #[track_caller]
    pub fn at(&self, name: &str) -> &Value {
        match self {
            Value::Object(fields) => fields
                .get(name)
                .unwrap_or_else(|| panic!("no {name} in {self:?}")),
            _ => panic!("no object: {self:?}"),
        }
    }

    #[track_caller]
    pub fn number(&self, name: &str) -> u64 {
        match self.at(name) {
            Value::Number(number) => *number,
            other => panic!("{name} is {other:?}"),
        }
    }

    #[track_caller]
    pub fn text(&self, name: &str) -> &str {
        match self.at(name) {
            Value::Text(text) => text,
            other => panic!("{name} is {other:?}"),
        }
    }

    #[track_caller]
    pub fn flag(&self, name: &str) -> bool {
        match self.at(name) {
            Value::Flag(flag) => *flag,
            other => panic!("{name} is {other:?}"),
        }
    }

    #[track_caller]
    pub fn is_null(&self, name: &str) -> bool {
        *self.at(name) == Value::Null
    }

    #[track_caller]
    pub fn list(&self, name: &str) -> &[Value] {
        match self.at(name) {
            Value::List(items) => items,
            other => panic!("{name} is {other:?}"),
        }
    }
}

struct Reader<'a> {
    rest: Peekable<Chars<'a>>,
}

impl Reader<'_> {
    fn space(&mut self) {
        while self
            .rest
            .next_if(|letter| matches!(letter, ' ' | '\n' | '\t' | '\r'))
            .is_some()
        {}
    }

    fn expect(&mut self, word: &str) -> Result<(), String> {
        for wanted in word.chars() {
            match self.rest.next() {
                Some(letter) if letter == wanted => (),
                other => return Err(format!("{other:?} instead of '{wanted}'")),
            }
        }
        Ok(())
    }

    fn value(&mut self) -> Result<Value, String> {
        self.space();
        match self.rest.peek() {
            Some('n') => self.expect("null").map(|()| Value::Null),
            Some('t') => self.expect("true").map(|()| Value::Flag(true)),
            Some('f') => self.expect("false").map(|()| Value::Flag(false)),
            Some('"') => self.text().map(Value::Text),
            Some('[') => self.list(),
            Some('{') => self.object(),
            Some('0'..='9') => self.number(),
            other => Err(format!("{other:?} where a value begins")),
        }
    }

    fn number(&mut self) -> Result<Value, String> {
        let mut digits = String::new();
        while let Some(digit) = self.rest.next_if(char::is_ascii_digit) {
            digits.push(digit);
        }
        if digits.len() > 1 && digits.starts_with('0') {
            return Err(format!("number {digits}"));
        }
        digits
            .parse()
            .map(Value::Number)
            .map_err(|error| error.to_string())
    }

    fn text(&mut self) -> Result<String, String> {
        self.expect("\"")?;
        let mut text = String::new();
        loop {
            match self.rest.next() {
                None => return Err("a text without end".to_string()),
                Some('"') => return Ok(text),
                Some('\\') => text.push(self.escaped()?),
                Some(letter) if letter < ' ' => return Err(format!("{letter:?} in a text")),
                Some(letter) => text.push(letter),
            }
        }
    }

    fn escaped(&mut self) -> Result<char, String> {
        match self.rest.next() {
            Some(letter @ ('"' | '\\' | '/')) => Ok(letter),
            Some('u') => {
                let digits: String = self.rest.by_ref().take(4).collect();
                let code = u32::from_str_radix(&digits, 16).map_err(|error| error.to_string())?;
                char::from_u32(code).ok_or(format!("letter {code}"))
            }
            other => Err(format!("{other:?} after a backslash")),
        }
    }

    fn list(&mut self) -> Result<Value, String> {
        let mut items = Vec::new();
        self.expect("[")?;
        self.space();
        if self.rest.next_if_eq(&']').is_some() {
            return Ok(Value::List(items));
        }
        loop {
            items.push(self.value()?);
            self.space();
            match self.rest.next() {
                Some(',') => (),
                Some(']') => return Ok(Value::List(items)),
                other => return Err(format!("{other:?} in a list")),
            }
        }
    }

    fn object(&mut self) -> Result<Value, String> {
        let mut fields = BTreeMap::new();
        self.expect("{")?;
        self.space();
        if self.rest.next_if_eq(&'}').is_some() {
            return Ok(Value::Object(fields));
        }
        loop {
            self.space();
            let name = self.text()?;
            self.space();
            self.expect(":")?;
            let value = self.value()?;
            if fields.insert(name.clone(), value).is_some() {
                return Err(format!("{name} twice"));
            }
            self.space();
            match self.rest.next() {
                Some(',') => (),
                Some('}') => return Ok(Value::Object(fields)),
                other => return Err(format!("{other:?} in an object")),
            }
        }
    }
}

#[test]
fn the_reader_is_strict() {
    for wrong in [
        "",
        "{",
        "[1,]",
        "{\"a\":1,}",
        "{\"a\":1}x",
        "01",
        "\"\n\"",
        "nul",
        "[1 2]",
        "{\"a\":1,\"a\":2}",
    ] {
        assert!(Value::read(wrong).is_err(), "{wrong}");
    }
    let value = Value::read(" {\"a\": [1, \"x\\u0041\\\\\"], \"b\": {}, \"c\": null} ").unwrap();
    assert_eq!(value.list("a")[1], Value::Text("xA\\".to_string()));
}
