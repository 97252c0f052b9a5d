//! A small JSON reader for the tests' own lists. It panics on what is no JSON.

use std::collections::BTreeMap;

#[derive(Clone, Debug, PartialEq)]
pub enum Json {
    Text(String),
    Number(u64),
    List(Vec<Json>),
    Object(BTreeMap<String, Json>),
}

impl Json {
    pub fn read(text: &str) -> Json {
        let mut reader = Reader { rest: text };
        let value = reader.value();
        assert!(reader.skip().is_empty(), "something after the value");
        value
    }

    pub fn text(&self) -> &str {
        let Json::Text(text) = self else { panic!("no text: {self:?}") };
        text
    }

    pub fn number(&self) -> u64 {
        let Json::Number(number) = self else { panic!("no number: {self:?}") };
        *number
    }

    pub fn list(&self) -> &[Json] {
        let Json::List(list) = self else { panic!("no list: {self:?}") };
        list
    }

    pub fn object(&self) -> &BTreeMap<String, Json> {
        let Json::Object(object) = self else { panic!("no object: {self:?}") };
        object
    }
}

struct Reader<'a> {
    rest: &'a str,
}

impl<'a> Reader<'a> {
    fn skip(&mut self) -> &'a str {
        self.rest = self.rest.trim_start();
        self.rest
    }

    fn take(&mut self) -> char {
        let c = self.rest.chars().next().expect("more text");
        self.rest = &self.rest[c.len_utf8()..];
        c
    }

    fn comes(&mut self, c: char) -> bool {
        let yes = self.skip().starts_with(c);
        if yes {
            self.take();
        }
        yes
    }

    fn expect(&mut self, c: char) {
        assert!(self.comes(c), "{c} expected at: {:.20}", self.rest);
    }

    fn value(&mut self) -> Json {
        match self.skip().chars().next().expect("a value") {
            '{' => self.object(),
            '[' => self.list(),
            '"' => Json::Text(self.string()),
            _ => self.number(),
        }
    }

    fn number(&mut self) -> Json {
        let end = self.rest.find(|c: char| !c.is_ascii_digit()).unwrap_or(self.rest.len());
        let (digits, rest) = self.rest.split_at(end);
        self.rest = rest;
        Json::Number(digits.parse().expect("a number"))
    }

    fn list(&mut self) -> Json {
        let mut items = Vec::new();
        self.expect('[');
        while !self.comes(']') {
            if !items.is_empty() {
                self.expect(',');
            }
            items.push(self.value());
        }
        Json::List(items)
    }

    fn object(&mut self) -> Json {
        let mut items = BTreeMap::new();
        self.expect('{');
        while !self.comes('}') {
            if !items.is_empty() {
                self.expect(',');
            }
            self.skip();
            let name = self.string();
            self.expect(':');
            items.insert(name, self.value());
        }
        Json::Object(items)
    }

    fn string(&mut self) -> String {
        let mut text = String::new();
        self.expect('"');
        loop {
            match self.take() {
                '"' => return text,
                '\\' => text.push(self.escape()),
                c => text.push(c),
            }
        }
    }

    fn escape(&mut self) -> char {
        match self.take() {
            'n' => '\n',
            'r' => '\r',
            't' => '\t',
            'b' => '\u{8}',
            'f' => '\u{c}',
            'u' => self.unicode(),
            c => c,
        }
    }

    fn unit(&mut self) -> u32 {
        (0..4).fold(0, |n, _| n * 16 + self.take().to_digit(16).expect("a hex digit"))
    }

    fn unicode(&mut self) -> char {
        let mut code = self.unit();
        if (0xD800..0xDC00).contains(&code) {
            assert_eq!((self.take(), self.take()), ('\\', 'u'), "a second half");
            code = 0x10000 + ((code - 0xD800) << 10) + (self.unit() - 0xDC00);
        }
        char::from_u32(code).expect("a character")
    }
}

#[test]
fn reads_what_json_is() {
    let read = Json::read(r#" {"a": [1, 20], "b\n\u00e4\ud83d\ude00": "x\"y", "c": {}} "#);
    assert_eq!(read.object()["a"].list()[1].number(), 20);
    assert_eq!(read.object()["b\nä😀"].text(), "x\"y");
    assert!(read.object()["c"].object().is_empty());
}
