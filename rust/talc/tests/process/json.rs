//! A strict reader of JSON: it panics on what is none, and on a raw control character.

use std::collections::BTreeMap;

#[derive(Clone, Debug, PartialEq)]
pub enum Json {
    Null,
    Flag(bool),
    Number(i64),
    Text(String),
    List(Vec<Json>),
    Object(BTreeMap<String, Json>),
}

impl Json {
    pub fn read(text: &str) -> Json {
        let mut reader = Reader(text);
        let value = reader.value();
        assert!(reader.0.trim().is_empty(), "more after it: {}", reader.0);
        value
    }

    pub fn at(&self, name: &str) -> &Json {
        let Json::Object(members) = self else { panic!("no object: {self:?}") };
        members.get(name).unwrap_or_else(|| panic!("no {name} in {self:?}"))
    }

    pub fn keys(&self) -> Vec<&str> {
        let Json::Object(members) = self else { panic!("no object: {self:?}") };
        members.keys().map(String::as_str).collect()
    }

    pub fn list(&self) -> &[Json] {
        let Json::List(items) = self else { panic!("no list: {self:?}") };
        items
    }

    pub fn text(text: &str) -> Json {
        Json::Text(text.into())
    }
}

struct Reader<'a>(&'a str);

impl Reader<'_> {
    fn take(&mut self, start: &str) -> bool {
        self.0 = self.0.trim_start_matches([' ', '\n']);
        let rest = self.0.strip_prefix(start);
        self.0 = rest.unwrap_or(self.0);
        rest.is_some()
    }

    fn need(&mut self, start: &str) {
        assert!(self.take(start), "{start} is missing before {}", self.0);
    }

    fn value(&mut self) -> Json {
        for (word, value) in
            [("null", Json::Null), ("true", Json::Flag(true)), ("false", Json::Flag(false))]
        {
            if self.take(word) {
                return value;
            }
        }
        if self.take("\"") {
            return Json::Text(self.string());
        }
        if self.take("[") {
            let mut items = Vec::new();
            self.until("]", |reader| items.push(reader.value()));
            return Json::List(items);
        }
        if self.take("{") {
            return Json::Object(self.members());
        }
        let end = self.0.find(|c: char| c != '-' && !c.is_ascii_digit()).unwrap_or(self.0.len());
        let (number, rest) = self.0.split_at(end);
        self.0 = rest;
        Json::Number(number.parse().unwrap())
    }

    fn until(&mut self, end: &str, mut one: impl FnMut(&mut Self)) {
        if self.take(end) {
            return;
        }
        loop {
            one(self);
            if self.take(end) {
                return;
            }
            self.need(",");
        }
    }

    fn members(&mut self) -> BTreeMap<String, Json> {
        let mut members = BTreeMap::new();
        self.until("}", |reader| {
            reader.need("\"");
            let name = reader.string();
            reader.need(":");
            let value = reader.value();
            assert!(members.insert(name, value).is_none(), "a name comes twice");
        });
        members
    }

    fn next(&mut self) -> char {
        let c = self.0.chars().next().expect("more");
        self.0 = &self.0[c.len_utf8()..];
        c
    }

    fn string(&mut self) -> String {
        let mut text = String::new();
        loop {
            match self.next() {
                '"' => return text,
                '\\' => match self.next() {
                    c @ ('"' | '\\') => text.push(c),
                    'u' => {
                        let digits: String = (0..4).map(|_| self.next()).collect();
                        let number = u32::from_str_radix(&digits, 16).unwrap();
                        text.push(char::from_u32(number).expect("no half of a pair"));
                    }
                    c => panic!("\\{c} in a string"),
                },
                c => {
                    assert!(!c.is_control(), "a raw control character");
                    text.push(c);
                }
            }
        }
    }
}
