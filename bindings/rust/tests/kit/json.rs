//! JSON, as far as the kit's files need it: whole numbers, strings without escapes but \" and \\.

use std::collections::BTreeMap;

#[derive(Clone, Debug, PartialEq)]
pub enum Json {
    Null,
    Bool(bool),
    Number(u64),
    Text(String),
    List(Vec<Json>),
    Object(BTreeMap<String, Json>),
}

impl Json {
    /// Member of an object, or Null.
    pub fn get(&self, key: &str) -> &Json {
        match self {
            Json::Object(members) => members.get(key).unwrap_or(&Json::Null),
            other => panic!("{key} is asked of {other:?}"),
        }
    }

    pub fn number(&self) -> Option<usize> {
        match self {
            Json::Number(n) => Some(*n as usize),
            _ => None,
        }
    }

    pub fn text(&self) -> Option<&str> {
        match self {
            Json::Text(text) => Some(text),
            _ => None,
        }
    }

    pub fn list(&self) -> &[Json] {
        match self {
            Json::List(items) => items,
            _ => &[],
        }
    }

    pub fn numbers(&self) -> Vec<usize> {
        self.list().iter().map(|item| item.number().expect("a number")).collect()
    }
}

pub fn read(text: &str) -> Json {
    let mut at = Reader { bytes: text.as_bytes(), at: 0 };
    let value = at.value();
    at.blanks();
    assert_eq!(at.at, at.bytes.len(), "something stands behind the value");
    value
}

struct Reader<'a> {
    bytes: &'a [u8],
    at: usize,
}

impl Reader<'_> {
    fn blanks(&mut self) {
        while self.bytes.get(self.at).map_or(false, u8::is_ascii_whitespace) {
            self.at += 1;
        }
    }

    fn next(&mut self) -> u8 {
        self.blanks();
        self.bytes[self.at]
    }

    fn word(&mut self, word: &str, value: Json) -> Json {
        assert!(self.bytes[self.at..].starts_with(word.as_bytes()), "no JSON at byte {}", self.at);
        self.at += word.len();
        value
    }

    fn value(&mut self) -> Json {
        match self.next() {
            b'{' => Json::Object(self.members()),
            b'[' => Json::List(self.items()),
            b'"' => Json::Text(self.string()),
            b't' => self.word("true", Json::Bool(true)),
            b'f' => self.word("false", Json::Bool(false)),
            b'n' => self.word("null", Json::Null),
            _ => self.digits(),
        }
    }

    fn digits(&mut self) -> Json {
        let start = self.at;
        while self.bytes.get(self.at).map_or(false, u8::is_ascii_digit) {
            self.at += 1;
        }
        let digits = std::str::from_utf8(&self.bytes[start..self.at]).unwrap();
        Json::Number(digits.parse().unwrap_or_else(|_| panic!("no JSON at byte {start}")))
    }

    fn string(&mut self) -> String {
        let mut bytes = Vec::new();
        self.at += 1;
        while self.bytes[self.at] != b'"' {
            self.at += usize::from(self.bytes[self.at] == b'\\');
            bytes.push(self.bytes[self.at]);
            self.at += 1;
        }
        self.at += 1;
        String::from_utf8(bytes).unwrap()
    }

    /// Whether the list or object goes on; a comma before the next is passed over.
    fn goes_on(&mut self, end: u8) -> bool {
        self.at += usize::from(self.next() == b',');
        if self.next() != end {
            return true;
        }
        self.at += 1;
        false
    }

    fn items(&mut self) -> Vec<Json> {
        let mut items = Vec::new();
        self.at += 1;
        while self.goes_on(b']') {
            items.push(self.value());
        }
        items
    }

    fn members(&mut self) -> BTreeMap<String, Json> {
        let mut members = BTreeMap::new();
        self.at += 1;
        while self.goes_on(b'}') {
            let key = self.string();
            assert_eq!(self.next(), b':');
            self.at += 1;
            members.insert(key, self.value());
        }
        members
    }
}
