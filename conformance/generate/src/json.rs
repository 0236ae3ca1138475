//! JSON as it is written: an object's members on lines of their own, lists of numbers on one line.

use std::fmt::Write;

#[derive(Clone, PartialEq)]
pub enum Json {
    Null,
    Bool(bool),
    Number(u64),
    Text(String),
    List(Vec<Json>),
    Object(Vec<(String, Json)>),
}

impl From<u64> for Json {
    fn from(n: u64) -> Json {
        Json::Number(n)
    }
}

impl From<usize> for Json {
    fn from(n: usize) -> Json {
        Json::Number(n as u64)
    }
}

impl From<&str> for Json {
    fn from(text: &str) -> Json {
        Json::Text(text.to_string())
    }
}

impl From<String> for Json {
    fn from(text: String) -> Json {
        Json::Text(text)
    }
}

impl<T: Into<Json>> From<Vec<T>> for Json {
    fn from(list: Vec<T>) -> Json {
        Json::List(list.into_iter().map(Into::into).collect())
    }
}

fn quoted(text: &str) -> String {
    assert!(text.chars().all(|c| c >= ' '), "a control character in a text");
    format!("\"{}\"", text.replace('\\', "\\\\").replace('"', "\\\""))
}

impl Json {
    /// Lists of objects, and of many texts, take several lines.
    fn tall(&self) -> bool {
        let Json::List(items) = self else { return false };
        items.len() > 6 && matches!(items[0], Json::Text(_)) || items.iter().any(|i| matches!(i, Json::Object(_)))
    }

    /// A small test stands on one line.
    fn short(&self) -> bool {
        match self {
            Json::Object(members) => members.iter().all(|(key, value)| key != "text" && value.short()),
            Json::List(items) => items.len() < 8 && items.iter().all(Json::short),
            Json::Text(text) => text.len() < 100,
            _ => true,
        }
    }

    fn write(&self, out: &mut String, depth: usize) {
        match self {
            Json::Null => out.push_str("null"),
            Json::Bool(yes) => write!(out, "{yes}").unwrap(),
            Json::Number(n) => write!(out, "{n}").unwrap(),
            Json::Text(text) => out.push_str(&quoted(text)),
            Json::List(items) => {
                between(out, ['[', ']'], self.tall() && depth < 4, depth, items, |out, i| i.write(out, depth + 1))
            }
            Json::Object(members) => {
                between(out, ['{', '}'], depth < 2 || !self.short(), depth, members, |out, (key, value)| {
                    write!(out, "{}: ", quoted(key)).unwrap();
                    value.write(out, depth + 1);
                })
            }
        }
    }

    pub fn print(&self) -> String {
        let mut out = String::new();
        self.write(&mut out, 0);
        out.push('\n');
        out
    }
}

fn between<T>(
    out: &mut String,
    [open, close]: [char; 2],
    tall: bool,
    depth: usize,
    items: &[T],
    mut one: impl FnMut(&mut String, &T),
) {
    let line = |out: &mut String, depth: usize| {
        if tall {
            out.push('\n');
            out.push_str(&" ".repeat(depth));
        }
    };
    out.push(open);
    for (i, item) in items.iter().enumerate() {
        if i > 0 {
            out.push_str(if tall { "," } else { ", " });
        }
        line(out, depth + 1);
        one(out, item);
    }
    if !items.is_empty() {
        line(out, depth);
    }
    out.push(close);
}
