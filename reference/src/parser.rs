//! A step list read from its text, by docs/NOTATION.md.

use crate::generate::packed;
use crate::ledger::STEP;

/// What a text can lack, by its number from 1.
pub const EXPECTED: [&str; 12] = [
    "a take, 0 to 15",
    "an addressee, a take, 0 to 15",
    "a parcel, 0 to 65535",
    "a text, 0 to 4294967295",
    "a volume in braces",
    "the word to",
    "the word text",
    "16 hexadecimal digits",
    "a kind of step",
    "a comma or a closing brace",
    "the end of the line",
    "room for this step",
];

#[derive(Debug, PartialEq)]
pub struct Fault {
    pub line: usize,
    pub column: usize,
    pub expected: usize,
}

/// What stands behind the word of a kind.
#[derive(Clone, Copy)]
enum Part {
    Take,
    Addressee,
    Parcel,
    Text,
    Volume,
}

use Part::*;

const KINDS: [(&str, &[Part]); 13] = [
    ("root", &[Text]),
    ("letter", &[Addressee, Text]),
    ("receive", &[Parcel]),
    ("new", &[Take, Text]),
    ("send", &[Take, Addressee, Text]),
    ("read", &[Take]),
    ("write", &[Take, Text]),
    ("freeze", &[Take]),
    ("done", &[Take]),
    ("fall", &[Take]),
    ("fail", &[Take]),
    ("lose", &[Parcel]),
    ("sign", &[Volume]),
];

/// The words of a line, each with its column, and the column of the line's end.
struct Words<'a> {
    words: Vec<(usize, &'a [u8])>,
    next: usize,
    end: usize,
}

/// A column, and what was expected there.
type Wrong = (usize, usize);

impl<'a> Words<'a> {
    fn of(line: &'a [u8]) -> Words<'a> {
        let line = &line[..line.iter().position(|b| *b == b'#').unwrap_or(line.len())];
        let blank = |b: u8| matches!(b, b' ' | b'\t' | b'\r');
        let mark = |b: u8| matches!(b, b'{' | b'}' | b',');
        let mut words = Vec::new();
        let mut at = 0;
        while at < line.len() {
            let rest = &line[at..];
            let length = match rest[0] {
                b if blank(b) || mark(b) => 1,
                _ => rest.iter().position(|b| blank(*b) || mark(*b)).unwrap_or(rest.len()),
            };
            if !blank(rest[0]) {
                words.push((at + 1, &rest[..length]));
            }
            at += length;
        }
        Words { words, next: 0, end: line.len() + 1 }
    }

    /// What `reads` makes of the next word, which is then behind us; or that this was expected in its place.
    fn word<T>(&mut self, expected: usize, reads: impl Fn(&[u8]) -> Option<T>) -> Result<T, Wrong> {
        let Some((column, word)) = self.words.get(self.next) else { return Err((self.end, expected)) };
        let read = reads(word).ok_or((*column, expected))?;
        self.next += 1;
        Ok(read)
    }

    fn number(&mut self, expected: usize, most: u64) -> Result<u64, Wrong> {
        self.word(expected, |w| decimal(w).filter(|n| *n <= most))
    }

    fn the(&mut self, expected: usize, said: &str) -> Result<(), Wrong> {
        self.word(expected, |w| (w == said.as_bytes()).then_some(()))
    }

    /// The takes in braces, as bits.
    fn volume(&mut self) -> Result<usize, Wrong> {
        self.the(5, "{")?;
        if self.the(0, "}").is_ok() {
            return Ok(0);
        }
        let mut volume = 0;
        loop {
            volume |= 1 << self.number(1, 15)?;
            if self.word(10, |w| [&b"}"[..], b","].iter().position(|m| *m == w))? == 0 {
                return Ok(volume);
            }
        }
    }

    /// The step of a line with words.
    fn step(&mut self) -> Result<u64, Wrong> {
        let raw = self.the(9, "raw").is_ok();
        if raw {
            return self.word(8, hexadecimal);
        }
        let kind = self.word(9, |w| KINDS.iter().position(|(name, _)| name.as_bytes() == w))?;
        let (mut take, mut other, mut parcel, mut text) = (0, 0, 0, 0);
        for part in KINDS[kind].1 {
            match part {
                Take => take = self.number(1, 15)? as usize,
                Addressee if kind == 1 => {
                    self.the(6, "to")?;
                    take = self.number(1, 15)? as usize;
                }
                Addressee => {
                    self.the(6, "to")?;
                    other = self.number(2, 15)? as usize;
                }
                Parcel => parcel = self.number(3, 65_535)? as usize,
                Text => {
                    self.the(7, "text")?;
                    text = self.number(4, 4_294_967_295)? as u32;
                }
                Volume => parcel = self.volume()?,
            }
        }
        Ok(packed(kind, take, other, parcel, text))
    }

    fn line(&mut self) -> Result<u64, Wrong> {
        let step = self.step()?;
        match self.words.get(self.next) {
            Some((column, _)) => Err((*column, 11)),
            None => Ok(step),
        }
    }
}

/// A number of any length, the greatest one where it is too great to be held.
fn decimal(word: &[u8]) -> Option<u64> {
    let digit = |n: u64, b: &u8| n.saturating_mul(10).saturating_add((b - b'0') as u64);
    (!word.is_empty() && word.iter().all(u8::is_ascii_digit)).then(|| word.iter().fold(0, digit))
}

fn hexadecimal(word: &[u8]) -> Option<u64> {
    let digits = word.len() == 16 && word.iter().all(|b| matches!(b, b'0'..=b'9' | b'a'..=b'f'));
    digits.then(|| u64::from_str_radix(std::str::from_utf8(word).unwrap(), 16).unwrap())
}

/// The packed steps of a text, which may have so many; or the first line's fault.
pub fn parse(text: &[u8], room: usize) -> Result<Vec<u8>, Fault> {
    let mut list = Vec::new();
    for (i, line) in text.split(|b| *b == b'\n').enumerate() {
        let mut words = Words::of(line);
        let Some((first, _)) = words.words.first().copied() else { continue };
        let fits = |step: u64| if list.len() < STEP * room { Ok(step) } else { Err((first, 12)) };
        match words.line().and_then(fits) {
            Ok(step) => list.extend(step.to_be_bytes()),
            Err((column, expected)) => return Err(Fault { line: i + 1, column, expected }),
        }
    }
    Ok(list)
}
