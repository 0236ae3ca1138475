//! Images made by hand: marks and parcels put in their places, whatever sessions grow.

use crate::json::Json;
use bench::generate::{packed, parcel_at, take_at, MAP, MARK, STATE};
use bench::ledger::IMAGE;

/// A mark: frozen or not, n, L.
#[derive(Clone, PartialEq)]
pub struct Mark {
    pub frozen: bool,
    pub n: u16,
    pub list: Vec<u16>,
}

pub fn mark(list: &[u16], n: u16) -> Mark {
    Mark { frozen: false, n, list: list.to_vec() }
}

pub fn frozen(list: &[u16], n: u16) -> Mark {
    Mark { frozen: true, n, list: list.to_vec() }
}

impl Mark {
    pub fn packed(&self) -> Vec<u8> {
        let mut bytes = vec![0x80 | (self.frozen as u8) << 6 | self.list.len() as u8];
        bytes.extend(self.n.to_be_bytes());
        bytes.extend(self.list.iter().flat_map(|entry| entry.to_be_bytes()));
        bytes.resize(MARK, 0);
        bytes
    }

    /// As in the documents: (L; n).
    pub fn text(&self) -> String {
        let list: Vec<String> = self.list.iter().map(u16::to_string).collect();
        let list = if list.is_empty() { "empty".to_string() } else { list.join(",") };
        format!("({list}; {}){}", self.n, if self.frozen { " frozen" } else { "" })
    }
}

/// Where a map stands.
#[derive(Clone, Copy)]
pub enum Map {
    State(usize),
    Creation(usize),
    Behaviour(usize),
    Parcel(usize),
}

/// Where the mark of take u stands in a map.
pub fn mark_at(map: Map, u: usize) -> usize {
    let map = match map {
        Map::State(t) => take_at(t) + STATE,
        Map::Creation(t) => take_at(t) + STATE + MAP,
        Map::Behaviour(t) => take_at(t) + STATE + 2 * MAP,
        Map::Parcel(k) => parcel_at(k) + 7,
    };
    map + MARK * u
}

#[derive(Clone)]
pub struct Image(pub Vec<u8>);

pub const IDLE: u8 = 1;
pub const AT_WORK: u8 = 2;
pub const VANISHED: u8 = 3;

impl Image {
    pub fn fresh(limits: [usize; 3]) -> Image {
        let mut bytes = vec![0; IMAGE];
        bytes[4..7].copy_from_slice(&limits.map(|n| n as u8));
        Image(bytes)
    }

    pub fn put(mut self, at: usize, bytes: &[u8]) -> Image {
        self.0[at..at + bytes.len()].copy_from_slice(bytes);
        self
    }

    /// Opens the next take, with its own mark; a vanished one has nothing.
    pub fn take(self, status: u8, text: u32, own: Mark) -> Image {
        let t = self.0[0] as usize;
        let opened = self.put(0, &[t as u8 + 1]).put(take_at(t), &[status << 6]);
        if status == VANISHED {
            return opened;
        }
        opened.put(take_at(t) + 1, &text.to_be_bytes()).has(Map::State(t), t, &own)
    }

    pub fn saved(self, t: usize, text: u32) -> Image {
        self.put(take_at(t) + 5, &text.to_be_bytes())
    }

    pub fn has(self, map: Map, u: usize, mark: &Mark) -> Image {
        self.put(mark_at(map, u), &mark.packed())
    }

    /// A waiting parcel in the next place; the next number is one more.
    pub fn parcel(self, number: u16, to: usize, text: u32, marks: &[(usize, Mark)]) -> Image {
        let k = bench::generate::waiting(&self.0);
        let mut image = self.put(parcel_at(k), &[0x80 | to as u8]).put(parcel_at(k) + 1, &number.to_be_bytes());
        image = image.put(parcel_at(k) + 3, &text.to_be_bytes()).next(number + 1);
        marks.iter().fold(image, |image, (u, m)| image.has(Map::Parcel(k), *u, m))
    }

    pub fn next(self, number: u16) -> Image {
        self.put(1, &number.to_be_bytes())
    }
}

/// The bytes that are not zero, as pairs of offset and hexadecimal; a short gap of zeros does not end a stretch.
pub fn sparse(bytes: &[u8]) -> Json {
    let mut stretches = Vec::new();
    let mut at = 0;
    while let Some(start) = (at..bytes.len()).find(|i| bytes[*i] != 0) {
        let mut end = start + 1;
        while let Some(next) = (end..bytes.len().min(end + 5)).find(|i| bytes[*i] != 0) {
            end = next + 1;
        }
        stretches.push(Json::List(vec![start.into(), hex(&bytes[start..end]).into()]));
        at = end;
    }
    Json::List(stretches)
}

pub fn hex(bytes: &[u8]) -> String {
    bytes.iter().map(|byte| format!("{byte:02x}")).collect()
}

/// Steps or replies, a word of hexadecimal digits each, without the zeros at its end; one digit at least.
pub fn words(list: &[u8]) -> String {
    let word = |step: &[u8]| match hex(step).trim_end_matches('0') {
        "" => "0".to_string(),
        digits => digits.to_string(),
    };
    list.chunks(8).map(word).collect::<Vec<_>>().join(" ")
}

/// Steps by kind, take, other, parcel, text.
pub fn steps(list: &[[usize; 5]]) -> Vec<u8> {
    list.iter().flat_map(|s| packed(s[0], s[1], s[2], s[3], s[4] as u32).to_be_bytes()).collect()
}
