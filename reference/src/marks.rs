//! Marks as lists of numbers, and maps of them, by docs/RULES.md, sections 2, 3, 5.2 and 7: nothing left out for speed.

use crate::generate::{self, parcel_at, take_at, MAP, MARK, PARCEL, STATE};
use crate::ledger::{self, STEP, TAKES};

/// How long the list of a mark may be.
const PLACES: usize = 15;

#[derive(Clone, Debug, PartialEq)]
pub struct Mark {
    pub frozen: bool,
    pub n: u16,
    pub list: Vec<u16>,
}

/// At most one mark for each take.
pub type Map = Vec<Option<Mark>>;

/// How two lives of one take stand to each other, by the numbers of section 2.
pub const SAME: usize = 0;
pub const LEFT_SIGNED: usize = 1;
pub const RIGHT_SIGNED: usize = 2;
pub const LEFT_STALE: usize = 3;
pub const RIGHT_STALE: usize = 4;
pub const UNRELATED: usize = 5;

impl Mark {
    /// The mark that is packed at the front of the bytes, if one is present.
    pub fn unpacked(bytes: &[u8]) -> Option<Mark> {
        let number = |i: usize| u16::from_be_bytes([bytes[1 + 2 * i], bytes[2 + 2 * i]]);
        let list = (1..=(bytes[0] & 15) as usize).map(number).collect();
        (bytes[0] & 0x80 != 0).then(|| Mark { frozen: bytes[0] & 0x40 != 0, n: number(0), list })
    }

    pub fn packed(&self) -> [u8; MARK] {
        let mut bytes = [0; MARK];
        bytes[0] = 0x80 | (self.frozen as u8) << 6 | self.list.len() as u8;
        for (i, number) in std::iter::once(&self.n).chain(&self.list).enumerate() {
            bytes[1 + 2 * i..3 + 2 * i].copy_from_slice(&number.to_be_bytes());
        }
        bytes
    }

    pub fn freeze(&mut self) {
        self.frozen = true;
    }

    /// Nothing from the largest life number.
    pub fn fall(&mut self) {
        if self.n < u16::MAX {
            self.n += 1;
            self.frozen = false;
        }
    }

    /// Nothing where the list is full.
    pub fn sign(&mut self) {
        if self.list.len() < PLACES {
            self.list.push(self.n);
            self.n = 0;
            self.frozen = false;
        }
    }

    pub fn same_life(&self, other: &Mark) -> bool {
        self.n == other.n && self.list == other.list
    }

    /// Its life is signed, where the take's present mark is that one.
    pub fn signed(&self, present: &Mark) -> bool {
        let mut begins = self.list.clone();
        begins.push(self.n);
        present.list.starts_with(&begins)
    }

    /// The newer of two marks, of which this is the left one.
    pub fn newer<'a>(&'a self, right: &'a Mark) -> &'a Mark {
        let rank = |m: &Mark| (m.list.len(), m.n, m.frozen);
        if rank(right) > rank(self) {
            right
        } else {
            self
        }
    }
}

/// The entry of b's list right after a's, if a's list is a strict prefix of it.
fn after(a: &Mark, b: &Mark) -> Option<u16> {
    b.list.strip_prefix(&a.list[..])?.first().copied()
}

/// Two lives of one take compared.
pub fn compare(a: &Mark, b: &Mark) -> usize {
    use std::cmp::Ordering::{Equal, Greater, Less};
    if a.list == b.list {
        return match a.n.cmp(&b.n) {
            Equal => SAME,
            Less => LEFT_STALE,
            Greater => RIGHT_STALE,
        };
    }
    let judged = |entry: u16, n: u16, signed: usize, stale: usize| match entry.cmp(&n) {
        Equal => signed,
        Greater => stale,
        Less => UNRELATED,
    };
    match (after(a, b), after(b, a)) {
        (Some(entry), _) => judged(entry, a.n, LEFT_SIGNED, LEFT_STALE),
        (_, Some(entry)) => judged(entry, b.n, RIGHT_SIGNED, RIGHT_STALE),
        _ => UNRELATED,
    }
}

/// Section 8, clause 5, of a packed mark: the limit is that of the greatest session.
pub fn formed(bytes: &[u8]) -> bool {
    match Mark::unpacked(bytes) {
        Some(mark) => mark.list.len() <= PLACES && mark.packed() == bytes[..MARK],
        None => bytes[..MARK].iter().all(|b| *b == 0),
    }
}

pub fn map(bytes: &[u8]) -> Map {
    (0..TAKES).map(|t| Mark::unpacked(&bytes[MARK * t..])).collect()
}

pub fn packed_map(map: &Map) -> Vec<u8> {
    map.iter().flat_map(|m| m.as_ref().map_or([0; MARK], Mark::packed)).collect()
}

pub fn join(left: &Map, right: &Map) -> Map {
    let both = left.iter().zip(right);
    both.map(|(l, r)| match (l, r) {
        (Some(l), Some(r)) => Some(l.newer(r).clone()),
        _ => l.clone().or(r.clone()),
    })
    .collect()
}

/// The first take whose mark of the left map is stale by that of the right one.
pub fn stale(left: &Map, right: &Map) -> Option<usize> {
    let both = |t: &usize| left[*t].as_ref().zip(right[*t].as_ref());
    (0..TAKES).find(|t| both(t).is_some_and(|(l, r)| compare(l, r) == LEFT_STALE))
}

/// What the receipt of a parcel would reply now, and the take whose marks decide it, or 0.
pub fn decision(image: &[u8], number: usize) -> Result<[usize; 2], u8> {
    let mut after = image.to_vec();
    let mut reply = [0; STEP];
    let step = generate::packed(2, 0, 0, number & 0xffff, 0).to_be_bytes();
    let answer = ledger::run(&mut after, &step, 0, STEP, &mut reply);
    if answer != 0 {
        return Err(answer);
    }
    if number > 0xffff {
        return Err(24);
    }
    let outcome = reply[0];
    if outcome >= 20 {
        return Err(outcome);
    }
    let place = (0..generate::waiting(image)).find(|k| generate::number(image, *k) as usize == number).unwrap();
    let (parcel, receiver) = (parcel_at(place) + PARCEL - MAP, take_at(generate::addressee(image, place)) + STATE);
    let parcel = map(&image[parcel..]);
    let known = join(&map(&image[receiver..]), &map(&image[receiver + MAP..]));
    let decides = match outcome {
        2 => stale(&parcel, &known),
        3 | 4 => stale(&known, &parcel),
        _ => Some(0),
    };
    Ok([outcome as usize, decides.expect("a stale mark")])
}
