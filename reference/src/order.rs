//! Whether two steps may change places on an image: what a step sees and what it changes, a line a clause
//! (docs/RULES.md, 9.11). Read from the bytes of a well-formed image.

use crate::generate::{self, take_at, MAP, MARK, STATE};
use crate::ledger::{self, TAKES};

/// What two steps can meet in.
#[derive(Clone, Copy, Debug, PartialEq)]
pub enum Cell {
    /// A take: its status, texts and maps.
    Whole(usize),
    /// Whether a take is opened, and no more of it.
    There(usize),
    /// Which lives of a take are signed, and no more of it.
    Signed(usize),
    /// The parcel with this number, or that none waits.
    Parcel(usize),
    /// Whether all places of parcels are taken.
    Room,
}

use Cell::*;

/// The names of the clauses of `sees` and of `changes`, by their numbers there.
pub const SEES: [&str; 10] =
    ["acting", "opening", "letter to", "send to", "making", "placing", "taking", "receiving", "naming", "resting"];
pub const CHANGES: [&str; 9] =
    ["acting", "opening", "opened", "making", "taking", "freeing", "receiving", "naming", "signing"];

const ROOT: u64 = 0;
const LETTER: u64 = 1;
const RECEIVE: u64 = 2;
const NEW: u64 = 3;
const SEND: u64 = 4;
const FAIL: u64 = 10;
const LOSE: u64 = 11;
const SIGN: u64 = 12;

/// The fields of a step.
#[derive(Clone, Copy)]
struct Step {
    kind: u64,
    take: usize,
    other: usize,
    parcel: usize,
}

impl Step {
    fn of(step: u64) -> Step {
        let field = |at: u32, bits: u32| (step >> at & ((1 << bits) - 1)) as usize;
        Step { kind: step >> 60, take: field(56, 4), other: field(52, 4), parcel: field(32, 16) }
    }

    fn acts(&self) -> bool {
        (NEW..=FAIL).contains(&self.kind)
    }

    fn opens(&self) -> bool {
        self.kind == ROOT || self.kind == NEW
    }

    fn sends(&self) -> bool {
        self.kind == LETTER || self.kind == SEND
    }

    fn takes_away(&self) -> bool {
        self.kind == RECEIVE || self.kind == LOSE
    }

    /// The takes that a signing names.
    fn named(&self) -> impl Iterator<Item = usize> {
        let volume = if self.kind == SIGN { self.parcel } else { 0 };
        (0..TAKES).filter(move |t| volume >> t & 1 == 1)
    }

    /// The addressee of the parcel that is received, if it waits.
    fn receiver(&self, image: &[u8]) -> Option<usize> {
        let place = (0..generate::waiting(image)).find(|k| generate::number(image, *k) as usize == self.parcel);
        place.filter(|_| self.kind == RECEIVE).map(|k| generate::addressee(image, k))
    }
}

fn next(image: &[u8]) -> usize {
    u16::from_be_bytes([image[1], image[2]]) as usize
}

/// Take t has a mark of take u in its state or creation map.
fn has_mark(image: &[u8], t: usize, u: usize) -> bool {
    (0..2).any(|map| image[take_at(t) + STATE + MAP * map + MARK * u] & 0x80 != 0)
}

/// The list of a take's own mark, which tells which of its lives are signed; of a vanished take none is.
fn signings(image: &[u8], t: usize) -> &[u8] {
    let live = matches!(generate::status(image, t), 1 | 2);
    let own = take_at(t) + STATE + MARK * t;
    let count = if live { (image[own] & 15) as usize } else { 0 };
    &image[own + 3..own + 3 + 2 * count]
}

/// What a step that is not malformed looks at before it replies, with the clause's number.
pub fn sees(image: &[u8], step: u64) -> Vec<(usize, Cell)> {
    let p = Step::of(step);
    let mut cells = Vec::new();
    if p.acts() {
        cells.push((0, Whole(p.take)));
    }
    if p.opens() {
        cells.push((1, Whole(generate::opened(image))));
    }
    if p.kind == LETTER {
        cells.push((2, There(p.take)));
    }
    if p.kind == SEND {
        cells.push((3, There(p.other)));
    }
    if p.sends() {
        cells.extend([(4, Parcel(next(image))), (5, Room)]);
    }
    if p.takes_away() {
        cells.push((6, Parcel(p.parcel)));
    }
    cells.extend(p.receiver(image).map(|t| (7, Whole(t))));
    for t in p.named() {
        cells.push((8, Whole(t)));
        cells.extend((0..TAKES).filter(|u| has_mark(image, t, *u)).map(|u| (9, Signed(u))));
    }
    cells
}

/// What a step may leave otherwise than it was, with the clause's number: the step was played, replied this, and left `after`.
fn changes(image: &[u8], step: u64, outcome: u64, after: &[u8]) -> Vec<(usize, Cell)> {
    let p = Step::of(step);
    let mut cells = Vec::new();
    if p.acts() && p.kind != SEND {
        cells.push((0, Whole(p.take)));
    }
    if p.opens() {
        let t = generate::opened(image);
        cells.extend([(1, Whole(t)), (2, There(t))]);
    }
    if p.sends() {
        cells.push((3, Parcel(next(image))));
    }
    if p.takes_away() {
        cells.push((4, Parcel(p.parcel)));
        if generate::waiting(image) >= generate::limits(image)[1] {
            cells.push((5, Room));
        }
    }
    cells.extend(p.receiver(image).map(|t| (6, Whole(t))));
    if outcome == 0 {
        cells.extend(p.named().map(|t| (7, Whole(t))));
    }
    cells.extend((0..TAKES).filter(|t| signings(image, *t) != signings(after, *t)).map(|t| (8, Signed(t))));
    cells
}

/// Where q sees what p changes: the clause of each.
fn met(image: &[u8], p: u64, q: u64) -> Vec<[usize; 2]> {
    let mut after = image.to_vec();
    let outcome = ledger::step_unchecked(&mut after, p) >> 56;
    let malformed = ledger::step_unchecked(&mut image.to_vec(), q) >> 56 == 20;
    if outcome >= 20 || malformed {
        return Vec::new();
    }
    let seen = sees(image, q);
    let both = changes(image, p, outcome, &after).into_iter().flat_map(|c| seen.iter().map(move |s| (c, *s)));
    both.filter(|(c, s)| c.1 == s.1).map(|(c, s)| [c.0, s.0]).collect()
}

/// Where one of two steps sees what the other changes, the clause of `changes` and that of `sees`; they are independent if there is
/// nothing.
pub fn meetings(image: &[u8], p: u64, q: u64) -> Vec<[usize; 2]> {
    let mut all = met(image, p, q);
    all.extend(met(image, q, p));
    all
}

/// The call: 16, then 17 unless both steps have eight bytes, then 19; else whether the steps are independent.
pub fn independent(image: &[u8], first: &[u8], second: &[u8]) -> Result<bool, u8> {
    if image.len() != ledger::IMAGE {
        return Err(16);
    }
    let (Ok(p), Ok(q)) = (first.try_into(), second.try_into()) else {
        return Err(17);
    };
    if !ledger::formed(image) {
        return Err(19);
    }
    Ok(meetings(image, u64::from_be_bytes(p), u64::from_be_bytes(q)).is_empty())
}

/// Both orders on copies: whether they leave the same image and give each step the same reply.
pub fn exchange(image: &[u8], p: u64, q: u64) -> bool {
    let (mut one, mut other) = (image.to_vec(), image.to_vec());
    let first = [p, q].map(|s| ledger::step_unchecked(&mut one, s));
    let second = [q, p].map(|s| ledger::step_unchecked(&mut other, s));
    one == other && first == [second[1], second[0]]
}
