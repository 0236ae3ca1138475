//! test_vectors: the operations that ask something of an image. Each prints the refusal first, and then its answer.

use crate::script::{numbers, truth};
use reference::generate::{FIRST_PARCEL, FIRST_TAKE, MAP, MARK, PARCEL, STATE, TAKE};
use reference::ledger::{self, Dependents, Impediment, Obstacle, IMAGE};
use reference::{marks, reading};

type Words = Vec<String>;

/// The refusal, or 0, and the words of the answer; refused, those of `none`.
fn after<T>(answer: Result<T, u8>, none: T, words: impl Fn(T) -> Words) -> Words {
    let (refusal, given) = match answer {
        Ok(given) => (0, given),
        Err(refusal) => (refusal, none),
    };
    [vec![refusal.to_string()], words(given)].concat()
}

/// The Rust ledger's answer, which is that of the rules read to the letter.
fn both<T: PartialEq + std::fmt::Debug>(answer: Result<T, u8>, letter: impl Fn() -> T) -> Result<T, u8> {
    if let Ok(given) = &answer {
        assert_eq!(*given, letter(), "two readings of a rule");
    }
    answer
}

fn found(number: Option<u16>) -> Words {
    vec![number.map_or("none".to_string(), |n| n.to_string())]
}

fn said(words: &str, takes: &[u8]) -> Words {
    let takes = takes.iter().map(|t| t.to_string());
    std::iter::once(words.to_string()).chain(takes).collect()
}

fn dependents(d: Dependents) -> Words {
    numbers(&[d.resting, d.through, d.unfinished, d.carried].map(usize::from))
}

fn obstacle(obstacle: Obstacle) -> Words {
    match obstacle {
        Obstacle::Nothing => said("none", &[]),
        Obstacle::NotFrozen(t) => said("not frozen", &[t]),
        Obstacle::Outside(t, u) => said("outside", &[t, u]),
        Obstacle::Withdrawn(t, u) => said("withdrawn", &[t, u]),
    }
}

fn impediment(impediment: Impediment) -> Words {
    match impediment {
        Impediment::Nothing => said("none", &[]),
        Impediment::Hopeless(c, u, next) => said("hopeless", &[c, u, next]),
        Impediment::Exhausted(c, next) => said("no signing left", &[c, next]),
        Impediment::NotFrozen(c, next) => said("not frozen", &[c, next]),
    }
}

/// How many bytes are shown, and the one at a place of them.
fn shown(image: &[u8], number: usize, at: usize) -> Words {
    // A number past 16 bits is that of no parcel; 65,535 is not either, and has the same tests before it.
    let map = ledger::show(image, u16::try_from(number).unwrap_or(u16::MAX));
    after(map, &[], |map| numbers(&[map.len(), map.get(at).copied().unwrap_or(0) as usize]))
}

/// The stretch with most trouble.
pub fn window(replies: &[u8], width: usize) -> Words {
    after(ledger::worst_window(replies, width), (0, 0), |(count, place)| numbers(&[count, place]))
}

/// A byte of a mark, in a map of which it is so far from the start: kind, holder, map, whose mark, which entry, which byte.
fn mark_field(holder: usize, map: usize, at: usize) -> [usize; 6] {
    let ground = at / MARK;
    match at % MARK {
        0 => [14, holder, map, ground, 0, 0],
        byte @ 1..=2 => [15, holder, map, ground, 0, byte - 1],
        byte => [16, holder, map, ground, (byte - 3) / 2, (byte - 3) % 2],
    }
}

/// What a byte of an image belongs to: docs/RULES.md, section 7, with the numbers of include/looking.h.
fn field(at: usize) -> [usize; 6] {
    if at < FIRST_TAKE {
        return [[1, 2, 2, 3, 4, 5, 6, 7][at], 0, 0, 0, 0, (at == 2) as usize];
    }
    if at < FIRST_PARCEL {
        let (t, at) = ((at - FIRST_TAKE) / TAKE, (at - FIRST_TAKE) % TAKE);
        return match at {
            0 => [8, t, 0, 0, 0, 0],
            1..=4 => [9, t, 0, 0, 0, at - 1],
            5..=8 => [10, t, 0, 0, 0, at - 5],
            _ => mark_field(t, (at - STATE) / MAP, (at - STATE) % MAP),
        };
    }
    if at >= IMAGE {
        return [0; 6];
    }
    let (k, at) = ((at - FIRST_PARCEL) / PARCEL, (at - FIRST_PARCEL) % PARCEL);
    match at {
        0 => [11, k, 0, 0, 0, 0],
        1..=2 => [12, k, 0, 0, 0, at - 1],
        3..=6 => [13, k, 0, 0, 0, at - 3],
        _ => mark_field(k, 3, at - 7),
    }
}

pub fn ask(image: &[u8], op: &str, n: &[usize]) -> Words {
    match (op, n) {
        ("o", [t]) => after(ledger::offer(image, *t), None, found),
        ("g", [t]) => after(ledger::smallest(image, *t), None, found),
        ("q", [size]) => after(ledger::ready_count(image, *size), 0, |count| numbers(&[count])),
        ("a", [t]) => after(ledger::all_heard(image, *t), false, truth),
        ("h", [t]) => {
            let answer = both(ledger::dependents(image, *t), || reading::dependents(image, *t));
            after(answer, Dependents::default(), dependents)
        }
        ("y", [volume]) => {
            let answer = both(ledger::obstacle(image, *volume), || reading::obstacle(image, *volume as u16));
            after(answer, Obstacle::Nothing, obstacle)
        }
        ("e", [t]) => {
            let answer = both(ledger::impediment(image, *t), || reading::impediment(image, *t));
            after(answer, Impediment::Nothing, impediment)
        }
        ("D", [parcel]) => after(marks::decision(image, *parcel), [0, 0], |told| numbers(&told)),
        ("F", [at]) => numbers(&field(*at)),
        ("w", [parcel, at]) => shown(image, *parcel, *at),
        _ => panic!("a line is not understood: {op} {n:?}"),
    }
}
