//! Four queries read as they stand, from the bytes of a well-formed image: lives as lists, takes as sets, nothing left out for speed. Shares with
//! the Rust ledger only the answers' types.

use crate::generate::{self, parcel_at, take_at, MAP, MARK, PARCEL, STATE};
use crate::ledger::{Dependents, Impediment, Obstacle, TAKES};
use std::collections::BTreeSet;

/// A mark without its frozen flag: n and L.
#[derive(PartialEq)]
struct Life {
    n: u16,
    list: Vec<u16>,
}

/// The mark at a place of the image, if there is one.
fn life(image: &[u8], at: usize) -> Option<Life> {
    let number = |i: usize| u16::from_be_bytes([image[at + 1 + 2 * i], image[at + 2 + 2 * i]]);
    let count = (image[at] & 15) as usize;
    (image[at] & 0x80 != 0).then(|| Life { n: number(0), list: (1..=count).map(number).collect() })
}

/// Take u's mark in map 0, 1 or 2 (state, creation, behaviour) of take t.
fn entry(image: &[u8], t: usize, map: usize, u: usize) -> Option<Life> {
    life(image, take_at(t) + STATE + MAP * map + MARK * u)
}

fn live(image: &[u8], t: usize) -> bool {
    matches!(generate::status(image, t), 1 | 2)
}

fn present(image: &[u8], t: usize) -> Option<Life> {
    entry(image, t, 0, t).filter(|_| live(image, t))
}

/// "A life is signed if its take's present L begins with its list followed by its n."
fn signed(image: &[u8], u: usize, life: &Life) -> bool {
    let mut begins = life.list.clone();
    begins.push(life.n);
    present(image, u).is_some_and(|p| p.list.starts_with(&begins))
}

fn volume(takes: &BTreeSet<usize>) -> u16 {
    takes.iter().map(|t| 1 << t).sum()
}

/// The takes that hold take t's present life in one of these maps.
fn holders(image: &[u8], t: usize, maps: &[usize]) -> BTreeSet<usize> {
    let own = present(image, t);
    let holds = |u: &usize| maps.iter().any(|m| entry(image, *u, *m, t) == own);
    (0..TAKES).filter(|u| own.is_some() && live(image, *u) && holds(u)).collect()
}

pub fn dependents(image: &[u8], t: usize) -> Dependents {
    let mut through = BTreeSet::from([t]);
    loop {
        let more: BTreeSet<usize> = through.iter().flat_map(|u| holders(image, *u, &[0, 1])).collect();
        if more.is_subset(&through) {
            break;
        }
        through.extend(more);
    }
    let working = holders(image, t, &[2]).into_iter().filter(|u| generate::status(image, *u) == 2).collect();
    let own = present(image, t);
    let carries = |k: &usize| life(image, parcel_at(*k) + PARCEL - MAP + MARK * t) == own;
    Dependents {
        resting: volume(&holders(image, t, &[0, 1])),
        through: volume(&through),
        unfinished: volume(&working),
        carried: (0..generate::waiting(image)).filter(carries).count() as u16,
    }
}

/// Of a volume whose signing is not refused.
pub fn obstacle(image: &[u8], volume: u16) -> Obstacle {
    let named = |t: usize| volume >> t & 1 == 1;
    let takes = || (0..TAKES).filter(|t| named(*t));
    if let Some(t) = takes().find(|t| !generate::frozen(image, *t)) {
        return Obstacle::NotFrozen(t as u8);
    }
    let marks = takes().flat_map(|t| (0..TAKES).flat_map(move |u| [(t, u, 0), (t, u, 1)]));
    for (t, u, map) in marks {
        let Some(life) = entry(image, t, map, u) else { continue };
        let is_present = present(image, u).is_some_and(|p| p == life);
        match (signed(image, u, &life), is_present, named(u)) {
            (true, _, _) | (_, true, true) => {}
            (false, true, false) => return Obstacle::Outside(t as u8, u as u8),
            (false, false, _) => return Obstacle::Withdrawn(t as u8, u as u8),
        }
    }
    Obstacle::Nothing
}

/// R of docs/RULES.md, 9.5, to the letter: at each k, whether a chain leads from w to c through some of the first k takes.
fn chains(image: &[u8]) -> Vec<[[bool; TAKES]; TAKES]> {
    let held: [_; TAKES] = std::array::from_fn(|c| holders(image, c, &[0, 1]));
    let mut tables = vec![std::array::from_fn(|c| std::array::from_fn(|w| w == c || held[c].contains(&w)))];
    for k in 0..TAKES {
        let r: &[[bool; TAKES]; TAKES] = &tables[k];
        tables.push(std::array::from_fn(|c| std::array::from_fn(|w| r[c][w] || r[c][k] && r[k][w])));
    }
    tables
}

/// N there.
fn next(tables: &[[[bool; TAKES]; TAKES]], k: usize, c: usize, w: usize) -> u8 {
    match k {
        0 => c as u8,
        _ if tables[k - 1][c][w] => next(tables, k - 1, c, w),
        _ => next(tables, k - 1, k - 1, w),
    }
}

/// The first take of which take c has a mark that is neither present nor signed.
fn lost(image: &[u8], c: usize) -> Option<usize> {
    let withdrawn = |u: usize, l: &Life| present(image, u).as_ref() != Some(l) && !signed(image, u, l);
    (0..TAKES).find(|u| (0..2).filter_map(|map| entry(image, c, map, *u)).any(|l| withdrawn(*u, &l)))
}

/// Of a live take.
pub fn impediment(image: &[u8], t: usize) -> Impediment {
    let tables = chains(image);
    let ways = || (0..TAKES).filter(|c| tables[TAKES][*c][t]);
    let next = |c: usize| next(&tables, TAKES, c, t);
    if let Some((c, u)) = ways().find_map(|c| lost(image, c).map(|u| (c, u))) {
        return Impediment::Hopeless(c as u8, u as u8, next(c));
    }
    let signings = |c: usize| present(image, c).unwrap().list.len();
    if let Some(c) = ways().find(|c| signings(*c) >= image[6] as usize) {
        return Impediment::Exhausted(c as u8, next(c));
    }
    match ways().find(|c| !generate::frozen(image, *c)) {
        Some(c) => Impediment::NotFrozen(c as u8, next(c)),
        None => Impediment::Nothing,
    }
}

/// Of a live take, docs/RULES.md, 9.10, to the letter: the steps.
pub fn plan(image: &[u8], t: usize) -> Vec<u64> {
    if matches!(impediment(image, t), Impediment::Hopeless(..) | Impediment::Exhausted(..)) {
        return Vec::new();
    }
    let g: BTreeSet<usize> =
        (0..TAKES).filter(|c| live(image, *c) && dependents(image, *c).through >> t & 1 == 1).collect();
    let mut next = u16::from_be_bytes([image[1], image[2]]) as usize;
    let mut steps = Vec::new();
    for c in g.iter().copied().filter(|c| !generate::frozen(image, *c)) {
        if generate::status(image, c) == 1 {
            let full = generate::waiting(image) >= image[5] as usize;
            if full || next >= 65_535 {
                return Vec::new();
            }
            steps.push(generate::packed(1, c, 0, 0, 0));
            steps.push(generate::packed(2, 0, 0, next, 0));
            next += 1;
        }
        steps.push(generate::packed(7, c, 0, 0, 0));
    }
    steps.push(generate::packed(12, 0, 0, volume(&g) as usize, 0));
    steps
}
