//! What is wrong with an image, from docs/RULES.md, sections 7, 8 and 9.13: the first test that fails, as a byte and a clause.

use crate::ledger::IMAGE;

const MARK: usize = 33;
const MAP: usize = 528;
const TAKES: usize = 16;
const PLACES: usize = 32;

fn take_at(t: usize) -> usize {
    8 + 1_593 * t
}

fn place_at(k: usize) -> usize {
    25_496 + 535 * k
}

fn two(image: &[u8], at: usize) -> usize {
    usize::from(image[at]) << 8 | usize::from(image[at + 1])
}

fn zero(bytes: &[u8]) -> bool {
    bytes.iter().all(|byte| *byte == 0)
}

/// The first place that does not wait.
fn waiting(image: &[u8]) -> usize {
    (0..PLACES).find(|k| image[place_at(*k)] < 0x80).unwrap_or(PLACES)
}

/// Clause 5, of the mark of take u.
fn wrong_mark(image: &[u8], at: usize, u: usize) -> bool {
    let mark = &image[at..at + MARK];
    if mark[0] < 0x80 {
        return !zero(mark);
    }
    let length = mark[0] & 15;
    mark[0] & 0x30 != 0
        || length > image[6]
        || u >= usize::from(image[0])
        || !zero(&mark[3 + 2 * usize::from(length)..])
}

fn wrong_map(image: &[u8], at: usize) -> bool {
    (0..TAKES).any(|u| wrong_mark(image, at + MARK * u, u))
}

/// The head and the limits.
fn head(image: &[u8]) -> Option<(usize, u8)> {
    let in_range = |at: usize, greatest: u8| 1 <= image[at] && image[at] <= greatest;
    let tests = [
        (image[3] != 0, 3, 1),
        (image[7] != 0, 7, 1),
        (!(in_range(4, 16) && in_range(5, 32) && in_range(6, 15)), 4, 2),
        (image[0] > image[4], 0, 6),
        (waiting(image) > usize::from(image[5]), 5, 6),
    ];
    tests.iter().find(|(fails, ..)| *fails).map(|(_, at, clause)| (*at, *clause))
}

/// A live take: its maps, its own mark, its saved text.
fn live(image: &[u8], t: usize, idle: bool) -> Option<(usize, u8)> {
    let at = take_at(t);
    let [state, creation, behaviour] = [0, 1, 2].map(|k| at + 9 + MAP * k);
    let own = image[state + MARK * t];
    let tests = [
        (wrong_map(image, state), state, 5),
        (wrong_map(image, creation), creation, 5),
        (own < 0x80, state + MARK * t, 8),
        (own & 15 == 0 && !zero(&image[at + 5..at + 9]), at + 5, 9),
        (idle && !zero(&image[behaviour..behaviour + MAP]), behaviour, 10),
        (!idle && wrong_map(image, behaviour), behaviour, 5),
    ];
    tests.iter().find(|(fails, ..)| *fails).map(|(_, at, clause)| (*at, *clause))
}

fn take(image: &[u8], t: usize) -> Option<(usize, u8)> {
    let (at, end) = (take_at(t), take_at(t + 1));
    if t >= usize::from(image[0]) {
        return (!zero(&image[at..end])).then_some((at, 3));
    }
    if image[at] & 63 != 0 {
        return Some((at, 3));
    }
    match image[at] >> 6 {
        0 => Some((at, 7)),
        3 => (!zero(&image[at + 1..end])).then_some((at + 1, 11)),
        status => live(image, t, status == 1),
    }
}

/// A place before the first one that does not wait.
fn parcel(image: &[u8], k: usize) -> Option<(usize, u8)> {
    let (at, number) = (place_at(k), two(image, place_at(k) + 1));
    let tests = [
        (image[at] & 0x70 != 0, at, 4),
        (image[at] & 15 >= image[0], at, 15),
        (number >= two(image, 1), at + 1, 14),
        (k > 0 && number <= two(image, place_at(k.max(1) - 1) + 1), at + 1, 13),
        (wrong_map(image, at + 7), at + 7, 5),
    ];
    tests.iter().find(|(fails, ..)| *fails).map(|(_, at, clause)| (*at, *clause))
}

fn place(image: &[u8], k: usize) -> Option<(usize, u8)> {
    if k < waiting(image) {
        return parcel(image, k);
    }
    let at = place_at(k);
    let clause = if image[at] >= 0x80 { 12 } else { 4 };
    (!zero(&image[at..at + 535])).then_some((at, clause))
}

/// 0, 16, or 19 with the byte and the clause.
pub fn defect(image: &[u8]) -> (u8, [usize; 2]) {
    if image.len() != IMAGE {
        return (16, [0, 0]);
    }
    let takes = || (0..TAKES).find_map(|t| take(image, t));
    let places = || (0..PLACES).find_map(|k| place(image, k));
    match head(image).or_else(takes).or_else(places) {
        Some((at, clause)) => (19, [at, usize::from(clause)]),
        None => (0, [0, 0]),
    }
}
