//! Why no volume with a take could be signed, read off the bytes of a well-formed image by the definitions of docs/RULES.md, 9.5. Names are
//! document 01's.

const TAKES: usize = 16;

/// A life: its list, and n.
type Life = (Vec<u16>, u16);

/// The mark of take u in the state (0) or creation (1) map of take t: its life, and whether it is frozen.
fn mark(image: &[u8], t: usize, map: usize, u: usize) -> Option<(Life, bool)> {
    let bytes = &image[8 + 1_593 * t + 9 + 528 * map + 33 * u..][..33];
    let number = |i: usize| u16::from_be_bytes([bytes[1 + 2 * i], bytes[2 + 2 * i]]);
    let list = (1..=(bytes[0] & 15) as usize).map(number).collect();
    (bytes[0] >= 0x80).then(|| ((list, number(0)), bytes[0] & 0x40 != 0))
}

/// The present life of a live take.
fn present(image: &[u8], u: usize) -> Option<Life> {
    mark(image, u, 0, u).map(|(life, _)| life)
}

fn marks(image: &[u8], t: usize, u: usize) -> Vec<Life> {
    (0..2).filter_map(|map| mark(image, t, map, u)).map(|(life, _)| life).collect()
}

fn withdrawn(image: &[u8], u: usize, (list, n): &Life) -> bool {
    let Some((present, now)) = present(image, u) else { return true };
    let signed = present.len() > list.len() && present.starts_with(list) && present[list.len()] == *n;
    !signed && (&present, &now) != (list, n)
}

/// R of 9.5: at each k, whether take w rests on take c by a chain through some of the first k takes.
fn chains(image: &[u8]) -> Vec<[[bool; TAKES]; TAKES]> {
    let holds = |c: usize, w: usize| present(image, c).is_some_and(|life| marks(image, w, c).contains(&life));
    let mut tables = vec![std::array::from_fn(|c| std::array::from_fn(|w| c == w || holds(c, w)))];
    for k in 0..TAKES {
        let last: &[[bool; TAKES]; TAKES] = &tables[k];
        tables.push(std::array::from_fn(|c| std::array::from_fn(|w| last[c][w] || last[c][k] && last[k][w])));
    }
    tables
}

/// N of 9.5: the next take on the chain from w to c.
fn next(tables: &[[[bool; TAKES]; TAKES]], k: usize, c: usize, w: usize) -> usize {
    match k {
        0 => c,
        _ if tables[k - 1][c][w] => next(tables, k - 1, c, w),
        _ => next(tables, k - 1, k - 1, w),
    }
}

/// 0 nothing, 1 hopeless, 2 exhausted, 3 not frozen; the take in the way, the one of which it has a withdrawn life, the next on the chain.
pub fn impediment(image: &[u8], t: usize) -> [u8; 4] {
    let tables = chains(image);
    let ways: Vec<usize> = (0..TAKES).filter(|c| tables[TAKES][*c][t]).collect();
    let lost = |c: usize| (0..TAKES).find(|u| marks(image, c, *u).iter().any(|life| withdrawn(image, *u, life)));
    let own = |c: usize| mark(image, c, 0, c).expect("a live take");
    let hopeless = ways.iter().find_map(|c| lost(*c).map(|u| (1, *c, u)));
    let exhausted = ways.iter().find(|c| own(**c).0 .0.len() >= image[6] as usize).map(|c| (2, *c, 0));
    let unfrozen = ways.iter().find(|c| !own(**c).1).map(|c| (3, *c, 0));
    let Some((kind, c, u)) = hopeless.or(exhausted).or(unfrozen) else { return [0; 4] };
    [kind, c as u8, u as u8, next(&tables, TAKES, c, t) as u8]
}
