//! test_vectors: the operations on marks and maps that are packed in the image.

use crate::script::{numbers, truth, Told};
use reference::generate::MARK;
use reference::marks::{self, Mark};

/// The mark at a place, or the opening mark where none is present.
fn mark(image: &[u8], at: usize) -> Mark {
    Mark::unpacked(&image[at..at + MARK]).unwrap_or(Mark { frozen: false, n: 0, list: Vec::new() })
}

fn store(image: &mut [u8], at: usize, mark: &Mark) -> Option<Told> {
    image[at..at + MARK].copy_from_slice(&mark.packed());
    Some(None)
}

fn changed(image: &mut [u8], at: usize, change: fn(&mut Mark)) -> Option<Told> {
    let mut mark = mark(image, at);
    change(&mut mark);
    store(image, at, &mark)
}

fn told(words: Vec<String>) -> Option<Told> {
    Some(Some(words))
}

/// The mark that is frozen if the flag is 1, with this n and this list.
fn given(flag: usize, n: usize, list: &[usize]) -> Mark {
    Mark { frozen: flag != 0, n: n as u16, list: list.iter().map(|entry| *entry as u16).collect() }
}

/// What the operation prints, which may be nothing; none where it is not one of these.
pub fn operation(image: &mut [u8], op: &str, n: &[usize]) -> Option<Told> {
    let pair = |a: usize, b: usize| (mark(image, a), mark(image, b));
    match (op, n) {
        ("H", [at, flag, n, list @ ..]) if list.len() <= 15 => store(image, *at, &given(*flag, *n, list)),
        ("Z", [at]) => changed(image, *at, Mark::freeze),
        ("R", [at]) => changed(image, *at, Mark::fall),
        ("K", [at]) => changed(image, *at, Mark::sign),
        ("N", [a, b, at]) => {
            let (left, right) = pair(*a, *b);
            store(image, *at, left.newer(&right))
        }
        ("S", [a, b]) => {
            let (a, b) = pair(*a, *b);
            told(truth(marks::compare(&a, &b) == marks::LEFT_STALE))
        }
        ("C", [a, b]) => {
            let (a, b) = pair(*a, *b);
            told(truth(a.signed(&b)))
        }
        ("I", [a, b]) => {
            let (a, b) = pair(*a, *b);
            told(truth(a.same_life(&b)))
        }
        ("T", [a, b]) => {
            let (a, b) = pair(*a, *b);
            told(numbers(&[marks::compare(&a, &b)]))
        }
        ("W", [at]) => told(truth(marks::formed(&image[*at..]))),
        ("P", [at]) => told(truth(Mark::unpacked(&image[*at..]).is_some())),
        ("Q", [at]) => told(truth(mark(image, *at).frozen)),
        ("J", [a, b, at]) => {
            let joined = marks::packed_map(&marks::join(&marks::map(&image[*a..]), &marks::map(&image[*b..])));
            image[*at..at + joined.len()].copy_from_slice(&joined);
            Some(None)
        }
        ("E", [at]) => told(truth(marks::map(&image[*at..]).iter().all(Option::is_none))),
        ("M", [at, a, b]) => {
            let known = marks::join(&marks::map(&image[*a..]), &marks::map(&image[*b..]));
            let stale = marks::stale(&marks::map(&image[*at..]), &known);
            told(stale.map_or_else(|| truth(false), |t| numbers(&[t])))
        }
        _ => None,
    }
}
