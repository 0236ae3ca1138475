//! Pairs of marks: their relation, which is stale by the other, the newer one. Each is shown by steps too, so that a ledger without such
//! calls can be asked: take 1 receives mark a while it rests on mark b; take 2 reads with a in its state map and b in its behaviour map.

use crate::image::{frozen, hex, mark, mark_at, steps, words, Image, Map, Mark, AT_WORK, IDLE};
use crate::json::Json;
use crate::kit::{texts, Kit, Suite, Test, LIMITS};

const ABOUT: &str = "Pairs of marks. Relation: same life; the earlier one signed; the earlier one stale by the other; unrelated. By steps: take 1, whose state map has b, receives a; take 2 reads, with a in its state map, which is left, and \
    b in its behaviour map.";

/// What a comparison says (document 02, W3), and which mark is the earlier.
#[derive(PartialEq, Clone, Copy, Debug)]
enum Relation {
    Same,
    Signed(char),
    Stale(char),
    Unrelated,
}

/// The earlier mark, shorter or with the smaller n, by the number that the later one has in its place.
fn of_earlier(earlier: char, n: u16, next: u16) -> Relation {
    match next {
        _ if next == n => Relation::Signed(earlier),
        _ if next > n => Relation::Stale(earlier),
        _ => Relation::Unrelated,
    }
}

fn relation(a: &Mark, b: &Mark) -> Relation {
    if a.list == b.list {
        return match a.n.cmp(&b.n) {
            std::cmp::Ordering::Equal => Relation::Same,
            std::cmp::Ordering::Less => Relation::Stale('a'),
            std::cmp::Ordering::Greater => Relation::Stale('b'),
        };
    }
    match (b.list.strip_prefix(&a.list[..]), a.list.strip_prefix(&b.list[..])) {
        (Some(rest), _) => of_earlier('a', a.n, rest[0]),
        (_, Some(rest)) => of_earlier('b', b.n, rest[0]),
        _ => Relation::Unrelated,
    }
}

/// The newer: longer list; then greater n; then frozen; else the left one, a.
fn newer(a: &Mark, b: &Mark) -> char {
    let key = |m: &Mark| (m.list.len(), m.n, m.frozen);
    if key(b) > key(a) {
        'b'
    } else {
        'a'
    }
}

fn image(a: &Mark, b: &Mark) -> Image {
    let opening = mark(&[], 0);
    Image::fresh(LIMITS)
        .take(IDLE, 1, opening.clone())
        .take(IDLE, 2, opening.clone())
        .take(AT_WORK, 3, opening)
        .has(Map::State(1), 0, b)
        .has(Map::State(2), 0, a)
        .has(Map::Behaviour(2), 0, b)
        .parcel(0, 1, 5, &[(0, a.clone())])
}

fn test(kit: &mut Kit, comment: &str, flags: &[&str], a: &Mark, b: &Mark) -> Test {
    let (said, newer) = (relation(a, b), newer(a, b));
    let image = image(a, b);
    let list = steps(&[[2, 0, 0, 0, 0], [5, 2, 0, 0, 0]]);
    let ran = kit.run(&image.0, &list, 0, 16, 16);
    let reply = match said {
        Relation::Unrelated => 31,
        Relation::Stale('a') => 2,
        Relation::Stale(_) => 4,
        _ => 0,
    };
    let at = mark_at(Map::Behaviour(2), 0);
    let joined = if newer == 'a' { a.packed() } else { b.packed() };
    assert!(ran.replies[0] == reply, "{} and {}: {said:?}, but {}", a.text(), b.text(), ran.replies[0]);
    assert!(ran.image[at..at + 33] == joined[..], "{} and {}: {newer} is newer", a.text(), b.text());
    flags.iter().for_each(|flag| kit.seen.name(flag));
    let (word, earlier) = match said {
        Relation::Same => ("same", None),
        Relation::Signed(which) => ("signed", Some(which)),
        Relation::Stale(which) => ("stale", Some(which)),
        Relation::Unrelated => ("unrelated", None),
    };
    let stale = |which: char| Json::Bool(said == Relation::Stale(which));
    Test::new(&format!("a {}, b {}. {comment}", a.text(), b.text()), flags, "run")
        .with("a", hex(&a.packed()))
        .with("b", hex(&b.packed()))
        .with("relation", word)
        .with("earlier", earlier.map_or(Json::Null, |which| which.to_string().into()))
        .with("a_stale", stale('a'))
        .with("b_stale", stale('b'))
        .with("newer", newer.to_string())
        .with("image", crate::image::sparse(&image.0))
        .with("text", texts(&list))
        .with("list", words(&list))
        .ran(&ran, false)
}

type Pair = (&'static str, &'static [&'static str], Mark, Mark);

/// Document 01's starred edges, then W3's.
fn documents() -> Vec<Pair> {
    let d: &[&str] = &["document"];
    vec![
        ("Stale: equal lists, smaller n.", d, mark(&[], 0), mark(&[], 1)),
        ("Not stale: the life was signed.", d, mark(&[], 0), mark(&[0], 0)),
        ("Stale: the list goes on with a greater number.", d, mark(&[0], 0), mark(&[0, 1], 0)),
        ("Not stale: signed.", d, mark(&[0], 1), mark(&[0, 1], 0)),
        ("Not stale by itself frozen.", d, mark(&[0], 0), frozen(&[0], 0)),
        (
            "Not stale: the shorter list is the earlier one. Unrelated: 1 is below 5.",
            d,
            mark(&[0, 1], 0),
            mark(&[0], 5),
        ),
        ("Not stale: the list goes on with a smaller number. Unrelated.", d, mark(&[], 1), mark(&[0], 0)),
        ("Stale.", d, mark(&[0], 3), mark(&[0], 4)),
        ("Equal lists are always related, whatever the flags.", d, frozen(&[0, 1], 0), mark(&[0, 1], 7)),
        ("The opening mark, twice.", d, mark(&[], 0), mark(&[], 0)),
        ("Unequal lists of one length.", d, mark(&[0], 0), mark(&[1], 0)),
        ("A prefix, but for its last entry.", d, mark(&[0, 2], 0), mark(&[0, 1, 2], 0)),
    ]
}

fn mistakes() -> Vec<Pair> {
    let tie: &[&str] = &["mistake", "left-at-a-tie"];
    let alone: &[&str] = &["mistake", "n-alone"];
    let low: &[&str] = &["mistake", "low-byte-alone"];
    vec![
        ("At a tie of length, n and flag the left one is the newer, here a.", tie, mark(&[0, 3], 2), mark(&[1, 3], 2)),
        ("The same pair the other way: a is left again.", tie, mark(&[1, 3], 2), mark(&[0, 3], 2)),
        ("A tie of frozen marks.", tie, frozen(&[9], 0), frozen(&[4], 0)),
        ("No tie: b is frozen.", tie, mark(&[4], 0), frozen(&[9], 0)),
        ("No tie: a is frozen.", tie, frozen(&[4], 0), mark(&[9], 0)),
        ("By n alone a would be the newer.", alone, mark(&[], 9), mark(&[9], 0)),
        ("By n alone b would be stale.", alone, mark(&[2], 5), mark(&[2, 5], 1)),
        ("The longer list is newer, also with a smaller n and unfrozen.", alone, frozen(&[0], 900), mark(&[0, 900], 0)),
        ("A greater n is newer, also unfrozen.", alone, frozen(&[0], 1), mark(&[0], 2)),
        ("256 is greater than 1: two bytes, most significant first.", low, mark(&[], 256), mark(&[], 1)),
        ("256 is greater than 255.", low, mark(&[0], 255), mark(&[0], 256)),
        ("The low bytes are equal: not the same life.", low, mark(&[0], 0), mark(&[0], 256)),
        ("The entries differ in their first bytes alone.", low, mark(&[1], 0), mark(&[257], 0)),
        ("The next entry is 256, n is 0: stale.", low, mark(&[3], 0), mark(&[3, 256], 0)),
        ("The next entry is 1, n is 256: unrelated.", low, mark(&[3], 256), mark(&[3, 1], 0)),
        ("The next entry is 256, and so is n: signed.", low, mark(&[3], 256), mark(&[3, 256], 4)),
    ]
}

fn edges() -> Vec<Pair> {
    let e: &[&str] = &["edge"];
    let fourteen = [7u16; 14];
    let fifteen = [7u16; 15];
    let last = {
        let mut l = [7u16; 15];
        l[14] = 8;
        l
    };
    vec![
        ("The longest lists.", e, mark(&fourteen, 7), mark(&fifteen, 0)),
        ("The last entry tells.", e, mark(&fourteen, 7), mark(&last, 0)),
        ("They differ in the last entry alone.", e, mark(&fifteen, 0), mark(&last, 0)),
        ("The greatest life number.", e, mark(&fifteen, 65_535), mark(&fifteen, 65_534)),
        ("The greatest entry.", e, mark(&[], 65_535), mark(&[65_535], 0)),
        ("One below the greatest entry.", e, mark(&[], 65_534), mark(&[65_535], 0)),
        (
            "The later mark goes on for several entries: only the next one counts.",
            e,
            mark(&[1], 2),
            mark(&[1, 2, 9, 9], 3),
        ),
        ("The next one is greater, those behind it do not count.", e, mark(&[1], 2), mark(&[1, 3, 2, 2], 0)),
        ("From the empty list over three signings.", e, mark(&[], 0), mark(&[0, 0, 0], 0)),
        ("The longer list on the left, signed.", e, mark(&[5, 6], 1), mark(&[5], 6)),
        ("The longer list on the left, stale.", e, frozen(&[5, 6], 1), frozen(&[5], 4)),
        ("The longer list on the left, unrelated.", e, frozen(&[5, 6], 1), frozen(&[5], 7)),
        ("News: b becomes frozen where it stands.", e, frozen(&[5], 1), mark(&[5], 1)),
        ("News: b was signed.", e, mark(&[5, 1], 0), mark(&[5], 1)),
        ("No news: a is the earlier.", e, mark(&[5], 1), mark(&[5, 1], 0)),
    ]
}

/// The newer of unrelated marks: length, n and flag count, the entries of the lists do not.
fn newer_unrelated() -> Vec<Pair> {
    let e: &[&str] = &["edge"];
    vec![
        ("Lists of one length that differ: the greater n is newer, on the right.", e, mark(&[0], 1), mark(&[5], 2)),
        ("On the left.", e, mark(&[5], 2), mark(&[0], 1)),
        ("The greater entry does not count.", e, mark(&[0], 2), mark(&[5], 1)),
        ("Nor does the flag, where n differs.", e, mark(&[0], 2), frozen(&[5], 1)),
    ]
}

pub fn suite(kit: &mut Kit) -> Suite {
    let mut suite = Suite::new("marks", ABOUT);
    for (comment, flags, a, b) in documents().into_iter().chain(mistakes()).chain(edges()).chain(newer_unrelated()) {
        suite.tests.push(test(kit, comment, flags, &a, &b));
    }
    suite
}
