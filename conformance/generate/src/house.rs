//! A full house: sixteen takes, so that the last of them, take 15, is the addressee, the ground, the member of a volume, the one in the way. A
//! loop that ends one take early is found here. Each case says which sentence of docs/RULES.md it follows from, by its section.

use crate::asked::{numbers, Asked};
use crate::image::{frozen, mark, mark_at, Image, Map, Mark, AT_WORK, IDLE, VANISHED};
use crate::json::Json;
use crate::kit::LIMITS;
use crate::steps::Case;

/// Sixteen takes with frozen opening marks, idle; but take t as given.
pub fn but(t: usize, status: u8, own: &Mark) -> Image {
    (0..16).fold(Image::fresh(LIMITS), |image, u| match u == t {
        true => image.take(status, 90, own.clone()),
        false => image.take(IDLE, u as u32, frozen(&[], 0)),
    })
}

fn all() -> Image {
    but(16, IDLE, &mark(&[], 0))
}

/// Take 1, signed once, has these marks of take 15 in state and creation, and gets a parcel with that one.
fn heard(state: Option<&Mark>, creation: Option<&Mark>, parcel: &Mark) -> Image {
    let mut image = but(1, IDLE, &mark(&[1], 2)).saved(1, 77);
    for (map, m) in [(Map::State(1), state), (Map::Creation(1), creation)] {
        image = if let Some(m) = m { image.has(map, 15, m) } else { image };
    }
    image.parcel(0, 1, 5, &[(15, parcel.clone())])
}

/// The parcel has a mark of every take; those of takes 0 to 14 are of their present lives.
fn every(image: Image) -> Image {
    let present = |u: usize| if u == 1 { mark(&[1], 2) } else { mark(&[], 0) };
    (0..15).fold(image, |image, u| image.has(Map::Parcel(0), u, &present(u)))
}

pub fn receipts() -> Vec<Case> {
    let (old, new, other) = (&mark(&[3], 0), &mark(&[3], 1), &mark(&[4], 0));
    let (known, late) = (&frozen(&[3], 0), &mark(&[3, 0], 0));
    let own = but(15, IDLE, &mark(&[1], 2)).saved(15, 77).has(Map::State(15), 0, &mark(&[], 0));
    let mixed = heard(Some(old), None, other).has(Map::State(1), 0, new);
    vec![
        ("5.2, 2: take 15's mark of the state map is compared too.", "receipt", heard(Some(new), None, old), "receive 0 => 2"),
        ("5.2, 2: and that of the creation map.", "receipt", heard(None, Some(new), old), "receive 0 => 2"),
        ("5.2, 3: the take falls by take 15's mark in state.", "receipt", heard(Some(old), None, new), "receive 0 => 3"),
        ("5.2, 3: by that in creation.", "receipt", heard(None, Some(old), new), "receive 0 => 3"),
        ("5.2, 1: unrelated marks of take 15.", "unrelated", heard(Some(old), None, other), "receive 0 => 31"),
        ("5.2, 1: in creation.", "unrelated", heard(None, Some(old), other), "receive 0 => 31"),
        (
            "5.2, 1 before 2: a stale mark of take 0, and unrelated ones of take 15.",
            "unrelated order",
            mixed.clone().has(Map::Parcel(0), 0, old),
            "receive 0 => 31",
        ),
        (
            "5.2, 1 before 3: take 0's mark shows a fall, take 15's are unrelated.",
            "unrelated order",
            mixed.has(Map::State(1), 0, old).has(Map::Parcel(0), 0, new),
            "receive 0 => 31",
        ),
        (
            "5.2: the parcel alone has a mark of take 15, with which nothing is compared.",
            "unrelated",
            heard(None, None, new),
            "receive 0",
        ),
        (
            "5.2: the join hides take 15's mark of the state map, which is unrelated to the parcel's, behind that of creation.",
            "join-hides mistake",
            heard(Some(old), Some(&mark(&[4, 0], 0)), other),
            "receive 0",
        ),
        ("5.2, 4: news of take 15 in both maps.", "news", heard(Some(old), Some(old), known), "receive 0"),
        ("5.2, 4: news by a list that goes on with n.", "news", heard(Some(old), Some(old), late), "receive 0"),
        (
            "5.2, 4: no news by a list that goes on with another number; here the state map's mark hides the withdrawn one.",
            "news",
            heard(Some(&mark(&[3, 1], 0)), Some(old), &mark(&[3, 1], 0)),
            "receive 0",
        ),
        (
            "5.2, 4: take 15 is the addressee, and its own mark is left as it is.",
            "news-own-entry mistake news",
            own.clone().parcel(0, 15, 5, &[(0, frozen(&[], 0)), (15, frozen(&[1], 2))]),
            "receive 0; done 15; receive 0 => 24",
        ),
        (
            "5.2, 2: a parcel with a mark of every take; take 15's alone is stale.",
            "receipt",
            every(heard(Some(new), None, old)),
            "receive 0 => 2",
        ),
        ("5.2, 3: a parcel with a mark of every take; the take falls.", "receipt", every(heard(None, Some(old), new)), "receive 0 => 3"),
        ("5.2, 3: take 15 falls by its own mark.", "receipt", own.parcel(0, 15, 5, &[(15, mark(&[1], 3))]), "receive 0 => 3"),
    ]
}

pub fn signings() -> Vec<Case> {
    let (opening, held, most) = (&mark(&[], 0), &frozen(&[], 0), &frozen(&[7; 15], 0));
    vec![
        ("5.3: take 15 is not frozen.", "signing", but(15, IDLE, opening), "sign {0,15} => 5; sign {15} => 5; sign {0}"),
        (
            "5.3: all are named, and take 15 alone is not frozen, at work.",
            "signing",
            but(15, AT_WORK, opening),
            "sign {0,1,2,3,4,5,6,7,8,9,10,11,12,13,14,15} => 5; freeze 15; sign {0,1,2,3,4,5,6,7,8,9,10,11,12,13,14,15}",
        ),
        (
            "5.3: take 0 has take 15's present life in state.",
            "signing",
            all().has(Map::State(0), 15, opening),
            "sign {0} => 5; sign {0,15}",
        ),
        ("5.3: in creation.", "signing", all().has(Map::Creation(0), 15, held), "sign {0} => 5; sign {0,15}"),
        (
            "5.3: take 15 has a withdrawn life of itself, and take 14 of take 3.",
            "signing",
            all().has(Map::Creation(15), 15, &mark(&[], 1)).has(Map::State(14), 3, &mark(&[], 1)),
            "sign {15} => 5; sign {0,15} => 5; sign {3,14} => 5; sign {0}",
        ),
        ("5.3: take 15 rests on take 3.", "signing", all().has(Map::State(15), 3, held), "sign {15} => 5; sign {3,15}"),
        (
            "5.3: take 0 has a withdrawn life of take 15.",
            "signing",
            but(15, IDLE, &frozen(&[], 4)).has(Map::Creation(0), 15, &mark(&[], 3)),
            "sign {0,15} => 5; sign {15}; sign {0} => 5",
        ),
        (
            "5.3: a signed life of take 15.",
            "signing",
            but(15, IDLE, &frozen(&[0], 0)).saved(15, 3).has(Map::State(0), 15, opening),
            "sign {0}; sign {1,15}",
        ),
        ("6, 22: take 15 vanished.", "signing order", but(15, VANISHED, opening), "sign {0,15} => 22; fail 15 => 22; sign {0}"),
        ("6, 30: take 15 was signed as often as the limit.", "30-before-5 mistake", but(15, IDLE, most).saved(15, 4), "sign {15} => 30; sign {0,1,15} => 30; fail 15 => 1"),
        (
            "5.3: all sixteen are signed together; each keeps its text.",
            "signing",
            (0..16).fold(all(), |image, t| image.has(Map::State(t), (t + 1) % 16, held)),
            "sign {0,1,2,3,4,5,6,7,8,9,10,11,12,13,14} => 5; sign {0,1,2,3,4,5,6,7,8,9,10,11,12,13,14,15}; fail 15 => 3; fail 0 => 3",
        ),
        (
            "5: freeze sets the flag of the own mark in state; that in creation is left as it is, and the own mark that is sent is frozen.",
            "maps",
            but(15, AT_WORK, opening).has(Map::Creation(15), 15, opening),
            "freeze 15; send 15 to 0 text 1; sign {15}",
        ),
    ]
}

pub fn kinds() -> Vec<Case> {
    let (opening, own, newer) = (&mark(&[], 0), &mark(&[5], 0), &mark(&[5], 7));
    let busy = |t: usize| but(t, AT_WORK, own).saved(t, 6);
    let fifteen = (0..15).fold(Image::fresh(LIMITS), |image, t| match t {
        14 => image.take(AT_WORK, 9, own.clone()),
        _ => image.take(IDLE, t, opening.clone()),
    });
    let last = Image::fresh([16, 1, 15]).take(AT_WORK, 1, opening.clone()).parcel(65_534, 0, 2, &[]);
    vec![
        ("5: a write joins take 15's mark.", "maps", busy(0).has(Map::Behaviour(0), 15, opening), "write 0 text 3; done 0"),
        ("5: a read joins it, and a send sends it.", "maps", busy(0).has(Map::State(0), 15, newer), "read 0; send 0 to 15 text 3"),
        ("5: the creation map's mark of take 15 is sent.", "maps", busy(0).has(Map::Creation(0), 15, newer), "send 0 to 15 text 3; receive 0 => 4"),
        (
            "5: new opens take 15, whose creation map is made before its own mark joins the opener's behaviour.",
            "maps",
            fifteen.saved(14, 3).has(Map::Behaviour(14), 3, opening),
            "new 14 text 8; send 14 to 15 text 1; receive 0; new 14 text 8 => 25; write 15 text 2",
        ),
        (
            "5: a write takes the behaviour map's newer mark of the take itself.",
            "to-the-letter",
            busy(15).has(Map::Behaviour(15), 15, newer),
            "write 15 text 3; fail 15 => 3",
        ),
        (
            "5: a read keeps it in the behaviour map.",
            "to-the-letter",
            busy(15).has(Map::Behaviour(15), 15, newer),
            "read 15; send 15 to 15 text 2",
        ),
        (
            "6: 26 comes before 27, of a letter and of a send.",
            "last-number order",
            last,
            "letter to 0 text 1 => 26; send 0 to 0 text 1 => 26; lose 65534; letter to 0 text 1 => 27; send 0 to 0 text 1 => 27",
        ),
    ]
}

fn about_last() -> Vec<Asked> {
    let (opening, held, most) = (&mark(&[], 0), &frozen(&[], 0), &frozen(&[7; 15], 0));
    let rests = |image: Image| image.has(Map::State(0), 15, opening);
    vec![
        Asked {
            name: "take 15 not frozen",
            told: "Sixteen takes; take 15 alone is not frozen, and take 0 rests on it.",
            image: rests(but(15, IDLE, opening)),
            questions: vec![
                (
                    "obstacle",
                    1 << 15 | 1,
                    numbers(&[1, 15, 0]),
                    "9.4: the lowest named take that is not frozen is take 15.",
                ),
                ("smallest_volume", 0, Ok(Json::Null), "9.1: take 15 is not frozen."),
                ("impediment", 0, numbers(&[3, 15, 0, 15]), "9.5: take 15 is not frozen, and next."),
                ("all_heard_frozen", 0, Ok(Json::Bool(false)), "9: take 0's mark of take 15 is not frozen."),
                ("ready_count", 1, Ok(14usize.into()), "9.2: all but takes 0 and 15."),
                ("ready_count", 0, Err(34), "9: 34."),
                ("dependents", 15, numbers(&[1 << 15 | 1, 1 << 15 | 1, 0, 0]), "9.3: takes 0 and 15 hold its life."),
            ],
        },
        Asked {
            name: "take 15 exhausted",
            told: "Sixteen takes; take 15 was signed fifteen times, and take 0 rests on its present life.",
            image: but(15, IDLE, most).saved(15, 4).has(Map::Creation(0), 15, most),
            questions: vec![
                ("obstacle", 1 << 15 | 1, Err(30), "9.4: 30, as the signing."),
                ("obstacle", 1, numbers(&[2, 0, 15]), "9.4: take 15 is outside."),
                ("smallest_volume", 0, Ok(Json::Null), "9.1: take 15 has no room for a signing."),
                ("impediment", 0, numbers(&[2, 15, 0, 15]), "9.5: take 15 is exhausted."),
                ("all_heard_frozen", 0, Ok(Json::Bool(true)), "9: its mark of take 15 is frozen."),
                ("dependents", 15, numbers(&[1 << 15 | 1, 1 << 15 | 1, 0, 0]), "9.3: in creation too."),
            ],
        },
        Asked {
            name: "take 15 hopeless",
            told: "Sixteen takes; take 0 rests on take 15, which has a withdrawn life of take 14 and one of itself.",
            image: rests(but(14, VANISHED, opening)).has(Map::State(15), 14, held).has(
                Map::Creation(15),
                15,
                &mark(&[], 5),
            ),
            questions: vec![
                ("impediment", 0, numbers(&[1, 15, 14, 15]), "9.5: take 15 is hopeless, by the lowest, take 14."),
                ("smallest_volume", 0, Ok(Json::Null), "9.1: take 15 has a mark of a withdrawn life."),
                ("obstacle", 1 << 15 | 1, numbers(&[3, 15, 14]), "9.4: withdrawn."),
                ("obstacle", 1 << 14 | 1, Err(22), "9.4: 22."),
            ],
        },
        Asked {
            name: "a life of take 15 withdrawn",
            told: "Sixteen takes; takes 0 and 3 have a withdrawn life of take 15, and take 15 one of itself.",
            image: but(15, IDLE, &frozen(&[], 2))
                .has(Map::State(0), 15, opening)
                .has(Map::Creation(3), 15, &mark(&[], 1))
                .has(Map::Creation(15), 15, opening),
            questions: vec![
                ("impediment", 0, numbers(&[1, 0, 15, 0]), "9.5: hopeless by take 15."),
                ("impediment", 3, numbers(&[1, 3, 15, 3]), "9.5: by the creation map."),
                ("impediment", 15, numbers(&[1, 15, 15, 15]), "9.5: a withdrawn life of the take itself."),
                ("smallest_volume", 15, Ok(Json::Null), "9.1: and so there is no volume with it."),
                ("obstacle", 1 << 15, numbers(&[3, 15, 15]), "9.4: withdrawn, of the take itself, in creation."),
                ("obstacle", 1 << 15 | 8, numbers(&[3, 3, 15]), "9.4: from the lowest named take on."),
                ("ready_count", 1, Ok(13usize.into()), "9.2: all but takes 0, 3 and 15."),
                ("ready_count", 13, Ok(1usize.into()), "9.2: those thirteen together."),
                ("dependents", 15, numbers(&[1 << 15, 1 << 15, 0, 0]), "9.3: nobody else holds its present life."),
            ],
        },
    ]
}

/// Which take holds the present life of which, all frozen but the last named.
fn chained(pairs: &[(usize, usize)], last: usize) -> Image {
    pairs.iter().fold(but(last, IDLE, &mark(&[], 0)), |image, (w, u)| image.has(Map::State(*w), *u, &mark(&[], 0)))
}

/// Each take with the next, and the last with the first.
const ROW: [(usize, usize); 16] = {
    let mut row = [(0, 0); 16];
    let mut t = 0;
    while t < 16 {
        row[t] = (t, (t + 1) % 16);
        t += 1;
    }
    row
};

/// Each take has the next one's own mark in its state map.
fn row(image: Image) -> Image {
    let own = |image: &Image, u: usize| image.0[mark_at(Map::State(u), u)..][..33].to_vec();
    ROW.iter().fold(image, |image, (w, u)| {
        let mark = own(&image, *u);
        image.put(mark_at(Map::State(*w), *u), &mark)
    })
}

/// Sixteen frozen takes, of which these were signed fifteen times.
fn exhausted(takes: &[usize]) -> Image {
    (0..16).fold(Image::fresh(LIMITS), |image, t| match takes.contains(&t) {
        true => image.take(IDLE, 1, frozen(&[7; 15], 0)).saved(t, 4),
        false => image.take(IDLE, 1, frozen(&[], 0)),
    })
}

fn ways() -> Vec<Asked> {
    let held = &frozen(&[], 0);
    vec![
        Asked {
            name: "two ways to 6",
            told: "Take 9 rests on 0 and 1, 0 on 5, 5 and 1 on 6, 6 on 8, which alone is not frozen.",
            image: chained(&[(9, 0), (0, 5), (5, 6), (6, 8), (9, 1), (1, 6)], 8),
            questions: vec![
                (
                    "impediment",
                    9,
                    numbers(&[3, 8, 0, 1]),
                    "9.5: the greatest between them is 6 either way; to 6 it is 1, not 5.",
                ),
                ("impediment", 1, numbers(&[3, 8, 0, 6]), "9.5: asked about next, the same but for next."),
                ("smallest_volume", 9, Ok(Json::Null), "9.1: take 8 is not frozen."),
                ("dependents", 8, numbers(&[0b1_0100_0000, 0b11_0110_0011, 0, 0]), "9.3: through all of them."),
            ],
        },
        Asked {
            name: "outside and not frozen",
            told: "Sixteen takes; take 0 rests on take 15, take 5 alone is not frozen.",
            image: chained(&[(0, 15)], 5).has(Map::Creation(0), 7, &mark(&[], 0)),
            questions: vec![
                ("obstacle", 0b10_0001, numbers(&[1, 5, 0]), "9.4: not frozen comes first, across all named takes."),
                ("obstacle", 1, numbers(&[2, 0, 7]), "9.4: the first mark is that of take 7, in creation."),
                ("obstacle", 0b1000_0001, numbers(&[2, 0, 15]), "9.4: then take 15's."),
                ("all_heard_frozen", 0, Ok(Json::Bool(false)), "9: neither is frozen."),
            ],
        },
        Asked {
            name: "a child of take 15",
            told: "Sixteen takes; take 0 has an unfrozen mark of take 15 in creation alone.",
            image: all().has(Map::Creation(0), 15, &mark(&[], 0)).has(Map::State(0), 15, held),
            questions: vec![
                ("all_heard_frozen", 0, Ok(Json::Bool(false)), "9: both maps are asked."),
                ("all_heard_frozen", 15, Ok(Json::Bool(true)), "9: yes if there is none."),
                ("smallest_volume", 0, Ok(32_769usize.into()), "9.1: takes 0 and 15."),
            ],
        },
        Asked {
            name: "two exhausted of sixteen",
            told: "Sixteen takes; takes 3 and 15 were signed fifteen times, and take 0 rests on both.",
            image: exhausted(&[3, 15]).has(Map::State(0), 3, &frozen(&[7; 15], 0)).has(
                Map::State(0),
                15,
                &frozen(&[7; 15], 0),
            ),
            questions: vec![
                ("impediment", 0, numbers(&[2, 3, 0, 3]), "9.5: the lowest exhausted take."),
                ("obstacle", 1 << 15 | 1, Err(30), "9.4: 30."),
                ("ready_count", 1, Ok(13usize.into()), "9.2: all but takes 0, 3 and 15."),
            ],
        },
        Asked {
            name: "all sixteen, not frozen",
            told: "Each take rests on the next alone, take 15 on take 0; take 15 alone is not frozen.",
            image: chained(&ROW, 15),
            questions: vec![
                ("impediment", 0, numbers(&[3, 15, 0, 1]), "9.5: the last of all sixteen."),
                ("impediment", 3, numbers(&[3, 15, 0, 4]), "9.5: from take 3, next is 4."),
                ("dependents", 15, numbers(&[3 << 14, 65_535, 0, 0]), "9.3: all sixteen."),
            ],
        },
        Asked {
            name: "all sixteen, exhausted",
            told: "Each take rests on the next alone, take 15 on take 0; take 15 alone is exhausted.",
            image: row(exhausted(&[15])),
            questions: vec![
                ("impediment", 0, numbers(&[2, 15, 0, 1]), "9.5: the last of all sixteen."),
                ("impediment", 14, numbers(&[2, 15, 0, 15]), "9.5: from take 14, next is 15."),
            ],
        },
        Asked {
            name: "all sixteen, hopeless",
            told:
                "Each take rests on the next alone, take 15 on take 0; take 15 alone has a withdrawn life, of take 4.",
            image: row(all()).has(Map::State(15), 4, &mark(&[9], 0)),
            questions: vec![
                ("impediment", 0, numbers(&[1, 15, 4, 1]), "9.5: the last of all sixteen."),
                ("impediment", 9, numbers(&[1, 15, 4, 10]), "9.5: from take 9, next is 10."),
            ],
        },
        Asked {
            name: "by take 0",
            told: "Takes 7 and 9 rest on 0, 0 on 3, which alone is not frozen. Each has a mark of itself in creation.",
            image: chained(&[(9, 0), (7, 0), (0, 3)], 3)
                .has(Map::Creation(7), 7, held)
                .has(Map::Creation(9), 9, held)
                .has(Map::Creation(0), 0, held),
            questions: vec![
                ("impediment", 9, numbers(&[3, 3, 0, 0]), "9.5: the chain passes take 0."),
                ("impediment", 7, numbers(&[3, 3, 0, 0]), "9.5: so does this one."),
                ("impediment", 0, numbers(&[3, 3, 0, 3]), "9.5: from take 0."),
                ("dependents", 3, numbers(&[0b1001, 0b10_1000_1001, 0, 0]), "9.3: takes 7 and 9 through take 0."),
                ("dependents", 0, numbers(&[0b10_1000_0001, 0b10_1000_0001, 0, 0]), "9.3: takes 7 and 9."),
            ],
        },
        Asked {
            name: "own marks in creation",
            told: "Takes 0, 1 and 2 have their own marks in creation too, and no other take has; 1 rests on 0, 2 on 1, 5 on 2.",
            image: chained(&[(1, 0), (2, 1), (5, 2)], 0)
                .has(Map::Creation(0), 0, held)
                .has(Map::Creation(1), 1, held)
                .has(Map::Creation(2), 2, held),
            questions: vec![
                ("dependents", 0, numbers(&[0b11, 0b10_0111, 0, 0]), "9.3: take 5 too, which has no own mark in creation."),
                ("impediment", 5, numbers(&[3, 0, 0, 2]), "9.5: next is 2."),
            ],
        },
        Asked {
            name: "by take 15",
            told: "Takes 0 and 5 rest on 15, 15 on 2, 2 on 1, which alone is not frozen.",
            image: chained(&[(0, 15), (15, 2), (2, 1), (5, 15)], 1),
            questions: vec![
                ("impediment", 0, numbers(&[3, 1, 0, 15]), "9.5: the chain passes take 15."),
                ("impediment", 15, numbers(&[3, 1, 0, 2]), "9.5: from take 15."),
                ("impediment", 5, numbers(&[3, 1, 0, 15]), "9.5: take 5 rests on take 15 too."),
                ("dependents", 1, numbers(&[0b110, 1 << 15 | 0b10_0111, 0, 0]), "9.3: through take 15."),
                ("obstacle", 1 << 15 | 0b101, numbers(&[2, 2, 1]), "9.4: take 1 is outside."),
            ],
        },
        Asked {
            name: "down to take 15",
            told: "Take 14 rests on 3, 3 on 7, 7 on 15, which alone is not frozen.",
            image: chained(&[(14, 3), (3, 7), (7, 15)], 15),
            questions: vec![
                ("impediment", 14, numbers(&[3, 15, 0, 3]), "9.5: the take in the way is take 15."),
                (
                    "dependents",
                    15,
                    numbers(&[1 << 15 | 1 << 7, 1 << 15 | 1 << 14 | 1 << 7 | 1 << 3, 0, 0]),
                    "9.3: through.",
                ),
            ],
        },
        Asked {
            name: "volumes up to take 15",
            told: "Sixteen frozen takes; take 3 rests on 15, take 15 on 8.",
            image: all().has(Map::State(3), 15, held).has(Map::Creation(15), 8, held),
            questions: vec![
                ("smallest_volume", 3, Ok(33_032usize.into()), "9.1: takes 3, 8 and 15."),
                ("smallest_volume", 15, Ok(33_024usize.into()), "9.1: takes 8 and 15."),
                ("ready_count", 1, Ok(14usize.into()), "9.2: all but takes 3 and 15."),
                ("ready_count", 16, Ok(1usize.into()), "9.2: all together."),
                ("impediment", 3, numbers(&[0, 0, 0, 0]), "9.5: nothing."),
            ],
        },
    ]
}

/// Thirty-two parcels, all with take 15's life; every take at work with it.
fn crowd() -> Vec<Asked> {
    let own = &mark(&[], 0);
    let image = (0..16).fold(Image::fresh(LIMITS), |image, t| image.take(AT_WORK, t, own.clone()));
    let image = (0..16).fold(image, |image, t| image.has(Map::Behaviour(t), 15, own));
    let parcels =
        (0..32u16).fold(image, |image, k| image.parcel(10 * k, if k == 31 { 15 } else { 2 }, 1, &[(15, own.clone())]));
    let first = Image::fresh(LIMITS).take(IDLE, 1, own.clone()).parcel(0, 0, 1, &[]);
    vec![
        Asked {
            name: "a crowd",
            told: "Sixteen takes at work with take 15's life, thirty-two parcels with it: the last is for take 15.",
            image: parcels,
            questions: vec![
                ("dependents", 15, numbers(&[1 << 15, 1 << 15, 65_535, 32]), "9.3: parcels to anyone are counted."),
                ("dependents", 2, numbers(&[4, 4, 0, 0]), "9.3: of take 2 nothing is carried."),
                ("offer", 15, Ok(310usize.into()), "9: the parcel in the last place."),
                ("offer", 2, Ok(0usize.into()), "9, offer: parcel 0 is an answer, and not none."),
                ("offer", 3, Ok(Json::Null), "9: none."),
                ("show", 310, numbers(&[42_088, 528]), "9: the last place."),
                ("show", 300, numbers(&[41_553, 528]), "9: the one before."),
            ],
        },
        Asked {
            name: "another crowd",
            told: "Take 15 alone is at work with take 0's life; thirty-two parcels have it, the last is for take 9.",
            image: (0..32u16).fold(but(15, AT_WORK, own).has(Map::Behaviour(15), 0, own), |image, k| {
                image.parcel(256 * k + 5, if k == 31 { 9 } else { 1 }, 1, &[(0, own.clone())])
            }),
            questions: vec![
                ("dependents", 0, numbers(&[1, 1, 1 << 15, 32]), "9.3: unfinished and carried."),
                ("offer", 9, Ok(7_941usize.into()), "9: the parcel in the last place."),
                ("show", 261, numbers(&[26_038, 528]), "9: 261 is not 5."),
                ("show", 7_941, numbers(&[42_088, 528]), "9: 7,941 is not 5."),
                ("show", 6, Err(24), "9: 24."),
            ],
        },
        Asked {
            name: "parcel 0",
            told: "One take, for which parcel 0 waits.",
            image: first.clone(),
            questions: vec![
                ("offer", 0, Ok(0usize.into()), "9, offer: parcel 0."),
                ("show", 0, numbers(&[25_503, 528]), "9, show: parcel 0."),
            ],
        },
        Asked {
            name: "no parcel 0",
            told: "One take, for which parcel 5 waits: the free places have no number.",
            image: Image::fresh(LIMITS).take(IDLE, 1, own.clone()).parcel(5, 0, 1, &[]),
            questions: vec![
                ("show", 0, Err(24), "9, show: no parcel has the number 0."),
                ("offer", 0, Ok(5usize.into()), "9, offer."),
            ],
        },
    ]
}

pub fn asked() -> Vec<Asked> {
    [about_last(), ways(), crowd()].into_iter().flatten().collect()
}
