//! Questions by hand, each on an image that tells one reading of docs/RULES.md, 9.3 to 9.5, from another; the answers are those of the rules.

use crate::image::{frozen, mark, Image, Map, Mark, IDLE, VANISHED};
use crate::json::Json;
use crate::kit::LIMITS;

/// What is asked: the call, the take or volume, the answer or the refusal, and what it tells.
pub type Question = (&'static str, usize, Result<Json, u8>, &'static str);

pub struct Asked {
    pub name: &'static str,
    pub told: &'static str,
    pub image: Image,
    pub questions: Vec<Question>,
}

pub fn numbers(of: &[usize]) -> Result<Json, u8> {
    Ok(of.to_vec().into())
}

/// Takes with the opening mark, of these flags; the first of a pair has the present life of the second in its state map.
fn takes(flags: &[bool], pairs: &[(usize, usize)]) -> Image {
    let own = |flag: &bool| Mark { frozen: *flag, n: 0, list: Vec::new() };
    let image = flags.iter().fold(Image::fresh(LIMITS), |image, flag| image.take(IDLE, 1, own(flag)));
    pairs.iter().fold(image, |image, (w, x)| image.has(Map::State(*w), *x, &mark(&[], 0)))
}

fn ways() -> Vec<Asked> {
    vec![
        Asked {
            name: "a longer way",
            told: "Take 4 rests on 1 and 3, 1 on 2, 2 and 3 on 0. None is frozen.",
            image: takes(&[false; 5], &[(1, 2), (2, 0), (3, 0), (4, 1), (4, 3)]),
            questions: vec![
                (
                    "impediment",
                    4,
                    numbers(&[3, 0, 0, 1]),
                    "Next is not on the shortest chain: the one by takes 1 and 2 passes the first three takes alone.",
                ),
                ("impediment", 1, numbers(&[3, 0, 0, 2]), "Asked about next, the answer is the same but for next."),
                ("obstacle", 0b1_1010, numbers(&[1, 1, 0]), "Not frozen: the lowest named take."),
            ],
        },
        Asked {
            name: "a higher way",
            told: "Take 4 rests on 1 and 2, 1 on 3, 2 and 3 on 0. None is frozen.",
            image: takes(&[false; 5], &[(1, 3), (3, 0), (2, 0), (4, 1), (4, 2)]),
            questions: vec![(
                "impediment",
                4,
                numbers(&[3, 0, 0, 2]),
                "Next is not the lowest take that reaches the one in the way: by take 1 the chain passes take 3.",
            )],
        },
    ]
}

fn lowest() -> Vec<Asked> {
    let (gone, held) = (mark(&[], 0), frozen(&[], 0));
    let lost = takes(&[true; 3], &[]).take(VANISHED, 0, gone.clone()).has(Map::State(1), 3, &gone);
    let most = frozen(&[0, 1], 0);
    let exhausted = Image::fresh([6, 4, 2]).take(IDLE, 1, most.clone()).take(IDLE, 2, most.clone());
    let exhausted = exhausted.take(IDLE, 3, held).has(Map::State(2), 0, &most).has(Map::State(2), 1, &most);
    vec![
        Asked {
            name: "two hopeless",
            told: "Takes 1 and 2 rest on take 3, which vanished, and take 2 on take 1. The others are frozen.",
            image: lost.has(Map::State(2), 3, &gone).has(Map::State(2), 1, &gone),
            questions: vec![(
                "impediment",
                2,
                numbers(&[1, 1, 3, 1]),
                "Hopeless: the lowest, not the highest, nor the asked one first.",
            )],
        },
        Asked {
            name: "two exhausted",
            told: "Takes 0 and 1 were signed as often as is allowed; take 2 rests on both; take 3 vanished.",
            image: exhausted.take(VANISHED, 0, gone),
            questions: vec![
                ("impediment", 2, numbers(&[2, 0, 0, 0]), "Exhausted: the lowest."),
                ("obstacle", 0b1010, Err(22), "22 comes before 30: take 3 vanished, take 1 is exhausted."),
                ("obstacle", 0b1_0010, Err(21), "21 comes before 30: take 4 is not opened."),
                ("obstacle", 0b0110, Err(30), "30: take 1 is exhausted, take 2 is not."),
            ],
        },
    ]
}

fn orders() -> Vec<Asked> {
    let gone = mark(&[], 0);
    let twice = takes(&[true; 4], &[]).take(VANISHED, 0, gone.clone()).take(VANISHED, 0, gone.clone());
    vec![
        Asked {
            name: "lost twice",
            told: "Take 1 has a life of take 5 in its state map and of take 4 in its creation map: both vanished.",
            image: twice.has(Map::State(1), 5, &gone).has(Map::Creation(1), 4, &gone),
            questions: vec![
                (
                    "impediment",
                    1,
                    numbers(&[1, 1, 4, 1]),
                    "Hopeless: the lowest of which it has a withdrawn life, in either map.",
                ),
                ("obstacle", 0b10, numbers(&[3, 1, 4]), "Takes are gone through in order, for each both maps."),
            ],
        },
        Asked {
            name: "the second unfrozen",
            told: "Take 0, frozen, rests on take 2; take 1 is not frozen.",
            image: takes(&[true, false, true], &[(0, 2)]),
            questions: vec![
                (
                    "obstacle",
                    0b011,
                    numbers(&[1, 1, 0]),
                    "Not frozen comes first, across all named takes: before what take 0 rests on.",
                ),
                ("obstacle", 0b001, numbers(&[2, 0, 2]), "Take 0 alone: take 2 is outside."),
                ("obstacle", 0b101, numbers(&[0, 0, 0]), "Takes 0 and 2: nothing is in the way."),
            ],
        },
    ]
}

fn maps() -> Vec<Asked> {
    let (present, longer, gone) = (frozen(&[3], 0), mark(&[4, 0], 0), mark(&[], 0));
    let hidden = Image::fresh(LIMITS).take(IDLE, 1, present.clone()).take(IDLE, 2, frozen(&[], 0));
    let hidden = hidden.take(IDLE, 3, frozen(&[], 0)).take(VANISHED, 0, gone.clone()).has(Map::State(0), 3, &gone);
    let hidden = hidden.has(Map::State(1), 0, &longer).has(Map::Creation(1), 0, &present);
    let own = takes(&[false; 2], &[(0, 1)]).has(Map::State(1), 0, &frozen(&[], 0));
    vec![
        Asked {
            name: "hidden",
            told:
                "Takes 1 and 2 have take 0's present life in one map, and a longer unrelated mark of it in the other.",
            image: hidden.has(Map::State(2), 0, &present).has(Map::Creation(2), 0, &longer),
            questions: vec![
                ("dependents", 0, numbers(&[7, 7, 0, 0]), "Each map is asked by itself, not the joined one."),
                (
                    "impediment",
                    1,
                    numbers(&[1, 0, 3, 0]),
                    "So take 1 rests on take 0, which has a lost life of take 3.",
                ),
                ("impediment", 2, numbers(&[1, 0, 3, 0]), "And so does take 2."),
            ],
        },
        Asked {
            name: "heard of itself",
            told: "Take 1 has its own mark, unfrozen, in both maps; its marks of take 0 are frozen.",
            image: own.has(Map::Creation(1), 0, &frozen(&[], 0)).has(Map::Creation(1), 1, &mark(&[], 0)),
            questions: vec![
                ("all_heard_frozen", 1, Ok(Json::Bool(true)), "Its own marks are not asked, in either map."),
                ("all_heard_frozen", 0, Ok(Json::Bool(false)), "Take 0 has an unfrozen mark of take 1."),
            ],
        },
    ]
}

/// Numbers of parcels that are equal in their low bytes, and takes in their low bits.
fn wide() -> Vec<Asked> {
    let image = takes(&[false; 16], &[]).parcel(44, 7, 1, &[]).parcel(300, 15, 2, &[]);
    vec![Asked {
        name: "wide numbers",
        told: "Sixteen takes; parcel 44 waits for take 7, parcel 300 for take 15.",
        image,
        questions: vec![
            ("offer", 7, Ok(44usize.into()), "Take 7 is offered parcel 44."),
            ("offer", 15, Ok(300usize.into()), "Take 15 is offered parcel 300."),
            ("show", 44, numbers(&[25_503, 528]), "Parcel 44 stands in the first place."),
            ("show", 300, numbers(&[26_038, 528]), "Parcel 300, which is 44 in its low byte, in the second."),
        ],
    }]
}

pub fn all() -> Vec<Asked> {
    [ways(), lowest(), orders(), maps(), wide(), crate::house::asked()].into_iter().flatten().collect()
}
