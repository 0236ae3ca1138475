//! What is left to do (docs/RULES.md, 9.10): plans by hand, then of small random sessions. Every plan is run and must do what the rules say.
//! Of one small session in twenty every list of up to DEPTH steps is tried: a take of which hopeless or exhausted is said is signed by none
//! of them in its life, and a take with a plan of so many steps by one.

use crate::image::{frozen, mark, words, Image, Map, AT_WORK, IDLE, VANISHED};
use crate::kit::{grown, texts, Kit, Suite, Test, LIMITS};
use crate::notation;
use bench::generate::{self, number, packed, take_at, waiting, Random, FIRST_PARCEL, MARK, PARCEL, STATE, TAKE};
use bench::ledger::{self, Impediment, IMAGE, PLAN, TAKES};
use bench::library;
use std::collections::HashSet;

const ABOUT: &str = "What is left to do so that a take is signed: the steps, zeros after them up to 392 bytes (or the room), and how many.";

/// A take, its plan or the refusal, and what it tells.
type Question = (usize, Result<&'static str, u8>, &'static str);

struct Asked {
    name: &'static str,
    told: &'static str,
    image: Vec<u8>,
    questions: Vec<Question>,
}

fn list(text: &str) -> Vec<u8> {
    notation::lines(text).iter().flat_map(|l| l.step.to_be_bytes()).collect()
}

const WORK: &str = "root text 1; root text 2; root text 3; letter to 0 text 1; receive 0; send 0 to 1 text 2; receive 1; write 1 text 3";

fn grown_ones() -> Vec<Asked> {
    let after = |limits, more: &str| grown(limits, &list(&format!("{WORK}; {more}")));
    vec![
        Asked {
            name: "at work",
            told: "Take 0 is at work, take 1 too and rests on take 0; take 2 is idle. None is frozen.",
            image: after(LIMITS, ""),
            questions: vec![
                (0, Ok("freeze 0; sign {0}"), "At work: it is frozen and signed."),
                (1, Ok("freeze 0; freeze 1; sign {0,1}"), "What it rests on is frozen and signed with it."),
                (
                    2,
                    Ok("letter to 2 text 0; receive 2; freeze 2; sign {2}"),
                    "Idle: a letter wakes it, which gets the next number.",
                ),
                (3, Err(21), "Not opened."),
            ],
        },
        Asked {
            name: "idle",
            told: "The same, and take 0 is done.",
            image: after(LIMITS, "done 0"),
            questions: vec![(
                1,
                Ok("letter to 0 text 0; receive 2; freeze 0; freeze 1; sign {0,1}"),
                "The idle take is woken, the other is not.",
            )],
        },
        Asked {
            name: "both idle",
            told: "The same, and take 1 is done too; one parcel waits, and two may.",
            image: after([3, 2, 2], "done 0; done 1; letter to 2 text 1"),
            questions: vec![(
                1,
                Ok("letter to 0 text 0; receive 3; freeze 0; letter to 1 text 0; receive 4; freeze 1; sign {0,1}"),
                "Each letter has the next number, and is received before the next: one free place is enough.",
            )],
        },
        Asked {
            name: "frozen and idle",
            told: "Take 0 is frozen and done, take 1 frozen and at work.",
            image: after(LIMITS, "freeze 0; done 0; freeze 1"),
            questions: vec![
                (1, Ok("sign {0,1}"), "Frozen takes are left as they are, idle or not."),
                (0, Ok("sign {0}"), "Take 0 rests on nobody else."),
            ],
        },
        Asked {
            name: "signed ground",
            told: "Take 0 was signed after it sent, and woken again.",
            image: after(LIMITS, "freeze 0; sign {0}; letter to 0 text 5; receive 2"),
            questions: vec![(1, Ok("freeze 1; sign {1}"), "A signed life needs no signing, and its take is left out.")],
        },
    ]
}

fn without_steps() -> Vec<Asked> {
    let after = |limits, more: &str| grown(limits, &list(&format!("{WORK}; {more}")));
    let full = after([3, 2, 2], "done 0; letter to 2 text 1; letter to 2 text 2");
    vec![
        Asked {
            name: "hopeless",
            told: "Take 0 failed, and take 1 rested on it.",
            image: after(LIMITS, "fail 0"),
            questions: vec![(1, Ok(""), "Hopeless: no steps."), (0, Err(22), "Vanished.")],
        },
        Asked {
            name: "hopeless below",
            told: "Take 1 sent to take 2, which wrote on it; then take 0 failed, on which take 1 rested.",
            image: after(LIMITS, "send 1 to 2 text 4; receive 2; write 2 text 5; freeze 2; fail 0"),
            questions: vec![(2, Ok(""), "Hopeless, by a take that it rests on.")],
        },
        Asked {
            name: "exhausted",
            told: "Take 0 has the one signing that is allowed, and take 1 rests on its present life.",
            image: after([3, 4, 1], "done 1; freeze 0; sign {0}; letter to 0 text 1; receive 2; send 0 to 2 text 5; receive 3; write 2 text 6"),
            questions: vec![(0, Ok(""), "Exhausted: no steps."), (2, Ok(""), "It rests on one that is: no steps.")],
        },
        Asked {
            name: "no place",
            told: "Take 0 is done, and as many parcels wait as may.",
            image: full,
            questions: vec![
                (1, Ok(""), "A letter is needed, and there is no place for it: no steps."),
                (2, Ok(""), "Nor for one to take 2, though two parcels wait for it."),
            ],
        },
        Asked {
            name: "no place, no letter",
            told: "As many parcels wait as may, and takes 0 and 1 are at work.",
            image: after([3, 1, 2], "letter to 2 text 1"),
            questions: vec![(1, Ok("freeze 0; freeze 1; sign {0,1}"), "No letter is needed, so no place is."), (0, Ok("freeze 0; sign {0}"), "Nor for take 0 alone.")],
        },
    ]
}

/// A take with the opening mark and this status.
fn opened(image: Image, status: u8) -> Image {
    image.take(status, 1, mark(&[], 0))
}

fn numbers() -> Vec<Asked> {
    let two = opened(opened(Image::fresh(LIMITS), IDLE), IDLE).has(Map::State(1), 0, &mark(&[], 0));
    let busy = opened(Image::fresh(LIMITS), AT_WORK);
    vec![
        Asked {
            name: "two numbers",
            told: "Takes 0 and 1 are idle, take 1 rests on take 0; 65,533 is the next number.",
            image: two.clone().next(65_533).0,
            questions: vec![(
                1,
                Ok("letter to 0 text 0; receive 65533; freeze 0; letter to 1 text 0; receive 65534; freeze 1; sign {0,1}"),
                "Numbers end at 65,534, and two are left.",
            )],
        },
        Asked {
            name: "one number",
            told: "The same; 65,534 is the next number.",
            image: two.next(65_534).0,
            questions: vec![
                (1, Ok(""), "Two letters are needed, and one number is left: no steps."),
                (0, Ok("letter to 0 text 0; receive 65534; freeze 0; sign {0}"), "One letter is needed."),
            ],
        },
        Asked {
            name: "no number",
            told: "Take 0 is at work, take 1 idle; no number is left.",
            image: opened(busy, IDLE).next(65_535).0,
            questions: vec![
                (0, Ok("freeze 0; sign {0}"), "No letter is needed, so no number is."),
                (1, Ok(""), "A letter is needed: no steps."),
            ],
        },
    ]
}

/// Images that no session grows, and the longest plan.
fn others() -> Vec<Asked> {
    let chain = (0..16).fold(Image::fresh([16, 1, 1]), |image, _| opened(image, IDLE));
    let chain = (1..16).fold(chain, |image, t| image.has(Map::Creation(t), t - 1, &frozen(&[], 0)));
    let circle = (0..3).fold(Image::fresh(LIMITS), |image, _| opened(image, AT_WORK)).take(VANISHED, 0, mark(&[], 0));
    let on = |image: Image, t: usize, u: usize| image.has(Map::State(t), u, &mark(&[], 0));
    let circle = on(on(on(circle, 0, 2), 2, 1), 1, 0);
    let far = (0..16).fold(Image::fresh(LIMITS), |image, t| opened(image, if t == 15 { IDLE } else { AT_WORK }));
    vec![
        Asked {
            name: "chain",
            told: "Sixteen idle takes, each with the life of the one before in its creation map, frozen there.",
            image: chain.0,
            questions: vec![(2, Ok("letter to 0 text 0; receive 0; freeze 0; letter to 1 text 0; receive 1; freeze 1; letter to 2 text 0; receive 2; freeze 2; sign {0,1,2}"),
                "It rests on take 0 through take 1; the flag of a mark in a map says nothing of the take.")],
        },
        Asked {
            name: "circle",
            told: "Take 0 rests on take 2, take 2 on take 1, take 1 on take 0, all at work; take 3 vanished.",
            image: circle.0,
            questions: vec![(0, Ok("freeze 0; freeze 1; freeze 2; sign {0,1,2}"), "In rising order, whoever rests on whom.")],
        },
        Asked {
            name: "the last take",
            told: "Sixteen takes, take 15 idle and on take 8, the others at work.",
            image: on(far, 15, 8).0,
            questions: vec![(15, Ok("freeze 8; letter to 15 text 0; receive 0; freeze 15; sign {8,15}"), "Take 15, in the volume's high byte.")],
        },
    ]
}

struct Builder<'a> {
    kit: &'a mut Kit,
    suite: Suite,
}

impl Builder<'_> {
    /// Asks both ledgers, runs the plan, and adds the test.
    fn ask(&mut self, name: &str, image: &[u8], take: usize, comment: &str) -> Result<Vec<u8>, u8> {
        let steps = self.kit.plan(image, take, PLAN).map(|(n, out)| out[..8 * n].to_vec());
        if let Ok(steps) = &steps {
            runs(image, take, steps);
        }
        self.add(name, take, comment, &steps, Test::new(comment, &["query"], "plan").with("image", name));
        steps
    }

    fn add(&mut self, name: &str, take: usize, comment: &str, steps: &Result<Vec<u8>, u8>, test: Test) {
        assert!(!name.is_empty() && !comment.is_empty());
        let test = test.with("take", take).with("refusal", *steps.as_ref().err().unwrap_or(&0) as usize);
        self.suite.tests.push(match steps {
            Ok(steps) if steps.is_empty() => test.with("answer", 0usize).with("out", ""),
            Ok(steps) => test.with("answer", steps.len() / 8).with("text", texts(steps)).with("out", words(steps)),
            Err(_) => test.with("answer", 0usize),
        });
    }

    fn asked(&mut self, asked: &Asked) {
        self.suite.good(asked.name, asked.told, &asked.image);
        for (take, expected, comment) in &asked.questions {
            let steps = self.ask(asked.name, &asked.image, *take, comment);
            let wanted = expected.map(list);
            assert!(steps == wanted, "{}: take {take}: {:?}", asked.name, steps.map(|s| texts(&s)));
        }
    }

    fn refused(&mut self, image: &[u8], comment: &str, take: usize, length: usize, room: usize) {
        let mut lent = image.to_vec();
        lent.resize(length, 0);
        let steps = self.kit.plan(&lent, take, room).map(|(n, out)| out[..8 * n].to_vec());
        assert!(steps.is_err(), "{comment}");
        let mut test = Test::new(comment, &["query", "refusal"], "plan").with("image", "at work");
        if length != IMAGE {
            test = test.with("length", length);
        }
        self.add("at work", take, comment, &steps, test.with("room", room));
    }
}

/// The claims of 9.10 about a plan that is run.
fn runs(image: &[u8], take: usize, steps: &[u8]) {
    let Some(last) = steps.chunks(8).last() else { return };
    let (mut after, mut replies) = (image.to_vec(), vec![0xa5; steps.len()]);
    assert!(library::run(&mut after, steps, 0, steps.len(), &mut replies) == 0, "the plan's run is refused");
    assert!(replies.chunks(8).all(|r| r[0] == 0), "a step of the plan is not answered with 0");
    let volume = u16::from_be_bytes([last[2], last[3]]);
    assert!(last[0] == 0xc0 && volume >> take & 1 == 1, "the plan does not sign the take");
    for u in 0..TAKES {
        let at = take_at(u);
        assert!(after[at + 1..at + 5] == image[at + 1..at + 5], "a plan changes a text");
        assert!(
            volume >> u & 1 == 1 || after[at..at + TAKE] == image[at..at + TAKE],
            "a plan changes a take that it does not sign"
        );
    }
    assert!(after[FIRST_PARCEL..] == image[FIRST_PARCEL..], "a plan changes the parcels");
}

/// How many steps are tried one after the other.
const DEPTH: usize = 5;

/// The life of a take: its own mark without the frozen flag.
fn life(image: &[u8], t: usize) -> Vec<u8> {
    let own = take_at(t) + STATE + MARK * t;
    let mut mark = image[own..own + MARK].to_vec();
    mark[0] &= 0xbf;
    mark
}

/// Every step worth trying on a small image: each kind with each take, addressee and waiting number, and each volume.
fn possible(image: &[u8]) -> Vec<u64> {
    let takes = generate::opened(image);
    let mut steps = vec![packed(0, 0, 0, 0, 0)];
    for t in 0..takes {
        steps.push(packed(1, t, 0, 0, 0));
        steps.extend((3..=10).filter(|k| *k != 4).map(|k| packed(k, t, 0, 0, 0)));
        steps.extend((0..takes).map(|u| packed(4, t, u, 0, 0)));
    }
    steps
        .extend((0..waiting(image)).flat_map(|k| [2, 11].map(|kind| packed(kind, 0, 0, number(image, k) as usize, 0))));
    steps.extend((1..1 << takes).map(|volume| packed(12, 0, 0, volume, 0)));
    steps
}

/// What a small image has that is not zero: the head, the takes opened, the parcels waiting.
fn essence(image: &[u8]) -> Vec<u8> {
    let (takes, parcels) = (take_at(generate::opened(image)), PARCEL * waiting(image));
    [&image[..takes], &image[FIRST_PARCEL..FIRST_PARCEL + parcels]].concat()
}

/// The fewest steps, up to DEPTH, of which the last signs the take in the life that it has.
fn searched(image: &[u8], take: usize) -> Option<usize> {
    let (life_now, mut seen, mut front) = (life(image, take), HashSet::new(), vec![image.to_vec()]);
    for steps in 1..=DEPTH {
        let mut next = Vec::new();
        for from in &front {
            for step in possible(from) {
                let mut to = from.clone();
                let reply = ledger::step_unchecked(&mut to, step) >> 56;
                if step >> 60 == 12 && reply == 0 && step >> (32 + take) & 1 == 1 {
                    return Some(steps);
                }
                if reply < 20 && life(&to, take) == life_now && seen.insert(essence(&to)) {
                    next.push(to);
                }
            }
        }
        front = next;
    }
    None
}

/// A small session: one to three takes, one or two parcels, one or two signings.
fn small(r: &mut Random) -> Vec<u8> {
    let mut image = vec![0; IMAGE];
    ledger::begin(&mut image, 1 + r.below(3), 1 + r.below(2), 1 + r.below(2));
    let mix = [generate::SIGNING, generate::FALLING, generate::MIXED][r.below(3)];
    let n = 6 + r.below(30);
    generate::steps(r, &mix, &mut image, n);
    image
}

const STORED: u64 = 12;
const SESSIONS: u64 = 400;

/// Random sessions: the first of them stored; each take of each asked and run; one session in twenty searched.
fn random(b: &mut Builder) {
    let (mut planned, mut doomed) = (0, 0);
    for seed in 0..SESSIONS {
        let image = small(&mut Random(seed));
        let name = format!("random {seed}");
        if seed < STORED {
            b.suite.good(&name, "A random session.", &image);
        }
        for take in 0..generate::opened(&image) {
            let steps = match b.kit.plan(&image, take, PLAN) {
                Err(_) => continue,
                Ok((n, out)) => out[..8 * n].to_vec(),
            };
            if seed < STORED {
                b.ask(&name, &image, take, "Of a random session.").unwrap();
            }
            runs(&image, take, &steps);
            let lasts =
                matches!(ledger::impediment(&image, take), Ok(Impediment::Hopeless(..) | Impediment::Exhausted(..)));
            assert!(!lasts || steps.is_empty());
            let n = steps.len() / 8;
            if seed % 20 == 0 && (lasts || n > 0 && n <= DEPTH) {
                let found = searched(&image, take);
                assert!(
                    if lasts { found.is_none() } else { found.is_some_and(|f| f <= n) },
                    "seed {seed}, take {take}: {found:?}"
                );
                *if lasts { &mut doomed } else { &mut planned } += 1;
            }
        }
    }
    assert!(planned >= 5 && doomed >= 5, "searched: {planned} with a plan, {doomed} without");
}

pub fn suite(kit: &mut Kit) -> Suite {
    let mut b = Builder { kit, suite: Suite::new("plan", ABOUT) };
    let all = [grown_ones(), without_steps(), numbers(), others()];
    all.iter().flatten().for_each(|asked| b.asked(asked));
    let chain = all[3][0].image.clone();
    let steps = b.ask("chain", &chain, 15, "The longest plan: 49 steps.").unwrap();
    assert!(steps.len() == PLAN && steps.chunks(8).enumerate().all(|(i, s)| s[0] >> 4 == [1, 2, 7][i % 3] || i == 48));
    let work = all[0][0].image.clone();
    b.refused(&work, "16 comes first.", 9, IMAGE - 1, 0);
    b.refused(&work, "16: one byte over.", 0, IMAGE + 1, PLAN);
    b.refused(&work, "21 comes before 18.", 3, IMAGE, PLAN - 8);
    b.refused(&work, "65,536 is not take 0.", 65_536, IMAGE, PLAN);
    b.refused(&work, "18: room for one step less.", 0, IMAGE, PLAN - 8);
    b.refused(&work, "18: one byte over.", 0, IMAGE, PLAN + 1);
    b.refused(&work, "18: no room at all.", 0, IMAGE, 0);
    let mut ill = work.clone();
    ill[3] = 1;
    b.suite.image("ill-formed", "The same as at work, but byte 3 is 1.", &ill);
    for (comment, take, room) in [("19 comes before 21.", 9, PLAN), ("19 comes before 18.", 0, 0)] {
        let steps = b.kit.plan(&ill, take, room).map(|(n, out)| out[..8 * n].to_vec());
        let test = Test::new(comment, &["query", "refusal"], "plan").with("image", "ill-formed");
        b.add("ill-formed", take, comment, &steps, test.with("room", room));
    }
    let gone = all[1][0].image.clone();
    let steps = b.kit.plan(&gone, 0, 8).map(|(n, out)| out[..8 * n].to_vec());
    let test = Test::new("22 comes before 18.", &["query", "refusal"], "plan").with("image", "hopeless");
    b.add("hopeless", 0, "22 comes before 18.", &steps, test.with("room", 8usize));
    random(&mut b);
    b.suite
}
