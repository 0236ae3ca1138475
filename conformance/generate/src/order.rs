//! Whether two steps may change places (docs/RULES.md, 9.11), by hand: for each clause two steps that meet in it
//! alone and whose order shows, and neighbours that do not meet. Independent steps are run in both orders; then random pairs of both sorts.

use crate::image::{frozen, mark, words, Image, Map, AT_WORK, IDLE};
use crate::kit::{grown, texts, Kit, Suite, Test, LIMITS};
use crate::notation;
use bench::generate::{self, Random};
use bench::ledger::{self, IMAGE};
use bench::order::{self, CHANGES, SEES};
use std::collections::BTreeSet;

const ABOUT: &str = "Whether two steps are independent on an image: then both orders leave the same image, and each step has the same reply.";

/// How two steps stand to each other.
#[derive(Clone, Copy, PartialEq)]
enum Said {
    /// Independent.
    Free,
    /// They meet, and the order shows.
    Shows,
    /// They meet, though on this image the order does not show.
    Meets,
}

use Said::*;

/// Two steps, what is said of them, and why.
type Pair = (&'static str, &'static str, Said, &'static str);

struct Asked {
    name: &'static str,
    told: &'static str,
    image: Vec<u8>,
    pairs: Vec<Pair>,
}

fn list(text: &str) -> Vec<u8> {
    notation::lines(text).iter().flat_map(|l| l.step.to_be_bytes()).collect()
}

const WORK: &str = "root text 1; root text 2; root text 3; letter to 0 text 4; receive 0; letter to 1 text 5; receive 1; letter to 2 text 6; letter to 2 text 7";

fn takes_and_parcels() -> Asked {
    Asked {
        name: "work",
        told: "Takes 0 and 1 are at work; parcels 2 and 3 wait for take 2, which is idle; the next number is 4.",
        image: grown(LIMITS, &list(WORK)),
        pairs: vec![
            ("write 0 text 8", "write 1 text 9", Free, "Edits of different takes."),
            ("write 0 text 8", "read 0", Shows, "Two steps of one take: the read gives the text."),
            ("write 0 text 8", "send 0 to 1 text 9", Meets, "A send sees its take."),
            ("send 0 to 1 text 9", "write 1 text 8", Free, "A send sees of its addressee only whether it is opened."),
            ("send 0 to 2 text 9", "freeze 1", Free, "And changes nothing of its own take."),
            ("send 0 to 2 text 8", "send 1 to 2 text 9", Shows, "Two sends: the first gets number 4."),
            ("letter to 0 text 8", "letter to 1 text 9", Shows, "Two letters as well."),
            ("letter to 0 text 8", "read 0", Free, "A letter sees of its addressee only whether it is opened."),
            ("letter to 0 text 8", "receive 2", Free, "A parcel is made and another received, with places left."),
            ("letter to 2 text 8", "receive 4", Shows, "The receipt is of the parcel that is made."),
            ("receive 2", "receive 3", Shows, "Two receipts by one take: the second is refused with 23."),
            ("receive 2", "lose 2", Shows, "Both take the same parcel."),
            ("receive 2", "lose 3", Free, "Different parcels, and places left."),
            ("lose 2", "lose 3", Free, "Different parcels."),
            ("receive 2", "freeze 2", Shows, "The receipt sets take 2 to work."),
            ("receive 2", "freeze 0", Free, "The receipt is by another take."),
            ("root text 8", "root text 9", Shows, "Each opens the next take."),
            ("root text 8", "new 0 text 9", Shows, "So does new."),
            ("new 0 text 8", "write 1 text 9", Free, "New sees its opener and the next take."),
            ("new 0 text 8", "done 0", Shows, "The opener is then idle."),
            ("root text 8", "letter to 3 text 9", Shows, "The addressee is opened by the other: else 21."),
            ("root text 8", "send 0 to 3 text 9", Shows, "The same for a send."),
            ("root text 8", "letter to 2 text 9", Free, "Another take is opened."),
            ("new 0 text 8", "letter to 3 text 9", Shows, "The addressee is opened by new."),
            ("new 0 text 8", "send 1 to 3 text 9", Shows, "The same for a send."),
            ("lose 3", "lose 3", Shows, "The second finds no parcel."),
            ("root text 8", "write 3 text 9", Shows, "Take 3 is refused with 21, and then with 23."),
        ],
    }
}

fn refused_ones() -> Asked {
    Asked {
        name: "work again",
        told: "The same session.",
        image: grown(LIMITS, &list(WORK)),
        pairs: vec![
            ("raw d000000000000000", "write 0 text 9", Free, "A malformed step sees nothing, and changes nothing."),
            ("raw 7000000000000001", "freeze 0", Free, "So does a freeze with a text."),
            ("raw 5000000000000001", "write 0 text 9", Free, "And a read with a text: it does not see take 0."),
            ("sign {1}", "send 1 to 2 text 9", Free, "Both see take 1, and neither changes it."),
            ("receive 9", "lose 9", Free, "Both are refused, whatever comes before: nothing is changed."),
            ("write 2 text 8", "write 2 text 9", Free, "Take 2 is idle: both are refused."),
            ("letter to 3 text 8", "letter to 0 text 9", Meets, "A letter refused with 21 still sees the next number."),
            (
                "write 2 text 8",
                "receive 2",
                Shows,
                "A refused step still sees its take: after the receipt it is not refused.",
            ),
            ("sign {0}", "freeze 1", Free, "A signing that is not ready, and a take that it does not name."),
            ("sign {0}", "freeze 0", Shows, "It names the take that is frozen."),
            ("sign {0}", "write 0 text 9", Meets, "It sees the take, though it stays unfrozen."),
            ("sign {0}", "sign {1}", Free, "Neither is ready, and neither names what the other does."),
            (
                "sign {0}",
                "send 0 to 2 text 9",
                Free,
                "Both see take 0: a signing that is not ready changes nothing, a send nothing of its take.",
            ),
        ],
    }
}

fn places() -> Asked {
    Asked {
        name: "all places taken",
        told: "The same session, but only two parcels may wait.",
        image: grown([4, 2, 2], &list(WORK)),
        pairs: vec![
            ("send 0 to 1 text 9", "lose 3", Shows, "There is a place for the parcel only after the loss."),
            ("send 0 to 1 text 9", "receive 2", Shows, "Or after the receipt."),
            ("lose 2", "lose 3", Free, "No step that makes a parcel: who frees the place is not seen."),
            ("send 0 to 1 text 8", "send 1 to 0 text 9", Free, "Both are refused with 26, and change nothing."),
            ("letter to 3 text 8", "lose 3", Meets, "A letter refused with 21 still sees that no place is free."),
        ],
    }
}

const SIGNABLE: &str = "root text 1; root text 2; root text 3; letter to 0 text 4; receive 0; send 0 to 1 text 5; receive 1; write 1 text 6; freeze 1; freeze 0; \
    letter to 2 text 7; receive 2; send 2 to 0 text 8";

fn signings() -> Asked {
    Asked {
        name: "signings",
        told:
            "Take 1 rests on take 0's present life, and both are frozen; take 2 is at work; parcel 3 waits for take 0.",
        image: grown(LIMITS, &list(SIGNABLE)),
        pairs: vec![
            ("sign {1}", "sign {0}", Shows, "Take 1 alone is not ready before take 0 is signed, and ready after."),
            ("sign {1}", "sign {0,1}", Meets, "Both name take 1, which alone is ready neither before nor after."),
            ("sign {0}", "write 2 text 9", Free, "A take that is not named, and that nobody named rests on."),
            ("sign {0}", "fail 0", Shows, "The fail is held before the signing, and is none after."),
            ("sign {0}", "receive 3", Shows, "The receipt is by the named take."),
            ("sign {1}", "read 0", Free, "Take 1 rests on take 0, but a read signs nothing."),
            ("sign {1}", "done 0", Free, "Nor does a done."),
            ("sign {0}", "read 1", Free, "That take 1 rests on take 0 is not seen by its read."),
            ("sign {0,1}", "send 2 to 0 text 9", Free, "A send sees of the named take only that it is opened."),
            ("sign {0,1}", "fail 2", Free, "Take 2 is not named, and nobody named rests on it."),
            ("sign {0}", "sign {2}", Free, "Volumes apart, of which none rests on the other's lives."),
        ],
    }
}

const STALE: &str = "root text 1; root text 2; letter to 0 text 3; receive 0; freeze 0; sign {0}; letter to 0 text 4; receive 1; send 0 to 1 text 5; \
    send 0 to 1 text 6; fail 0; letter to 0 text 7; receive 4; send 0 to 1 text 8; receive 5; write 1 text 9; done 1";

fn dropped() -> Asked {
    Asked {
        name: "stale parcels",
        told: "Parcels 2 and 3 have a withdrawn life of take 0, and take 1, to which they go, knows of the fall.",
        image: grown(LIMITS, &list(STALE)),
        pairs: vec![("receive 2", "receive 3", Meets, "Two receipts by one take, both dropped: each changes the take.")],
    }
}

fn last_take() -> Asked {
    let sixteen = (1..=16).map(|t| format!("root text {t}; ")).collect::<String>();
    let rest = "letter to 15 text 1; receive 0; send 15 to 0 text 2; receive 1; write 0 text 3; freeze 0; freeze 15";
    Asked {
        name: "take 15",
        told: "Sixteen takes; take 0 rests on take 15's present life, and both are frozen.",
        image: grown(LIMITS, &list(&format!("{sixteen}{rest}"))),
        pairs: vec![("sign {0}", "sign {15}", Shows, "Take 0 alone is ready only after take 15 is signed.")],
    }
}

/// An image that no session grows.
fn strange() -> Asked {
    let image = Image::fresh(LIMITS).take(AT_WORK, 1, frozen(&[], 0)).take(IDLE, 2, frozen(&[], 0)).take(
        AT_WORK,
        3,
        mark(&[], 0),
    );
    let image = image.take(IDLE, 4, frozen(&[], 0)).has(Map::Creation(1), 0, &mark(&[], 0));
    let image = image.has(Map::Behaviour(2), 2, &mark(&[0], 0)).has(Map::State(3), 2, &mark(&[], 0));
    Asked {
        name: "strange",
        told: "Take 1 has take 0's life in its creation map, take 3 one of take 2; take 2's own behaviour map says that this life is signed.",
        image: image.0,
        pairs: vec![
            ("sign {1}", "sign {0}", Shows, "The creation map counts as the state map does."),
            ("sign {1,3}", "sign {0}", Meets, "Also in a volume that is not ready either way."),
            ("sign {3}", "write 2 text 9", Shows, "The write gives take 2 a list, by which the life that take 3 rests on is signed."),
            ("sign {0}", "write 2 text 9", Free, "Take 0 has no mark of take 2."),
        ],
    }
}

struct Builder<'a> {
    kit: &'a mut Kit,
    suite: Suite,
    /// The clauses that alone made two steps meet whose order shows.
    shown: BTreeSet<String>,
}

impl Builder<'_> {
    fn add(&mut self, name: &str, comment: &str, image: &[u8], p: u64, q: u64) -> Vec<[usize; 2]> {
        let met = order::meetings(image, p, q);
        let free = self.kit.independent(image, &p.to_be_bytes(), &q.to_be_bytes());
        assert!(free == Ok(met.is_empty()), "{comment}: {free:?}, {met:?}");
        assert!(!met.is_empty() || order::exchange(image, p, q), "{comment}: independent, and the order shows");
        let list = [p, q].map(u64::to_be_bytes).concat();
        let test = Test::new(comment, &["query"], "independent").with("image", name).with("text", texts(&list));
        let test = test.with("list", words(&list)).with("refusal", 0usize);
        self.suite.tests.push(test.with("answer", crate::json::Json::Bool(met.is_empty())));
        met
    }

    fn asked(&mut self, asked: &Asked) {
        self.suite.good(asked.name, asked.told, &asked.image);
        for (first, second, said, comment) in &asked.pairs {
            let (p, q) = (notation::step(first), notation::step(second));
            let met = self.add(asked.name, comment, &asked.image, p, q);
            let shows = !order::exchange(&asked.image, p, q);
            let is = if met.is_empty() {
                Free
            } else if shows {
                Shows
            } else {
                Meets
            };
            assert!(is == *said, "{}: {first}, {second}: {met:?}, shows: {shows}", asked.name);
            if is == Shows {
                let alone = |side: usize| met.iter().all(|m| m[side] == met[0][side]);
                self.shown.extend(alone(0).then(|| format!("changes {}", CHANGES[met[0][0]])));
                self.shown.extend(alone(1).then(|| format!("sees {}", SEES[met[0][1]])));
            }
        }
    }

    fn refused(&mut self, comment: &str, name: &str, image: &[u8], length: usize, lengths: [usize; 2]) {
        let mut lent = image.to_vec();
        lent.resize(length, 0);
        let list = list("write 0 text 8; write 1 text 9");
        let part = |at: usize, n: usize| [&list[at..at + 8], &[0; 8]].concat()[..n].to_vec();
        let answer = self.kit.independent(&lent, &part(0, lengths[0]), &part(8, lengths[1]));
        let refusal = answer.expect_err(comment);
        let mut test = Test::new(comment, &["query", "refusal"], "independent").with("image", name);
        if length != IMAGE {
            test = test.with("length", length);
        }
        let test = test.with("text", texts(&list)).with("list", words(&list)).with("lengths", lengths.to_vec());
        self.suite.tests.push(test.with("refusal", refusal as usize).with("answer", crate::json::Json::Bool(false)));
    }
}

/// Random pairs on random sessions, as many of each sort.
fn random(b: &mut Builder) {
    for seed in 0..6 {
        let mut r = Random(seed);
        let mut image = vec![0; IMAGE];
        ledger::begin(&mut image, 3 + r.below(3), 1 + r.below(3), 1 + r.below(3));
        generate::steps(&mut r, &generate::SIGNING, &mut image, 40);
        let name = format!("random {seed}");
        b.suite.good(&name, "A random session.", &image);
        let mut wanted = [4, 4];
        while wanted != [0, 0] {
            let [p, q] = [(); 2].map(|_| generate::step(&mut r, &generate::SIGNING, &image));
            let sort = order::meetings(&image, p, q).is_empty() as usize;
            if wanted[sort] > 0 {
                wanted[sort] -= 1;
                b.add(&name, "Of a random session.", &image, p, q);
            }
        }
    }
}

pub fn suite(kit: &mut Kit) -> Suite {
    let mut b = Builder { kit, suite: Suite::new("order", ABOUT), shown: BTreeSet::new() };
    let all = [takes_and_parcels(), refused_ones(), places(), signings(), dropped(), last_take(), strange()];
    all.iter().for_each(|asked| b.asked(asked));
    let clauses = CHANGES.iter().map(|c| format!("changes {c}")).chain(SEES.iter().map(|c| format!("sees {c}")));
    let missing: Vec<String> = clauses.filter(|c| !b.shown.contains(c)).collect();
    assert!(missing.is_empty(), "no pair whose order shows by this clause alone: {missing:?}");
    let work = &all[0].image;
    b.refused("16 comes first.", "work", work, IMAGE - 1, [7, 8]);
    b.refused("16: one byte over.", "work", work, IMAGE + 1, [8, 8]);
    b.refused("17: the first step is one byte short.", "work", work, IMAGE, [7, 8]);
    b.refused("17: the second is one byte over.", "work", work, IMAGE, [8, 9]);
    b.refused("17: the first is empty.", "work", work, IMAGE, [0, 8]);
    b.refused("17: two steps for one.", "work", work, IMAGE, [8, 16]);
    let mut ill = work.clone();
    ill[3] = 1;
    b.suite.image("ill-formed", "The same as work, but byte 3 is 1.", &ill);
    b.refused("17 comes before 19.", "ill-formed", &ill, IMAGE, [8, 7]);
    b.refused("19.", "ill-formed", &ill, IMAGE, [8, 8]);
    random(&mut b);
    b.suite
}
