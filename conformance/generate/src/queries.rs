//! Queries: offer, show, the smallest volume, how many are ready, all heard frozen, dependents, obstacle; on grown images and on others.

use crate::asked::{self, Asked, Question};
use crate::image::{frozen, mark, Image, Map, Mark, AT_WORK, IDLE, VANISHED};
use crate::json::Json;
use crate::kit::{grown, Kit, Suite, Test, LIMITS};
use crate::notation;
use bench::generate::{number, opened, waiting};

const CHAIN: &str =
    "root text 1; root text 2; root text 3; root text 4; letter to 0 text 1; receive 0; write 0 text 5; send \
    0 to 1 text 6; freeze 0; receive 1; write 1 text 7; send 1 to 2 text 8; freeze 1; receive 2; write 2 \
    text 9; send 2 to 3 text 1; send 2 to 3 text 2; freeze 2; letter to 1 text 3; letter to 3 text 4";

const CYCLE: &str =
    "root text 1; root text 2; root text 3; letter to 0 text 1; receive 0; send 0 to 1 text 2; done 0; \
    receive 1; write 1 text 3; send 1 to 0 text 4; freeze 1; done 1; receive 2; write 0 text 5; freeze 0; \
    letter to 2 text 6; receive 3; freeze 2; new 2 text 7; done 2";

const WITHDRAWN: &str =
    "root text 1; root text 2; root text 3; letter to 0 text 1; receive 0; freeze 0; sign {0}; letter to 0 \
    text 2; receive 1; send 0 to 1 text 3; send 0 to 2 text 3; fail 0; receive 2; write 1 text 4; freeze 1; \
    letter to 0 text 5; receive 4; freeze 0; send 0 to 2 text 6; receive 3; fail 2; root text 9";

const SIGNED: &str =
    "root text 1; root text 2; letter to 0 text 1; receive 0; send 0 to 1 text 2; freeze 0; sign {0}; receive \
    1; write 1 text 3; freeze 1; letter to 0 text 4; receive 2; freeze 0; send 0 to 1 text 5";

const LINKS: &str =
    "root text 1; root text 2; root text 3; root text 4; letter to 0 text 1; receive 0; send 0 to 1 text 2; \
    freeze 0; done 0; receive 1; write 1 text 3; done 1; letter to 1 text 4; receive 2; send 1 to 2 text 5; \
    freeze 1; done 1; receive 3; write 2 text 6; done 2; letter to 2 text 7; receive 4; send 2 to 3 text 8; \
    freeze 2; done 2; receive 5; write 3 text 9; freeze 3";

/// The images, and for each what it is.
fn images() -> Vec<(&'static str, Vec<u8>, &'static str)> {
    let list = |text: &str| -> Vec<u8> { notation::lines(text).iter().flat_map(|l| l.step.to_be_bytes()).collect() };
    vec![
        (
            "links",
            grown([5, 4, 3], &list(LINKS)),
            "Takes 1, 2 and 3 rest each on the one before alone: it had not read when it sent. All are frozen.",
        ),
        (
            "chain",
            grown(LIMITS, &list(CHAIN)),
            "Takes 0, 1 and 2 rest each on those before, all frozen; take 3 has three parcels.",
        ),
        ("cycle", grown([8, 8, 2], &list(CYCLE)), "Takes 0 and 1 rest on each other; take 2, frozen, opened take 3."),
        ("withdrawn", grown(LIMITS, &list(WITHDRAWN)), "Take 1 rests on a withdrawn life of take 0; take 2 vanished."),
        (
            "signed",
            grown([4, 4, 1], &list(SIGNED)),
            "Take 1 rests on a signed life of take 0, which has the one signing that is allowed.",
        ),
        ("fresh", grown([3, 3, 3], &[]), "Nothing is opened."),
    ]
}

/// Images that no session need grow.
fn other_images() -> Vec<(&'static str, Vec<u8>, &'static str)> {
    vec![
        (
            "not frozen",
            linked(mark(&[], 0)).0,
            "Each of the takes 1 to 4 rests on the one before, take 4 on take 2 too; take 0 is not frozen.",
        ),
        (
            "exhausted",
            linked(frozen(&[0, 1], 0)).0,
            "The same, but take 0 is frozen, and was signed as often as is allowed.",
        ),
        ("hopeless", hopeless().0, "The same, but take 0 may be signed, and take 1 rests on take 5, which vanished."),
        (
            "several",
            several().0,
            "Take 0 is not frozen, 1 exhausted, 2 hopeless; take 3 rests on all three, take 4 on the first two.",
        ),
        ("pasted", pasted().0, "No session grows it: marks of another hearing, unfrozen entries in both maps."),
        ("all ready", many().0, "Sixteen frozen takes, each resting on itself alone: every volume is ready."),
    ]
}

fn linked(first: Mark) -> Image {
    let image = Image::fresh([6, 4, 2]).take(IDLE, 1, first.clone());
    let image = (1..5).fold(image, |image, t| image.take(IDLE, t, frozen(&[], 0)));
    let on = |image: Image, t: usize, u: usize| image.has(Map::State(t), u, &mark(&[], 0));
    let image = (2..5).fold(image, |image, t| on(image, t, t - 1)).has(Map::Creation(1), 0, &first);
    on(image, 4, 2)
}

fn hopeless() -> Image {
    linked(frozen(&[], 0)).take(VANISHED, 0, mark(&[], 0)).has(Map::State(1), 5, &frozen(&[], 0))
}

/// Take 0 not frozen, 1 exhausted, 2 hopeless; take 3 rests on all three, take 4 on the first two.
fn several() -> Image {
    let (opening, held, most) = (mark(&[], 0), frozen(&[], 0), frozen(&[0, 1], 0));
    let image = Image::fresh([6, 4, 2]).take(IDLE, 1, opening.clone()).take(IDLE, 2, most.clone());
    let image = (2..5).fold(image, |image, t| image.take(IDLE, t, held.clone())).take(VANISHED, 0, opening.clone());
    let image = [3, 4]
        .into_iter()
        .fold(image, |image, t| image.has(Map::State(t), 0, &opening).has(Map::Creation(t), 1, &most));
    image.has(Map::Creation(2), 5, &opening).has(Map::State(3), 2, &opening)
}

fn pasted() -> Image {
    Image::fresh(LIMITS)
        .take(IDLE, 1, frozen(&[5], 0))
        .saved(0, 1)
        .take(AT_WORK, 2, frozen(&[], 0))
        .take(VANISHED, 0, mark(&[], 0))
        .take(IDLE, 4, frozen(&[1, 256], 65_535))
        .take(IDLE, 5, frozen(&[], 3))
        .has(Map::State(0), 1, &mark(&[9], 0))
        .has(Map::State(1), 0, &mark(&[], 5))
        .has(Map::Creation(1), 3, &frozen(&[1], 256))
        .has(Map::Behaviour(1), 4, &mark(&[], 3))
        .has(Map::State(3), 4, &mark(&[], 3))
        .has(Map::Creation(3), 4, &mark(&[], 2))
        .has(Map::Creation(4), 3, &mark(&[1, 256], 65_535))
        .parcel(300, 3, 1, &[(4, mark(&[], 3)), (3, frozen(&[1, 256], 65_535))])
        .parcel(301, 1, 2, &[(4, frozen(&[], 3))])
        .parcel(65_534, 1, 3, &[(4, mark(&[], 4))])
}

fn many() -> Image {
    (0..16).fold(Image::fresh(LIMITS), |image, t| image.take(IDLE, t, frozen(&[], 0)))
}

struct Builder<'a> {
    kit: &'a mut Kit,
    suite: Suite,
}

impl Builder<'_> {
    fn ask(&mut self, name: &str, image: &[u8], call: &'static str, of: usize) {
        let (refusal, answer) = self.kit.ask(call, image, of);
        let told = if refusal == 0 {
            told(call, of, &answer)
        } else {
            format!("{}: refused with {refusal}.", about(call, of))
        };
        self.add(name, call, of, &told, refusal, answer);
    }

    /// A question by hand: the answer must be the one given.
    fn asked(&mut self, asked: &Asked, (call, of, expected, comment): &Question) {
        let (refusal, answer) = self.kit.ask(call, &asked.image.0, *of);
        let same = match expected {
            Ok(expected) => refusal == 0 && answer == *expected,
            Err(expected) => refusal == *expected,
        };
        assert!(same, "{}, {}: {refusal}, {}", asked.name, about(call, *of), told(call, *of, &answer));
        self.add(asked.name, call, *of, comment, refusal, answer);
    }

    fn add(&mut self, name: &str, call: &str, of: usize, comment: &str, refusal: u8, answer: Json) {
        let key = match call {
            "ready_count" => "size",
            "show" => "parcel",
            "obstacle" => "volume",
            _ => "take",
        };
        let test = Test::new(comment, &["query"], call).with("image", name).with(key, of);
        self.suite.tests.push(test.with("refusal", refusal as usize).with("answer", answer));
    }
}

fn volume(of: usize) -> String {
    let named: Vec<String> = (0..16).filter(|t| of >> t & 1 == 1).map(|t| t.to_string()).collect();
    format!("{{{}}}", named.join(","))
}

/// What is asked about.
pub fn about(call: &str, of: usize) -> String {
    match call {
        "ready_count" => format!("Volumes of size {of}"),
        "show" => format!("Parcel {of}"),
        "obstacle" => format!("Volume {}", volume(of)),
        _ => format!("Take {of}"),
    }
}

/// An answer in words.
pub fn told(call: &str, of: usize, answer: &Json) -> String {
    let number = |n: &Json| if let Json::Number(n) = n { *n as usize } else { 0 };
    let n: Vec<usize> =
        if let Json::List(all) = answer { all.iter().map(number).collect() } else { vec![number(answer)] };
    let said = match (call, answer) {
        ("offer", Json::Null) => "no parcel waits for it".to_string(),
        ("offer", _) => format!("parcel {} is the lowest that waits for it", n[0]),
        ("smallest_volume", Json::Null) => "no volume with it could be signed now".to_string(),
        ("smallest_volume", _) => format!("the smallest volume with it that could be signed now is {}", volume(n[0])),
        ("all_heard_frozen", Json::Bool(true)) => "every mark that it has of others is frozen".to_string(),
        ("all_heard_frozen", _) => "a mark that it has of another is not frozen".to_string(),
        ("ready_count", _) => format!("{} could be signed now", n[0]),
        ("show", _) => format!("its map is {} bytes from byte {} on", n[1], n[0]),
        ("dependents", _) => dependents(&n),
        ("impediment", _) => {
            format!("{}{}", impediment(&n), if n[0] == 0 { String::new() } else { format!("; next is {}", n[3]) })
        }
        _ => obstacle(&n),
    };
    format!("{}: {said}.", about(call, of))
}

fn dependents(n: &[usize]) -> String {
    let (resting, through, unfinished) = (volume(n[0]), volume(n[1]), volume(n[2]));
    format!("{resting} rest on it, {through} through others, {unfinished} at work with it, parcels with it {}", n[3])
}

fn obstacle(n: &[usize]) -> String {
    match n[0] {
        0 => "nothing is in the way".to_string(),
        1 => format!("take {} is not frozen", n[1]),
        2 => format!("take {} rests on take {}, which is outside", n[1], n[2]),
        _ => format!("take {} rests on a withdrawn life of take {}", n[1], n[2]),
    }
}

fn impediment(n: &[usize]) -> String {
    match n[0] {
        0 => "nothing is in the way of a volume with it".to_string(),
        1 => format!("take {} is hopeless, by a withdrawn life of take {}", n[1], n[2]),
        2 => format!("take {} is exhausted", n[1]),
        _ => format!("take {} is not frozen", n[1]),
    }
}

/// Volumes worth asking why they can't be signed.
fn volumes(takes: usize) -> Vec<usize> {
    let mut all: Vec<usize> = (0..takes).map(|t| 1 << t).collect();
    all.extend([0, (1 << takes) - 1, 3, 5, 6, 7, 1 << 15, 65_535]);
    all.sort_unstable();
    all.dedup();
    all
}

pub fn suite(kit: &mut Kit) -> Suite {
    let suite = Suite::new("queries", "Queries on images, which are only read.");
    let mut b = Builder { kit, suite };
    for (name, image, told) in images().into_iter().chain(other_images()) {
        b.suite.good(name, told, &image);
        let takes = opened(&image).min(5);
        for t in 0..=takes {
            for call in ["offer", "smallest_volume", "all_heard_frozen", "dependents", "impediment"] {
                b.ask(name, &image, call, t);
            }
        }
        for size in [1, 2, 3, 8, 16] {
            b.ask(name, &image, "ready_count", size);
        }
        for k in 0..waiting(&image) {
            b.ask(name, &image, "show", number(&image, k) as usize);
        }
        b.ask(name, &image, "show", 65_535);
        for volume in volumes(takes) {
            b.ask(name, &image, "obstacle", volume);
        }
    }
    for asked in asked::all() {
        b.suite.good(asked.name, asked.told, &asked.image.0);
        asked.questions.iter().for_each(|question| b.asked(&asked, question));
    }
    b.suite
}
