//! What every subject uses: calls made on the proved library and on the Rust ledger, which must agree; tests; what was seen.

use crate::coverage::Seen;
use crate::image::{sparse, words};
use crate::impediment::impediment;
use crate::json::Json;
use crate::sha256::hex_digest;
use bench::ledger::Obstacle;
use bench::{actor, defect, ledger, library, order, reading};
use std::io::Write;
use std::path::PathBuf;
use std::process::{Command, Stdio};

pub struct Kit {
    pub seen: Seen,
    /// A program that takes limits as arguments and packed steps as input, and gives all replies and the image.
    pub oracle: Option<PathBuf>,
}

/// What a run gives.
pub struct Ran {
    pub refusal: u8,
    pub replies: Vec<u8>,
    pub image: Vec<u8>,
}

fn agree<T: PartialEq + std::fmt::Debug>(call: &str, a: T, b: T) -> T {
    assert!(a == b, "{call}: the library gives {a:?}, the Rust ledger {b:?}");
    a
}

impl Kit {
    pub fn begin(&mut self, image: &[u8], limits: [usize; 3]) -> (u8, Vec<u8>) {
        let [t, p, s] = limits;
        let (mut a, mut b) = (image.to_vec(), image.to_vec());
        let refusal = agree("begin", library::begin(&mut a, t, p, s), ledger::begin(&mut b, t, p, s));
        assert!(a == b, "begin: the images differ");
        self.seen.call("begin", refusal);
        let of = ["takes begun with", "parcels begun with", "signings begun with"];
        of.iter().zip(limits).for_each(|(of, n)| self.seen.edge(of, n));
        (refusal, a)
    }

    pub fn run(&mut self, image: &[u8], list: &[u8], start: usize, end: usize, room: usize) -> Ran {
        let (mut a, mut b) = (image.to_vec(), image.to_vec());
        let (mut x, mut y) = (vec![0xa5; room], vec![0xa5; room]);
        let refusal = library::run(&mut a, list, start, end, &mut x);
        agree("run", refusal, ledger::run(&mut b, list, start, end, &mut y));
        assert!(a == b && x == y, "run: image or replies differ");
        assert!(refusal == 0 || a == image && x.iter().all(|r| *r == 0xa5), "a refused run changes something");
        self.seen.call("run", refusal);
        self.seen.edge("bytes of a part", end.saturating_sub(start));
        if refusal == 0 {
            self.seen.steps(image, &list[start..end], &x);
        }
        Ran { refusal, replies: x, image: a }
    }

    /// A whole list from a fresh session, by the ledgers, the engines, and the oracle where there is one.
    pub fn play(&mut self, limits: [usize; 3], list: &[u8]) -> Ran {
        let (_, image) = self.begin(&vec![0; ledger::IMAGE], limits);
        let ran = self.run(&image, list, 0, list.len(), list.len());
        let replies = self.engine(limits, list, list.len()).1;
        assert!(replies == ran.replies, "the engine's replies differ");
        if let Some(program) = &self.oracle {
            let out = ask(program, limits, list);
            assert!(out == [&ran.replies[..], &ran.image].concat(), "the oracle's replies or image differ");
        }
        ran
    }

    pub fn engine(&mut self, [t, p, s]: [usize; 3], list: &[u8], room: usize) -> (u8, Vec<u8>) {
        let (mut x, mut y) = (vec![0xa5; room], vec![0xa5; room]);
        let refusal = library::play(list, t, p, s, &mut x);
        agree("play", refusal, bench::engine::play(list, t, p, s, &mut y));
        assert!(x == y, "play: the replies differ");
        self.seen.call("play", refusal);
        (refusal, x)
    }

    pub fn thin(&mut self, image: &[u8], list: &[u8], start: usize, end: usize, room: usize) -> (u8, usize, Vec<u8>) {
        let (mut x, mut y) = (vec![0xa5; room], vec![0xa5; room]);
        let kept = library::thin(image, list, start, end, &mut x);
        let kept = agree("thin", kept, ledger::thin(image, list, start, end, &mut y));
        assert!(kept.is_err() || x == y, "thin: the short lists differ");
        let refusal = kept.err().unwrap_or(0);
        self.seen.call("thin", refusal);
        (refusal, kept.unwrap_or(0), x)
    }

    /// How many steps, and the room for them.
    pub fn plan(&mut self, image: &[u8], take: usize, room: usize) -> Result<(usize, Vec<u8>), u8> {
        let (mut x, mut y) = (vec![0xa5; room], vec![0xa5; room]);
        let steps = agree("plan", library::plan(image, take, &mut x), ledger::plan(image, take, &mut y));
        assert!(x == y, "plan: the steps differ");
        assert!(steps.is_ok() || x.iter().all(|b| *b == 0xa5), "a refused plan writes something");
        self.seen.call("plan", steps.err().unwrap_or(0));
        Ok((steps?, x))
    }

    /// Whether two steps are independent.
    pub fn independent(&mut self, image: &[u8], first: &[u8], second: &[u8]) -> Result<bool, u8> {
        let (a, b) = (library::independent(image, first, second), order::independent(image, first, second));
        let answer = agree("independent", a, b);
        self.seen.call("independent", answer.err().unwrap_or(0));
        answer
    }

    /// For whom a step acts.
    pub fn actor(&mut self, image: &[u8], step: &[u8]) -> Result<[usize; 2], u8> {
        let answer = agree("actor", library::actor(image, step), actor::actor(image, step));
        self.seen.call("actor", answer.err().unwrap_or(0));
        if let Ok([kind, _]) = answer {
            self.seen.name(&format!("actor {kind}"));
        }
        answer
    }

    /// What is wrong with an image: refusal; byte and clause.
    pub fn fault(&mut self, image: &[u8]) -> (u8, [usize; 2]) {
        let told = agree("fault", library::fault(image), defect::defect(image));
        self.seen.call("fault", told.0);
        self.seen.name(&format!("clause {}", told.1[1]));
        told
    }

    /// Forward, or back.
    pub fn convert(&mut self, forward: bool, source: &[u8], length: usize) -> (u8, Vec<u8>) {
        let (mut a, mut b) = (vec![0xa5; length], vec![0xa5; length]);
        let (name, answers) = match forward {
            true => ("forward", [library::forward(source, &mut a), bench::convert::forward(source, &mut b)]),
            false => ("back", [library::back(source, &mut a), bench::convert::back(source, &mut b)]),
        };
        let refusal = agree(name, answers[0], answers[1]);
        assert!(a == b, "{name}: the images differ");
        self.seen.call(name, refusal);
        (refusal, a)
    }

    pub fn window(&mut self, replies: &[u8], width: usize) -> Result<(usize, usize), u8> {
        let answer = agree("worst_window", library::worst_window(replies, width), ledger::worst_window(replies, width));
        self.seen.call("worst_window", answer.err().unwrap_or(0));
        self.seen.edge("width", width);
        answer
    }

    /// A query about a take, a size, a parcel or a volume: refusal and answer.
    pub fn ask(&mut self, call: &'static str, image: &[u8], of: usize) -> (u8, Json) {
        let answer = match call {
            "offer" => agree(call, library::offer(image, of), ledger::offer(image, of)).map(number),
            "smallest_volume" => agree(call, library::smallest(image, of), ledger::smallest(image, of)).map(number),
            "ready_count" => {
                agree(call, library::ready_count(image, of), ledger::ready_count(image, of)).map(Json::from)
            }
            "all_heard_frozen" => {
                agree(call, library::all_heard(image, of), ledger::all_heard(image, of)).map(Json::Bool)
            }
            "show" => shown(image, of),
            "dependents" => dependents(image, of),
            "obstacle" => obstacle(image, of),
            "impediment" => why_none(image, of),
            _ => panic!("no query: {call}"),
        };
        let refusal = *answer.as_ref().err().unwrap_or(&0);
        self.seen.call(call, refusal);
        if call == "ready_count" {
            self.seen.edge("size", of);
        }
        let answer = answer.unwrap_or_else(|_| refused(call));
        if let (0, "obstacle" | "impediment", Json::List(numbers)) = (refusal, call, &answer) {
            let numbers: Vec<u64> = numbers.iter().map(|n| if let Json::Number(n) = n { *n } else { 0 }).collect();
            let far = call == "impediment" && numbers[0] != 0 && ![numbers[1], of as u64].contains(&numbers[3]);
            self.seen.name(&format!("{call} {}{}", numbers[0], if far { ", by a chain" } else { "" }));
        }
        (refusal, answer)
    }
}

/// None is null.
fn number(n: Option<u16>) -> Json {
    n.map_or(Json::Null, |n| Json::from(n as usize))
}

/// The answer of a refused query.
fn refused(call: &str) -> Json {
    match call {
        "ready_count" => Json::Number(0),
        "all_heard_frozen" => Json::Bool(false),
        "show" => vec![0usize; 2].into(),
        "dependents" | "impediment" => vec![0usize; 4].into(),
        "obstacle" => vec![0usize; 3].into(),
        _ => Json::Null,
    }
}

#[repr(C)]
struct Part {
    offset: usize,
    length: usize,
}

#[repr(C)]
struct Way {
    numbers: [u8; 4],
}

extern "C" {
    fn ledger_impediment(image: *const u8, image_length: usize, take: usize, refusal: *mut u8) -> Way;
    // The bench asks for numbers of sixteen bits alone.
    fn ledger_show(image: *const u8, image_length: usize, number: usize, refusal: *mut u8) -> Part;
}

/// Offset and length of the part shown. No parcel has the number 65,535, which stands for all above it in the Rust ledger.
fn shown(image: &[u8], parcel: usize) -> Result<Json, u8> {
    let mut refusal = 0xa5;
    let part = unsafe { ledger_show(image.as_ptr(), image.len(), parcel, &mut refusal) };
    let shown = if refusal == 0 { Ok(&image[part.offset..part.offset + part.length]) } else { Err(refusal) };
    assert!(refusal == 0 || part.offset + part.length == 0, "a refused show gives a part");
    agree("show", shown, ledger::show(image, u16::try_from(parcel).unwrap_or(65_535)))?;
    Ok(vec![part.offset, part.length].into())
}

fn dependents(image: &[u8], take: usize) -> Result<Json, u8> {
    let d = agree("dependents", library::dependents(image, take), ledger::dependents(image, take))?;
    agree("dependents", d, reading::dependents(image, take));
    Ok([d.resting, d.through, d.unfinished, d.carried].map(usize::from).to_vec().into())
}

/// 0 nothing; 1 not frozen; 2 rests on the present life of one that is not named; 3 on a withdrawn life; the take, and the one it rests on.
fn obstacle(image: &[u8], volume: usize) -> Result<Json, u8> {
    let o = agree("obstacle", library::obstacle(image, volume), ledger::obstacle(image, volume))?;
    agree("obstacle", o, reading::obstacle(image, volume as u16));
    let numbers = match o {
        Obstacle::Nothing => [0, 0, 0],
        Obstacle::NotFrozen(t) => [1, t, 0],
        Obstacle::Outside(t, u) => [2, t, u],
        Obstacle::Withdrawn(t, u) => [3, t, u],
    };
    Ok(numbers.map(usize::from).to_vec().into())
}

/// Kind, the take in the way, the one of which it has a withdrawn life, the next on the chain to it. The Rust ledger refuses as for offer.
fn why_none(image: &[u8], take: usize) -> Result<Json, u8> {
    let mut refusal = 0xa5;
    let Way { numbers } = unsafe { ledger_impediment(image.as_ptr(), image.len(), take, &mut refusal) };
    let answer = if refusal == 0 { Ok(numbers) } else { Err(refusal) };
    assert!(refusal == 0 || numbers == [0; 4], "a refused query gives an impediment");
    let model = ledger::offer(image, take).map(|_| impediment(image, take));
    let numbers = agree("impediment", answer, model)?;
    assert!((numbers[0] == 0) == ledger::smallest(image, take).unwrap().is_some(), "an impediment, and a volume");
    Ok(numbers.map(usize::from).to_vec().into())
}

/// The replies and the image of the oracle.
fn ask(program: &PathBuf, limits: [usize; 3], list: &[u8]) -> Vec<u8> {
    let mut child = Command::new(program)
        .arg("w7")
        .args(limits.map(|n| n.to_string()))
        .stdin(Stdio::piped())
        .stdout(Stdio::piped())
        .spawn()
        .expect("the oracle");
    child.stdin.take().unwrap().write_all(list).unwrap();
    child.wait_with_output().unwrap().stdout
}

/// One test, as its members.
pub struct Test(Vec<(String, Json)>);

impl Test {
    /// With a name before its comment.
    pub fn named(name: &str, comment: &str, flags: &[&str], call: &str) -> Test {
        let mut test = Test(Vec::new()).with("name", name);
        test.0.extend(Test::new(comment, flags, call).0);
        test
    }

    pub fn new(comment: &str, flags: &[&str], call: &str) -> Test {
        Test(Vec::new()).with("comment", comment).with("flags", flags.to_vec()).with("call", call)
    }

    pub fn with(mut self, key: &str, value: impl Into<Json>) -> Test {
        self.0.push((key.to_string(), value.into()));
        self
    }

    /// What a run is expected to give.
    pub fn ran(self, ran: &Ran, whole: bool) -> Test {
        let test = self.with("refusal", ran.refusal as usize);
        if ran.refusal != 0 {
            return test;
        }
        let test = test.with("replies", words(&ran.replies)).with("sha256", hex_digest(&ran.image));
        if whole {
            test.with("after", sparse(&ran.image))
        } else {
            test
        }
    }
}

/// The tests of one file.
pub struct Suite {
    pub subject: &'static str,
    pub comment: &'static str,
    pub images: Vec<(String, Json)>,
    pub tests: Vec<Test>,
}

impl Suite {
    pub fn new(subject: &'static str, comment: &'static str) -> Suite {
        Suite { subject, comment, images: Vec::new(), tests: Vec::new() }
    }

    /// An image that tests of this file name.
    pub fn image(&mut self, name: &str, comment: &str, bytes: &[u8]) {
        assert!(self.images.iter().all(|(other, _)| other != name), "two images {name}");
        let members = vec![("comment".to_string(), comment.into()), ("bytes".to_string(), sparse(bytes))];
        self.images.push((name.to_string(), Json::Object(members)));
    }

    /// One that must be well-formed.
    pub fn good(&mut self, name: &str, comment: &str, bytes: &[u8]) {
        assert!(ledger::formed(bytes), "{name} is ill-formed");
        self.image(name, comment, bytes);
    }

    pub fn print(self, flags: &[(&str, &str)]) -> String {
        let known = |flag: &&str| flags.iter().any(|(name, _)| name == flag);
        assert!(
            self.tests.iter().all(|t| t.flags().iter().all(known)),
            "{}: a flag that is not explained",
            self.subject
        );
        let used = |flag: &str| self.tests.iter().any(|t| t.flags().contains(&flag));
        let flags =
            flags.iter().filter(|(flag, _)| used(flag)).map(|(flag, told)| (flag.to_string(), Json::from(*told)));
        let mut members: Vec<(String, Json)> = vec![
            ("schema".into(), "../schema.json".into()),
            ("version".into(), 1usize.into()),
            ("subject".into(), self.subject.into()),
            ("comment".into(), self.comment.into()),
            ("flags".into(), Json::Object(flags.collect())),
        ];
        if !self.images.is_empty() {
            members.push(("images".into(), Json::Object(self.images)));
        }
        let numbered = |(i, test): (usize, Test)| {
            let mut all = vec![("number".to_string(), Json::from(i + 1))];
            all.extend(test.0);
            Json::Object(all)
        };
        members.push(("tests".into(), Json::List(self.tests.into_iter().enumerate().map(numbered).collect())));
        Json::Object(members).print()
    }
}

impl Test {
    fn flags(&self) -> Vec<&str> {
        let Some((_, Json::List(flags))) = self.0.iter().find(|(key, _)| key == "flags") else { return Vec::new() };
        flags.iter().map(|f| if let Json::Text(flag) = f { flag.as_str() } else { "" }).collect()
    }
}

/// The texts of packed steps.
pub fn texts(list: &[u8]) -> Vec<String> {
    list.chunks_exact(8).map(|s| crate::notation::text(u64::from_be_bytes(s.try_into().unwrap()))).collect()
}

/// The image after a whole list from a fresh session.
pub fn grown(limits: [usize; 3], list: &[u8]) -> Vec<u8> {
    let mut image = vec![0; ledger::IMAGE];
    ledger::begin(&mut image, limits[0], limits[1], limits[2]);
    for step in list.chunks_exact(8) {
        ledger::step_unchecked(&mut image, u64::from_be_bytes(step.try_into().unwrap()));
    }
    image
}

pub const LIMITS: [usize; 3] = [ledger::TAKES, ledger::PARCELS, ledger::SIGNINGS];
