//! The kit on the Rust ledger with slips, in one program: `plain` is the ledger as it is, `slipped` the one with a body for each slip of a
//! function, and the number of the slip says which is meant. A test finds a slip where the two answer otherwise, or the slipped one does not
//! end, or ends the program.
//!
//!     turned TESTS SLIPS              of each slip how many tests find it, up to two, the first, and the calls that enter its function
//!     turned TESTS SLIPS STEPS SEED   of each slip whether so many random steps find it, and the calls on the images that they leave
//!
//! TESTS is written by `slips`: tables of bytes, then the tests as eleven numbers each. SLIPS has on each line a slip's number and the calls
//! that are to be asked of it, as the sum of two to their numbers.

#[path = "plain/mod.rs"]
mod plain;
#[path = "slipped/mod.rs"]
mod slipped;

use plain::generate::{self, Random};
use std::panic::{catch_unwind, AssertUnwindSafe};
use std::{env, fs};

/// Which slip is meant, and how far a call may go.
pub mod slip {
    use std::sync::atomic::{AtomicBool, AtomicU32, AtomicU64, Ordering::Relaxed};

    static ENTERED: AtomicBool = AtomicBool::new(false);
    static NUMBER: AtomicU32 = AtomicU32::new(0);
    static LEFT: AtomicU64 = AtomicU64::new(0);

    /// So many functions and loops a call may enter: far more than any does.
    const MOST: u64 = 20_000_000;

    pub fn set(number: u32) {
        NUMBER.store(number, Relaxed);
        LEFT.store(MOST, Relaxed);
    }

    #[inline(always)]
    pub fn number() -> u32 {
        NUMBER.load(Relaxed)
    }

    /// The body of the slip is entered.
    #[inline(always)]
    pub fn enter() {
        ENTERED.store(true, Relaxed);
    }

    /// Whether it was since this was asked.
    pub fn entered() -> bool {
        ENTERED.swap(false, Relaxed)
    }

    #[inline(always)]
    pub fn tick() {
        let left = LEFT.load(Relaxed);
        LEFT.store(left.wrapping_sub(1), Relaxed);
        assert!(left != 0, "it does not end");
    }

    /// For a condition that is never met: the compiler does not know.
    #[inline(always)]
    pub fn never() -> bool {
        number() == u32::MAX
    }
}

pub trait Highest {
    /// The highest bit that is set, as `trailing_zeros` gives the lowest.
    fn highest(self) -> u32;
}

impl Highest for u16 {
    fn highest(self) -> u32 {
        15u32.wrapping_sub(self.leading_zeros())
    }
}

/// A call: its name, its buffers, its numbers.
#[derive(Clone)]
struct Call<'a> {
    name: u64,
    image: &'a [u8],
    list: &'a [u8],
    numbers: [u64; 6],
}

/// All that a call gives and leaves.
#[derive(PartialEq)]
struct Answer {
    told: String,
    image: Vec<u8>,
    out: Vec<u8>,
}

const BLANK: u8 = 0xa5;

macro_rules! answers {
    ($of:ident) => {
        pub fn $of(call: &Call) -> Answer {
            use crate::$of::{actor, convert, defect, engine, impediment, ledger, order};
            let [a, b, c, d, e, f] = call.numbers.map(|n| n as usize);
            let (mut image, mut out) = (Vec::new(), Vec::new());
            let told = match call.name {
                0 => {
                    image = call.image.to_vec();
                    format!("{:?}", ledger::begin(&mut image, a, b, c))
                }
                1 => {
                    image = call.image.to_vec();
                    out = vec![BLANK; c];
                    format!("{:?}", ledger::run(&mut image, call.list, a, b, &mut out))
                }
                2 => {
                    image = vec![BLANK; ledger::IMAGE];
                    out = vec![BLANK; f];
                    let begun = ledger::begin(&mut image, a, b, c);
                    format!("{begun:?} {:?}", ledger::run(&mut image, call.list, d, e, &mut out))
                }
                3 => {
                    out = vec![BLANK; d];
                    format!("{:?}", engine::play(call.list, a, b, c, &mut out))
                }
                4 => format!("{:?}", ledger::offer(call.image, a)),
                5 => format!("{:?}", ledger::smallest(call.image, a)),
                6 => format!("{:?}", ledger::ready_count(call.image, a)),
                7 => format!("{:?}", ledger::all_heard(call.image, a)),
                8 => format!("{:?}", ledger::dependents(call.image, a)),
                9 => format!("{:?}", ledger::obstacle(call.image, a)),
                10 => {
                    let by_definition = ledger::offer(call.image, a).map(|_| impediment::impediment(call.image, a));
                    format!("{by_definition:?} {:?}", ledger::impediment(call.image, a))
                }
                11 => {
                    let number = u16::try_from(a).unwrap_or(65_535);
                    let place = |part: &[u8]| (part.as_ptr() as usize - call.image.as_ptr() as usize, part.len());
                    format!("{:?}", ledger::show(call.image, number).map(place))
                }
                12 => {
                    out = vec![BLANK; c];
                    let kept = ledger::thin(call.image, call.list, a, b, &mut out);
                    if kept.is_err() {
                        out.clear(); // the runner sees whether it is untouched; the Rust ledger runs in it
                    }
                    format!("{kept:?}")
                }
                13 => {
                    out = vec![BLANK; a];
                    format!("{:?}", convert::forward(call.image, &mut out))
                }
                14 => {
                    out = vec![BLANK; a];
                    format!("{:?}", convert::back(call.image, &mut out))
                }
                15 => format!("{:?}", ledger::worst_window(call.list, a)),
                16 => {
                    out = vec![BLANK; b];
                    format!("{:?}", ledger::plan(call.image, a, &mut out))
                }
                18 => format!("{:?}", actor::actor(call.image, call.list)),
                19 => format!("{:?}", defect::defect(call.image)),
                _ => {
                    let step = |at: usize, n: usize| [&call.list[at..at + 8], &[0; 8]].concat()[..n].to_vec();
                    format!("{:?}", order::independent(call.image, &step(0, a), &step(8, b)))
                }
            };
            Answer { told, image, out }
        }
    };
}

answers!(plain);
answers!(slipped);

/// Whether the slip gives another answer to a call, or none.
fn finds(slip: u32, call: &Call, expected: &Answer) -> bool {
    slip::set(slip);
    let answer = catch_unwind(AssertUnwindSafe(|| slipped(call)));
    answer.map_or(true, |answer| answer != *expected)
}

struct Tests {
    bytes: Vec<u8>,
    /// Where each table of bytes stands.
    tables: Vec<(usize, usize)>,
    numbers: Vec<[u64; 11]>,
}

fn read_tests(path: &str) -> Tests {
    let bytes = fs::read(path).unwrap_or_else(|e| panic!("{path}: {e}"));
    let number = |at: usize| u64::from_le_bytes(bytes[at..at + 8].try_into().unwrap());
    let (mut at, mut tables) = (8, Vec::new());
    for _ in 0..number(0) {
        let length = number(at) as usize;
        tables.push((at + 8, at + 8 + length));
        at += 8 + length;
    }
    let numbers = bytes[at..]
        .chunks_exact(88)
        .map(|test| std::array::from_fn(|i| u64::from_le_bytes(test[8 * i..8 * i + 8].try_into().unwrap())));
    Tests { numbers: numbers.collect(), tables, bytes: bytes.clone() }
}

impl Tests {
    fn call(&self, i: usize) -> Call<'_> {
        let [_, _, name, image, list, numbers @ ..] = self.numbers[i];
        let table = |k: u64| {
            let (start, end) = self.tables[k as usize];
            &self.bytes[start..end]
        };
        Call { name, image: table(image), list: table(list), numbers }
    }
}

/// Of each slip how many tests find it, up to two, and the first of them: its file and its number.
fn by_tests(tests: &Tests, slips: &[(u32, u64)]) {
    let calls: Vec<(Call, Answer)> = (0..tests.numbers.len()).map(|i| (tests.call(i), plain(&tests.call(i)))).collect();
    for (slip, _) in slips {
        let place = |i: usize| (tests.numbers[i][0], tests.numbers[i][1]);
        let (mut found, mut entered) = (Vec::new(), 0);
        for (i, (call, expected)) in calls.iter().enumerate() {
            if !found.contains(&place(i)) && finds(*slip, call, expected) {
                found.push(place(i));
            }
            entered |= (slip::entered() as u64) << call.name;
            if found.len() == 2 {
                break;
            }
        }
        let (file, number) = found.first().copied().unwrap_or((0, 0));
        println!("{slip} {} {file} {number} {entered}", found.len());
    }
}

/// Steps of one list.
const STEPS: usize = 256;

/// A well-formed image that no session grows.
fn strange(r: &mut Random) -> Vec<u8> {
    let mut image = generate::image(r);
    if r.one_in(2) {
        generate::paste(r, &mut image);
    }
    image
}

/// The image of a session, which goes on from list to list; now and then it is begun anew.
fn going_on(r: &mut Random, last: &mut Vec<u8>) -> Vec<u8> {
    if last.is_empty() || r.one_in(8) {
        *last = generate::fresh();
        if r.one_in(2) {
            let [takes, parcels, signings] = generate::any_limits(r);
            plain::ledger::begin(last, takes, parcels, signings);
        }
        let falls = r.below(4);
        generate::prelude(r, last, falls);
    }
    last.clone()
}

/// A number for a query: mostly small, now and then far out.
fn asked(r: &mut Random) -> u64 {
    match r.below(8) {
        0 => r.below(65_537) as u64,
        1 => r.next() >> r.below(64),
        _ => r.below(17) as u64,
    }
}

/// Calls on an image: every query, both conversions, a thinning, and whether it is well-formed once damaged.
fn questions<'a>(r: &mut Random, image: &'a [u8], damaged: &'a [u8], list: &'a [u8], old: &'a [u8]) -> Vec<Call<'a>> {
    let call = |name: u64, image: &'a [u8], numbers: [u64; 6]| Call { name, image, list, numbers };
    let length = list.len() as u64;
    let mut calls: Vec<Call> =
        [4, 5, 7, 8, 9, 10, 11].map(|name| call(name, image, [asked(r), 0, 0, 0, 0, 0])).to_vec();
    calls.push(call(9, image, [generate::volume(r, image) as u64, 0, 0, 0, 0, 0]));
    calls.push(call(11, image, [generate::number(image, r.below(32)) as u64, 0, 0, 0, 0, 0]));
    if r.one_in(16) {
        calls.push(call(6, image, [asked(r), 0, 0, 0, 0, 0]));
    }
    if r.one_in(4) {
        calls.push(call(12, image, [0, length, length, 0, 0, 0]));
    }
    let (start, end) = (8 * r.below(32) as u64, length - 8 * r.below(32) as u64);
    let (start, end) = if r.one_in(8) { (start + asked(r), end + asked(r)) } else { (start, end) };
    let room = end.wrapping_sub(start).min(1 << 14) + r.one_in(8) as u64;
    if r.one_in(4) {
        calls.push(call(1, image, [start, end, room, 0, 0, 0]));
    }
    calls.push(Call { list: &[], ..call(1, damaged, [0; 6]) });
    calls.push(call(14, image, [22_132, 0, 0, 0, 0, 0]));
    calls.push(call(14, damaged, [22_132, 0, 0, 0, 0, 0]));
    calls.push(call(13, old, [42_616, 0, 0, 0, 0, 0]));
    calls.push(call(0, image, [asked(r), asked(r) * 2, asked(r), 0, 0, 0]));
    calls
}

/// Replies with many falls among them.
fn replies(r: &mut Random) -> Vec<u8> {
    let few = 1 + r.below(6);
    let mut replies = vec![0; 8 * r.below(600)];
    for reply in replies.chunks_exact_mut(8) {
        reply[0] = if r.one_in(few) { 3 + r.below(2) as u8 } else { r.below(36) as u8 };
    }
    replies
}

/// The slips that no call has found yet, each with the calls to be asked of it.
struct Left(Vec<(u32, u64)>);

impl Left {
    /// Asks a call of all, and leaves out those that it finds. What the ledger as it is answers.
    fn ask(&mut self, call: &Call) -> Answer {
        let expected = plain(call);
        self.0.retain(|(slip, calls)| {
            let found = calls >> call.name & 1 == 1 && finds(*slip, call, &expected);
            if found {
                println!("{slip} {}", call.name);
            }
            !found
        });
        expected
    }
}

/// The image in the old form, often with a bit turned; all zero where it has none.
fn old_form(r: &mut Random, image: &[u8]) -> Vec<u8> {
    let mut old = vec![0; 22_132];
    plain::convert::back(image, &mut old);
    if r.one_in(2) {
        let at = r.below(old.len());
        old[if r.one_in(2) { at } else { 4 + 825 * (at % 16) + at % 60 }] ^= 1 << r.below(8);
    }
    old
}

/// A list of steps on an image, and the calls on the image that it leaves.
fn round(r: &mut Random, left: &mut Left, last: &mut Vec<u8>) {
    let session = r.one_in(2);
    let image = if session { going_on(r, last) } else { strange(r) };
    let mix = r.pick(&generate::MIXES).unwrap();
    let list = generate::steps(r, &mix, &mut image.clone(), STEPS);
    let numbers = [0, list.len() as u64, list.len() as u64, 0, 0, 0];
    let ran = left.ask(&Call { name: 1, image: &image, list: &list, numbers });
    let mut damaged = ran.image.clone();
    generate::damage(r, &mut damaged);
    let old = old_form(r, &ran.image);
    for call in questions(r, &ran.image, &damaged, &list, &old) {
        left.ask(&call);
    }
    let (told, width) = (replies(r), asked(r) * 3);
    left.ask(&Call { name: 15, image: &[], list: &told, numbers: [width, 0, 0, 0, 0, 0] });
    if session {
        *last = ran.image;
    }
}

fn by_random(slips: &[(u32, u64)], steps: usize, seed: u64) {
    let (mut left, mut r, mut last) = (Left(slips.to_vec()), Random(seed), Vec::new());
    for _ in 0..steps.div_ceil(STEPS) {
        round(&mut r, &mut left, &mut last);
    }
    println!("{} left", left.0.len());
}

fn main() {
    std::panic::set_hook(Box::new(|_| {}));
    let arguments: Vec<String> = env::args().skip(1).collect();
    let tests = read_tests(&arguments[0]);
    let text = fs::read_to_string(&arguments[1]).expect("the numbers of the slips");
    let numbers: Vec<u64> = text.split_whitespace().map(|n| n.parse().expect("a number")).collect();
    let slips: Vec<(u32, u64)> = numbers.chunks_exact(2).map(|pair| (pair[0] as u32, pair[1])).collect();
    match &arguments[2..] {
        [steps, seed] => by_random(&slips, steps.parse().expect("steps"), seed.parse().expect("a seed")),
        _ => by_tests(&tests, &slips),
    }
}
