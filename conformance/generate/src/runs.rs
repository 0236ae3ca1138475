//! Step lists from a fresh session: cases by hand, sessions of the sources, long mixed lists.

use crate::image::words;
use crate::kit::{grown, Kit, Suite, Test};
use crate::notation::{cases, Case};
use crate::sha256::hex_digest;
use bench::generate::{self, Random};
use bench::ledger;

/// Lists up to so many steps show the whole image.
const SHORT: usize = 8_000;

fn test(kit: &mut Kit, case: &Case) -> Test {
    let list: Vec<u8> = case.lines.iter().flat_map(|l| l.step.to_be_bytes()).collect();
    let ran = kit.play(case.limits, &list);
    for (i, (line, reply)) in case.lines.iter().zip(ran.replies.chunks_exact(8)).enumerate() {
        let (name, text, outcome) = (&case.name, &line.text, line.outcome);
        assert!(reply[0] == outcome, "{name}: step {} ({text}) replies {}, not {outcome}", i + 1, reply[0]);
    }
    kit.seen.name(&case.name);
    case.flags.iter().for_each(|flag| kit.seen.name(flag));
    let flags: Vec<&str> = case.flags.iter().map(String::as_str).collect();
    let mut test = Test::named(&case.name, &case.comment, &flags, "run");
    if !case.without.is_empty() {
        test = test.with("without", case.without.as_str());
    }
    let texts: Vec<&str> = case.lines.iter().map(|l| l.text.as_str()).collect();
    let test = test.with("limits", case.limits.to_vec()).with("text", texts).with("list", words(&list));
    test.ran(&ran, case.lines.len() <= SHORT)
}

pub fn edges(kit: &mut Kit, file: &str) -> Suite {
    let mut suite =
        Suite::new("runs", "Step lists from a fresh session with these limits: the replies, and the image afterwards.");
    suite.tests = cases(file).iter().map(|case| test(kit, case)).collect();
    suite
}

pub fn sessions(kit: &mut Kit, file: &str) -> Suite {
    let mut suite = Suite::new(
        "sessions",
        "Examples of the five sources as step lists; without: what of the source's example the rules do not have.",
    );
    suite.tests = cases(file).iter().map(|case| test(kit, case)).collect();
    suite
}

const LISTS: usize = 50;
const STEPS: usize = 1_024;
/// Bytes of 128 steps.
const PART: usize = 1_024;

/// Limits such that the fifty lists have every one: the least, the greatest, and all between.
fn limits(i: usize) -> [usize; 3] {
    match i {
        0 => [16, 32, 15],
        1 => [1, 1, 1],
        _ => [1 + (i * 7 + 9) % 16, 1 + i * 11 % 32, 1 + i * 4 % 15],
    }
}

const MIXES: [generate::Mix; 4] = [generate::MIXED, generate::SIGNING, generate::FALLING, generate::FAILING];

/// A list that follows its session from a prelude on, in which takes are signed.
fn follow(seed: u64, limits: [usize; 3], mix: &generate::Mix) -> Vec<u8> {
    let mut r = Random(seed);
    let mut image = vec![0; ledger::IMAGE];
    ledger::begin(&mut image, limits[0], limits[1], limits[2]);
    let mut list = generate::prelude(&mut r, &mut image, 3);
    while list.len() < 8 * STEPS {
        let step = generate::step(&mut r, mix, &image);
        ledger::step_unchecked(&mut image, step);
        list.extend(step.to_be_bytes());
    }
    list.truncate(8 * STEPS);
    list
}

fn accepted(replies: &[u8]) -> usize {
    replies.chunks_exact(8).filter(|r| r[0] < 20).count()
}

/// The SHA-256 of the image after every 128 steps.
fn along(limits: [usize; 3], list: &[u8]) -> Vec<String> {
    (1..=list.len() / PART).map(|k| hex_digest(&grown(limits, &list[..PART * k]))).collect()
}

/// The first such list of which two steps in three are accepted.
fn mixed(kit: &mut Kit, i: usize) -> Test {
    let (limits, mix) = (limits(i), &MIXES[i % MIXES.len()]);
    let replies = |list: &[u8]| {
        let mut replies = vec![0; list.len()];
        bench::engine::play(list, limits[0], limits[1], limits[2], &mut replies);
        replies
    };
    let lists = (0..5_000).map(|k| follow(1_000_000 * i as u64 + k, limits, mix));
    let list = lists.into_iter().find(|list| 3 * accepted(&replies(list)) >= 2 * STEPS);
    let list = list.unwrap_or_else(|| panic!("no list for the limits {limits:?} has enough accepted steps"));
    let ran = kit.play(limits, &list);
    let comment = format!("A mixed list of {STEPS} steps, {} of them accepted.", accepted(&ran.replies));
    let test = Test::new(&comment, &["mixed"], "run").with("limits", limits.to_vec()).with("list", words(&list));
    test.ran(&ran, true).with("along", along(limits, &list))
}

pub fn mixed_lists(kit: &mut Kit) -> Suite {
    for (which, greatest) in [16, 32, 15].into_iter().enumerate() {
        let all = (1..=greatest).all(|n| (0..LISTS).any(|i| limits(i)[which] == n));
        assert!(all, "the mixed lists do not have all limits");
    }
    let mut suite = Suite::new("mixed", "Long mixed lists from fresh sessions with limits of all kinds.");
    suite.tests = (0..LISTS).map(|i| mixed(kit, i)).collect();
    suite
}
