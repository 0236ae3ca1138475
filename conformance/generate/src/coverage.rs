//! What the tests have shown, and what they must show. The generator fails where something is missing.

use bench::generate::{addressee, frozen, limits, number, waiting, MARK, STATE};
use bench::ledger;
use std::collections::BTreeSet;

#[derive(Default)]
pub struct Seen {
    calls: BTreeSet<(String, u8)>,
    /// By kind and reply.
    steps: BTreeSet<(u8, u8)>,
    /// Steps refused with 20 where one unused field alone is set: by kind and field.
    unused: BTreeSet<(u8, &'static str)>,
    /// By outcome and whether the take was frozen.
    receipts: BTreeSet<(u8, bool)>,
    /// A number that a rule counts by, at an edge.
    edges: BTreeSet<(String, usize)>,
    names: BTreeSet<String>,
    /// Clauses of the form, and whether the image keeps them.
    pub clauses: BTreeSet<(String, bool)>,
}

/// The replies that a step of each kind can have.
const REPLIES: [&[u8]; 16] = [
    &[0, 20, 25],
    &[0, 20, 21, 26, 27],
    &[0, 2, 3, 4, 20, 22, 23, 24, 28, 31],
    &[0, 20, 21, 22, 23, 25],
    &[0, 20, 21, 22, 23, 26, 27],
    &[0, 20, 21, 22, 23],
    &[0, 1, 20, 21, 22, 23],
    &[0, 20, 21, 22, 23],
    &[0, 20, 21, 22, 23],
    &[1, 3, 4, 20, 21, 22, 23, 28],
    &[1, 3, 4, 20, 21, 22, 28],
    &[0, 20, 24],
    &[0, 5, 20, 21, 22, 29, 30],
    &[20],
    &[20],
    &[20],
];

/// The fields of a step, and the kinds that use each.
const FIELDS: [(&str, u64, &[u8]); 5] = [
    ("take", 15 << 56, &[1, 3, 4, 5, 6, 7, 8, 9, 10]),
    ("other", 15 << 52, &[4]),
    ("zero", 15 << 48, &[]),
    ("parcel", 0xffff << 32, &[2, 11, 12]),
    ("text", 0xffff_ffff, &[0, 1, 3, 4, 6]),
];

/// The refusals of each call; 0 is an answer.
const REFUSALS: [(&str, &[u8]); 19] = [
    ("begin", &[0, 16, 33]),
    ("run", &[0, 16, 17, 18, 19]),
    ("offer", &[0, 16, 19, 21, 22]),
    ("show", &[0, 16, 19, 24]),
    ("smallest_volume", &[0, 16, 19, 21, 22]),
    ("ready_count", &[0, 16, 19, 34]),
    ("all_heard_frozen", &[0, 16, 19, 21, 22]),
    ("dependents", &[0, 16, 19, 21, 22]),
    ("obstacle", &[0, 16, 19, 21, 22, 29, 30]),
    ("impediment", &[0, 16, 19, 21, 22]),
    ("plan", &[0, 16, 18, 19, 21, 22]),
    ("independent", &[0, 16, 17, 19]),
    ("actor", &[0, 16, 17, 19]),
    ("fault", &[0, 16, 19]),
    ("thin", &[0, 16, 17, 18, 19]),
    ("forward", &[0, 16, 19]),
    ("back", &[0, 16, 19, 32]),
    ("worst_window", &[0, 17, 35]),
    ("play", &[0, 17, 18, 33]),
];

/// The numbers at which rules turn.
const EDGES: [(&str, &[usize]); 15] = [
    ("takes begun with", &[0, 1, 16, 17]),
    ("parcels begun with", &[0, 1, 32, 33]),
    ("signings begun with", &[0, 1, 15, 16]),
    ("takes where a step gets 25", &[1, 16]),
    ("parcels where a step gets 26", &[1, 32]),
    ("signings where a step gets 30", &[1, 15]),
    ("takes opened by an accepted step", &[1, 16]),
    ("parcels waiting after an accepted step", &[1, 32]),
    ("signings of a take after an accepted step", &[1, 15]),
    ("next number at a letter", &[0, 65_534, 65_535]),
    ("next number at a send", &[65_534, 65_535]),
    ("life from which a signed take falls, or would", &[0, 254, 255, 256, 65_534, 65_535]),
    ("bytes of a part", &[0, 8_192, 8_200]),
    ("size", &[0, 1, 16, 17]),
    ("width", &[0, 1, 256, 257]),
];

/// Document 01's readings to guard against, and what a new implementation gets wrong first.
pub const MISTAKES: [&str; 14] = [
    "n-alone",
    "left-at-a-tie",
    "state-unread",
    "news-own-entry",
    "join-hides",
    "28-after-dropped",
    "30-before-5",
    "closed-up",
    "zero-fields",
    "withdrawn-not-mended",
    "frozen-falls",
    "frozen-is-not-signed",
    "stale-both-ways",
    "low-byte-alone",
];

/// Document 01's session, the examples of docs/RULES.md, and what is told of the five sources.
const SESSIONS: [&str; 14] = [
    "document 01's session",
    "the bytes of docs/RULES.md",
    "003 house purchase",
    "003 transfer done",
    "003 transfer without funds",
    "001 decided",
    "001 aborted",
    "001 lost vote",
    "002 trip booked",
    "002 trip aborted",
    "002 flight cancelled",
    "000 causal abort",
    "004 causal cycle",
    "004 parcel of an aborted one",
];

/// The answers of the queries that say why not, for whom, and what is wrong.
const REASONS: [&str; 31] = [
    "obstacle 0",
    "obstacle 1",
    "obstacle 2",
    "obstacle 3",
    "impediment 0",
    "impediment 1",
    "impediment 2",
    "impediment 3",
    "impediment 1, by a chain",
    "impediment 2, by a chain",
    "impediment 3, by a chain",
    "actor 0",
    "actor 1",
    "actor 2",
    "actor 3",
    "clause 0",
    "clause 1",
    "clause 2",
    "clause 3",
    "clause 4",
    "clause 5",
    "clause 6",
    "clause 7",
    "clause 8",
    "clause 9",
    "clause 10",
    "clause 11",
    "clause 12",
    "clause 13",
    "clause 14",
    "clause 15",
];

impl Seen {
    pub fn call(&mut self, call: &str, refusal: u8) {
        self.calls.insert((call.to_string(), refusal));
    }

    pub fn edge(&mut self, of: &str, number: usize) {
        self.edges.insert((of.to_string(), number));
    }

    pub fn name(&mut self, name: &str) {
        self.names.insert(name.to_string());
    }

    /// The steps of an accepted run, one by one.
    pub fn steps(&mut self, image: &[u8], part: &[u8], replies: &[u8]) {
        let mut image = image.to_vec();
        for (step, reply) in part.chunks_exact(8).zip(replies.chunks_exact(8)) {
            let step = u64::from_be_bytes(step.try_into().unwrap());
            self.before(&image, step, reply[0]);
            ledger::step_unchecked(&mut image, step);
            if reply[0] == 0 {
                self.after(&image, step);
            }
        }
    }

    fn before(&mut self, image: &[u8], step: u64, reply: u8) {
        let (kind, parcel) = ((step >> 60) as u8, (step >> 32) as u16);
        self.steps.insert((kind, reply));
        if reply == 20 {
            let set = FIELDS.iter().filter(|(_, bits, users)| !users.contains(&kind) && step & bits != 0);
            if let [(field, ..)] = set.collect::<Vec<_>>()[..] {
                self.unused.insert((kind, field));
            }
        }
        let [takes, parcels, signings] = limits(image);
        match reply {
            25 => self.edge("takes where a step gets 25", takes),
            26 => self.edge("parcels where a step gets 26", parcels),
            30 => self.edge("signings where a step gets 30", signings),
            _ => {}
        }
        let next = u16::from_be_bytes([image[1], image[2]]) as usize;
        match (kind, reply) {
            (1, 0 | 27) => self.edge("next number at a letter", next),
            (4, 0 | 27) => self.edge("next number at a send", next),
            (9 | 10, 3 | 28) => self.falls(image, (step >> 56 & 15) as usize),
            (2, 0 | 2 | 3 | 4 | 28 | 31) => self.receipt(image, parcel, reply),
            _ => {}
        }
    }

    fn receipt(&mut self, image: &[u8], parcel: u16, reply: u8) {
        let place = (0..waiting(image)).find(|k| number(image, *k) == parcel).expect("a waiting parcel");
        let take = addressee(image, place);
        self.receipts.insert((reply, frozen(image, take)));
        if reply == 3 || reply == 28 {
            self.falls(image, take);
        }
    }

    fn falls(&mut self, image: &[u8], take: usize) {
        let own = bench::generate::take_at(take) + STATE + MARK * take;
        self.edge(
            "life from which a signed take falls, or would",
            u16::from_be_bytes([image[own + 1], image[own + 2]]) as usize,
        );
    }

    fn after(&mut self, image: &[u8], step: u64) {
        match step >> 60 {
            0 | 3 => self.edge("takes opened by an accepted step", image[0] as usize),
            1 | 4 => self.edge("parcels waiting after an accepted step", waiting(image)),
            12 => {
                for t in (0..16).filter(|t| step >> (32 + t) & 1 == 1) {
                    let own = bench::generate::take_at(t) + STATE + MARK * t;
                    self.edge("signings of a take after an accepted step", (image[own] & 15) as usize);
                }
            }
            _ => {}
        }
    }

    /// What the tests should show and do not.
    pub fn missing(&self, clauses: &[&str]) -> Vec<String> {
        let mut missing = self.missing_steps();
        for (call, refusals) in REFUSALS {
            let unseen = refusals.iter().filter(|r| !self.calls.contains(&(call.to_string(), **r)));
            missing.extend(unseen.map(|r| format!("{call} with {r}")));
        }
        for (of, numbers) in EDGES {
            let unseen = numbers.iter().filter(|n| !self.edges.contains(&(of.to_string(), **n)));
            missing.extend(unseen.map(|n| format!("{of}: {n}")));
        }
        for outcome in [0, 2, 3, 4, 28, 31] {
            let unseen = [false, true].into_iter().filter(|f| !self.receipts.contains(&(outcome, *f)));
            missing.extend(unseen.map(|f| format!("a receipt with {outcome}, frozen: {f}")));
        }
        for clause in clauses {
            let unseen = [false, true].into_iter().filter(|kept| !self.clauses.contains(&(clause.to_string(), *kept)));
            missing.extend(unseen.map(|kept| format!("clause of the form: {clause}, kept: {kept}")));
        }
        let names = MISTAKES.iter().chain(&SESSIONS).chain(&REASONS).filter(|name| !self.names.contains(**name));
        missing.extend(names.map(|name| format!("a test of: {name}")));
        missing
    }

    fn missing_steps(&self) -> Vec<String> {
        let mut missing = Vec::new();
        for (kind, replies) in (0u8..).zip(REPLIES) {
            let unseen = replies.iter().filter(|r| !self.steps.contains(&(kind, **r)));
            missing.extend(unseen.map(|r| format!("kind {kind} with reply {r}")));
            let unused = FIELDS.iter().filter(|(field, _, users)| {
                kind < 13 && !users.contains(&kind) && !self.unused.contains(&(kind, field))
            });
            missing.extend(unused.map(|(field, ..)| format!("kind {kind} with its unused field {field}")));
        }
        let other = self.steps.iter().filter(|(kind, reply)| !REPLIES[*kind as usize].contains(reply));
        missing.extend(other.map(|(kind, reply)| format!("a place in the table for kind {kind} with reply {reply}")));
        missing
    }

    pub fn counts(&self) -> String {
        let (calls, steps, edges) = (self.calls.len(), self.steps.len(), self.edges.len());
        format!(
            "{steps} pairs of kind and reply, {calls} of call and answer, {edges} edges, {} clauses",
            self.clauses.len() / 2
        )
    }
}
