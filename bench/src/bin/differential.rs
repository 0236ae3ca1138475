//! Compares the proved library with the Rust ledger, call by call: every answer, reply and image byte, and after each
//! refusal that nothing changed.
//!
//!     differential [SEED [STEPS [ROUND]]]
//!     differential thin [SEED [LISTS [ROUND]]]     the pass that thins lists, on so many of them
//!
//! Each round has a seed of its own; with ROUND that one alone is run.

use bench::generate::{self, Random};
use bench::ledger::{self, Dependents, Impediment, Obstacle, IMAGE, LONGEST, PARCELS, PLAN, SIGNINGS, STEP, TAKES};
use bench::{actor, defect, library, reading};
use std::process::exit;

struct Test {
    seed: u64,
    round: u64,
    r: Random,
    /// The image as the Rust ledger leaves it, and as the library does: the same before and after each call.
    ours: Vec<u8>,
    theirs: Vec<u8>,
    calls: [[u64; 36]; 15], // those of CALLS, by answer
    steps: [[u64; 32]; 16], // by kind and outcome or refusal
    offered: u64,
    named: [u64; 17], // smallest volumes by size, 0 for none
    searched: u64,
    ready: [u64; 17], // queries by size that counted some volume, 0 for those that counted none
    signed_each: u64,
    counted: u64,
    heard: [u64; 2],  // all heard frozen: no, yes
    rested: [u64; 4], // dependents with others in resting, with more in through, with takes at work, with parcels
    withdrawn: u64,
    hindered: [u64; 4],  // obstacles: nothing, not frozen, outside, withdrawn
    impeded: [u64; 4],   // impediments: nothing, hopeless, exhausted, not frozen
    chained: [u64; 3],   // of these, with the take in the way asked about, next to it, behind others
    read: [u64; 4],      // of dependents, obstacles, impediments and plans, held to the plain reading
    planned: [u64; 5],   // plans that are run, their steps, letters; no steps: for what lasts, for room
    acted: [u64; 4],     // steps that act for nobody, the house, a take, a volume
    failed: [u64; 16],   // images by the clause that fails first, 0 for well-formed ones
    exchanged: [u64; 4], // pairs by how many of the two steps are refused; refused calls
    left_out: [u64; 16], // by the kind that empties the map of a read; 0 for refused steps, 5 for reads that are kept
    damaged: u64,
    still_formed: u64,
    /// Whether the image was grown from a begun one; runs that left a life number over 255, and an entry over 255: on other images, and
    /// on grown ones.
    grown: bool,
    long: [[u64; 2]; 2],
}

const CALLS: [&str; 15] = [
    "begin",
    "run",
    "offer",
    "show",
    "smallest",
    "all heard",
    "window",
    "thin",
    "ready",
    "dependents",
    "obstacle",
    "impediment",
    "plan",
    "actor",
    "fault",
];

impl Test {
    fn fail(&self, what: &str) -> ! {
        eprintln!("FAILED: seed {} round {}: {what}", self.seed, self.round);
        eprintln!("again: the same with {} 1 {}", self.seed, self.round);
        exit(1);
    }

    fn expect(&self, holds: bool, what: &str) {
        if !holds {
            self.fail(what);
        }
    }

    fn images(&self, what: &str) {
        if let Some(at) = (0..self.ours.len()).find(|i| self.ours[*i] != self.theirs[*i]) {
            let (a, b) = (self.theirs[at], self.ours[at]);
            self.fail(&format!("{what}: image byte {at} is {a} in the library and {b} in the Rust ledger"));
        }
    }

    fn set(&mut self, image: Vec<u8>) {
        self.theirs.clone_from(&image);
        self.ours = image;
    }

    fn begin(&mut self, [takes, parcels, signings]: [usize; 3]) {
        let before = self.ours.clone();
        let a = library::begin(&mut self.theirs, takes, parcels, signings);
        let b = ledger::begin(&mut self.ours, takes, parcels, signings);
        self.expect(
            a == b,
            &format!("begin with {takes} {parcels} {signings} answers {a}, and {b} in the Rust ledger"),
        );
        self.calls[0][a as usize] += 1;
        if self.ours != self.theirs {
            self.images("begin");
        }
        self.expect(a == 0 || self.theirs == before, "a refused begin changed the image");
        self.grown |= a == 0;
    }

    /// Limits that can be begun with, or with one in four that some are out of range.
    fn limits(&mut self) -> [usize; 3] {
        let mut limits = generate::any_limits(&mut self.r);
        if self.r.one_in(4) {
            let greatest = [TAKES, PARCELS, SIGNINGS];
            for _ in 0..1 + self.r.below(2) {
                let i = self.r.below(3);
                limits[i] = match self.r.below(5) {
                    0 => 0,
                    1 => greatest[i] + 1,
                    2 => limits[i] + 256 * (1 + self.r.below(3)),
                    3 => limits[i] + (1 << 32 + self.r.below(32)),
                    _ => usize::MAX - self.r.below(20),
                };
            }
        }
        limits
    }

    fn run(&mut self, list: &[u8], start: usize, end: usize, length: usize) {
        let before = self.ours.clone();
        let mut blank = vec![0; length];
        self.r.fill(&mut blank);
        let (mut mine, mut other) = (blank.clone(), blank.clone());
        let a = library::run(&mut self.theirs, list, start, end, &mut other);
        let b = ledger::run(&mut self.ours, list, start, end, &mut mine);
        self.expect(a == b, &format!("run answers {a}, and {b} in the Rust ledger"));
        self.calls[1][a as usize] += 1;
        if let Some(at) = (0..length).find(|i| mine[*i] != other[*i]) {
            let i = at / STEP;
            let (from, to) = (STEP * i, STEP * i + STEP);
            let step = &list[start + from..start + to];
            self.fail(&format!(
                "step {i}, {step:?}: reply {:?}, and {:?} in the Rust ledger",
                &other[from..to],
                &mine[from..to]
            ));
        }
        if self.ours != self.theirs {
            self.images("run");
        }
        if a != 0 {
            self.expect(other == blank, "a refused run changed the replies");
            self.expect(self.theirs == before, "a refused run changed the image");
            return;
        }
        self.windows(&mut other.clone());
        for (step, reply) in list[start..end].chunks(STEP).zip(other.chunks(STEP)) {
            self.steps[(step[0] >> 4) as usize][reply[0] as usize & 31] += 1;
        }
    }

    fn offer(&mut self, take: usize) {
        let before = self.ours.clone();
        let (a, b) = (library::offer(&self.theirs, take), ledger::offer(&self.ours, take));
        self.calls[2][a.err().unwrap_or(0) as usize] += 1;
        self.offered += matches!(a, Ok(Some(_))) as u64;
        self.expect(a == b, &format!("offer to {take}: {a:?}, and {b:?} in the Rust ledger"));
        self.expect(self.theirs == before, "an offer changed the image");
    }

    fn show(&mut self, number: u16) {
        let before = self.ours.clone();
        let place = |image: &[u8], part: &[u8]| part.as_ptr() as usize - image.as_ptr() as usize;
        let a = library::show(&self.theirs, number).map(|p| (place(&self.theirs, p), p.len()));
        let b = ledger::show(&self.ours, number).map(|p| (place(&self.ours, p), p.len()));
        self.expect(a == b, &format!("show of {number}: {a:?}, and {b:?} in the Rust ledger"));
        self.calls[3][a.err().unwrap_or(0) as usize] += 1;
        self.expect(self.theirs == before, "a show changed the image");
    }

    fn smallest(&mut self, take: usize) {
        let before = self.ours.clone();
        let (a, b) = (library::smallest(&self.theirs, take), ledger::smallest(&self.ours, take));
        self.expect(a == b, &format!("smallest volume of {take}: {a:?}, and {b:?} in the Rust ledger"));
        self.calls[4][a.err().unwrap_or(0) as usize] += 1;
        self.expect(self.theirs == before, "a query changed the image");
        let Ok(volume) = a else { return };
        self.named[volume.map_or(0, u16::count_ones) as usize] += 1;
        if self.r.one_in(20) {
            self.search(take, volume);
        }
    }

    /// By the signing itself, of every volume with the take.
    fn search(&mut self, take: usize, volume: Option<u16>) {
        self.searched += 1;
        let opened = self.ours[0] as u32;
        let mut smallest: Option<u16> = None;
        let mut image = self.ours.clone();
        for v in (0..1u32 << opened).map(|v| v as u16).filter(|v| v >> take & 1 == 1) {
            if smallest.is_some_and(|s| s.count_ones() <= v.count_ones()) {
                continue;
            }
            if ledger::step_unchecked(&mut image, 12 << 60 | (v as u64) << 32) >> 56 == 0 {
                smallest = Some(v);
                image.clone_from(&self.ours);
            }
        }
        self.expect(smallest == volume, &format!("smallest volume of {take}: {volume:?}, by search {smallest:?}"));
    }

    /// How many volumes of some size are ready: once in a while, since all are looked at.
    fn ready(&mut self) {
        if !self.r.one_in(16) {
            return;
        }
        let size = match self.r.below(10) {
            0 => 0,
            1 => TAKES + 1 + self.r.below(20),
            2 => 1 + self.r.below(TAKES) + 256 * (1 + self.r.below(3)),
            3 => usize::MAX - self.r.below(20),
            _ => 1 + self.r.below(TAKES).min(self.r.below(TAKES)),
        };
        let before = self.ours.clone();
        let (a, b) = (library::ready_count(&self.theirs, size), ledger::ready_count(&self.ours, size));
        self.expect(a == b, &format!("ready volumes of {size}: {a:?}, and {b:?} in the Rust ledger"));
        self.calls[8][a.err().unwrap_or(0) as usize] += 1;
        self.expect(self.theirs == before, "a query changed the image");
        let Ok(n) = a else { return };
        self.ready[if n > 0 { size } else { 0 }] += 1;
        if self.r.one_in(10) {
            self.sign_each();
        }
    }

    /// By the signing itself, of every volume: the counts of all sizes.
    fn sign_each(&mut self) {
        self.signed_each += 1;
        let mut counts = [0; TAKES + 1];
        let mut image = self.ours.clone();
        for v in 0..1u64 << TAKES {
            if ledger::step_unchecked(&mut image, 12 << 60 | v << 32) >> 56 == 0 {
                counts[v.count_ones() as usize] += 1;
                image.clone_from(&self.ours);
            }
        }
        for size in 1..=TAKES {
            let (a, n) = (library::ready_count(&self.theirs, size), counts[size]);
            self.expect(a == Ok(n), &format!("ready volumes of {size}: {a:?}, by signing {n}"));
        }
    }

    fn all_heard(&mut self, take: usize) {
        let before = self.ours.clone();
        let (a, b) = (library::all_heard(&self.theirs, take), ledger::all_heard(&self.ours, take));
        self.expect(a == b, &format!("all heard by {take} frozen: {a:?}, and {b:?} in the Rust ledger"));
        self.calls[5][a.err().unwrap_or(0) as usize] += 1;
        self.expect(self.theirs == before, "a query changed the image");
        let Ok(yes) = a else { return };
        self.heard[yes as usize] += 1;
    }

    /// Who rests on the take and on some others, why some volumes are not ready, and why there is none.
    fn grounds(&mut self, take: usize) {
        self.dependents(take);
        self.impediment(take);
        self.plan(take);
        for _ in 0..4 {
            let other = self.r.below(TAKES) % self.ours.first().map_or(16, |n| (*n as usize).clamp(1, TAKES));
            self.dependents(other);
            self.obstacle();
            self.impediment(other);
            self.plan(other);
        }
    }

    fn dependents(&mut self, take: usize) {
        let before = self.ours.clone();
        let (a, b) = (library::dependents(&self.theirs, take), ledger::dependents(&self.ours, take));
        self.expect(a == b, &format!("dependents of {take}: {a:?}, and {b:?} in the Rust ledger"));
        self.calls[9][a.err().unwrap_or(0) as usize] += 1;
        self.expect(self.theirs == before, "a query changed the image");
        let Ok(d) = a else { return };
        let seen = [d.resting & !(1 << take) != 0, d.through != d.resting, d.unfinished != 0, d.carried != 0];
        (0..4).for_each(|i| self.rested[i] += seen[i] as u64);
        if self.r.one_in(20) {
            self.read[0] += 1;
            let plain = reading::dependents(&self.ours, take);
            self.expect(d == plain, &format!("dependents of {take}: {d:?}, by the plain reading {plain:?}"));
            self.withdraw(take, d);
        }
    }

    /// The take falls, on a copy: the others of `through` are in no ready volume then, and everybody else's smallest is what it was.
    fn withdraw(&mut self, take: usize, d: Dependents) {
        let mut fallen = self.ours.clone();
        if !matches!(ledger::step_unchecked(&mut fallen, generate::packed(10, take, 0, 0, 0)) >> 56, 3 | 4) {
            return;
        }
        self.withdrawn += 1;
        for u in (0..TAKES).filter(|u| *u != take) {
            let (was, is) = (library::smallest(&self.ours, u), library::smallest(&fallen, u));
            let lost = d.through >> u & 1 == 1;
            let wanted = if lost { Ok(None) } else { was };
            self.expect(
                is == wanted,
                &format!("take {take} fell, through {:b}: smallest of {u} was {was:?}, is {is:?}", d.through),
            );
        }
    }

    /// A volume that could be signed, one of frozen takes, or any.
    fn volume(&mut self) -> u16 {
        if self.ours.len() != IMAGE || self.r.one_in(8) {
            return self.r.next() as u16;
        }
        let live = (0..generate::opened(&self.ours)).filter(|t| generate::status(&self.ours, *t) != 3);
        let live: u16 = live.map(|t| 1 << t).sum();
        match self.r.below(8) {
            0 | 1 => ledger::smallest(&self.ours, self.r.below(TAKES)).ok().flatten().unwrap_or(live),
            2 => live & self.r.next() as u16,
            3 => live,
            _ => generate::volume(&mut self.r, &self.ours) as u16,
        }
    }

    fn obstacle(&mut self) {
        let volume = self.volume();
        let before = self.ours.clone();
        let number = if self.r.one_in(50) { self.past(volume) } else { usize::from(volume) };
        let (a, b) = (library::obstacle(&self.theirs, number), ledger::obstacle(&self.ours, number));
        self.expect(a == b, &format!("obstacle of {number:b}: {a:?}, and {b:?} in the Rust ledger"));
        self.calls[10][a.err().unwrap_or(0) as usize] += 1;
        self.expect(self.theirs == before, "a query changed the image");
        if let Ok(o) = a {
            let kind = match o {
                Obstacle::Nothing => 0,
                Obstacle::NotFrozen(_) => 1,
                Obstacle::Outside(..) => 2,
                Obstacle::Withdrawn(..) => 3,
            };
            self.hindered[kind] += 1;
        }
        if number < 65_536 && !matches!(a, Err(16 | 19)) && self.r.one_in(20) {
            self.sign_and_read(volume, a);
        }
    }

    /// The volume and a take from 16 on, for which a signing's field has no bit.
    fn past(&mut self, volume: u16) -> usize {
        usize::from(volume) | 1 << (16 + self.r.next() % 48)
    }

    /// By the signing itself, on a copy, and by the plain reading.
    fn sign_and_read(&mut self, volume: u16, answer: Result<Obstacle, u8>) {
        self.read[1] += 1;
        let reply = ledger::step_unchecked(&mut self.ours.clone(), 12 << 60 | (volume as u64) << 32) >> 56;
        let wanted = match answer {
            Err(refusal) => refusal as u64,
            Ok(Obstacle::Nothing) => 0,
            Ok(_) => 5,
        };
        self.expect(reply == wanted, &format!("obstacle of {volume:b}: {answer:?}, and its signing replies {reply}"));
        let Ok(obstacle) = answer else { return };
        let plain = reading::obstacle(&self.ours, volume);
        self.expect(
            obstacle == plain,
            &format!("obstacle of {volume:b}: {obstacle:?}, by the plain reading {plain:?}"),
        );
    }

    fn impediment(&mut self, take: usize) {
        let before = self.ours.clone();
        let (a, b) = (library::impediment(&self.theirs, take), ledger::impediment(&self.ours, take));
        self.expect(a == b, &format!("impediment of {take}: {a:?}, and {b:?} in the Rust ledger"));
        self.calls[11][a.err().unwrap_or(0) as usize] += 1;
        self.expect(self.theirs == before, "a query changed the image");
        let Ok(i) = a else { return };
        let (kind, way) = match i {
            Impediment::Nothing => (0, None),
            Impediment::Hopeless(c, _, x) => (1, Some((c, x))),
            Impediment::Exhausted(c, x) => (2, Some((c, x))),
            Impediment::NotFrozen(c, x) => (3, Some((c, x))),
        };
        self.impeded[kind] += 1;
        if let Some((c, x)) = way {
            self.chained[if c as usize == take { 0 } else { 1 + (c != x) as usize }] += 1;
        }
        if self.r.one_in(20) {
            self.read[2] += 1;
            let plain = reading::impediment(&self.ours, take);
            self.expect(i == plain, &format!("impediment of {take}: {i:?}, by the plain reading {plain:?}"));
            self.follow(take, i);
        }
    }

    /// Nothing exactly if there is a smallest volume; else each take of the chain rests on the next, the answer there is the same but for the next, and the
    /// chain ends at the take in the way.
    fn follow(&self, take: usize, i: Impediment) {
        let none = library::smallest(&self.theirs, take) == Ok(None);
        self.expect(none == (i != Impediment::Nothing), &format!("impediment of {take}: {i:?}, smallest none {none}"));
        let without = |i: Impediment| match i {
            Impediment::Nothing => (i, None),
            Impediment::Hopeless(c, u, x) => (Impediment::Hopeless(c, u, 0), Some((c as usize, x as usize))),
            Impediment::Exhausted(c, x) => (Impediment::Exhausted(c, 0), Some((c as usize, x as usize))),
            Impediment::NotFrozen(c, x) => (Impediment::NotFrozen(c, 0), Some((c as usize, x as usize))),
        };
        let (mut at, mut here) = (take, i);
        for _ in 0..TAKES {
            let (reason, Some((c, next))) = without(here) else { return };
            if at == c {
                return self.expect(next == c, &format!("impediment of {at}: {here:?}"));
            }
            let rests = library::dependents(&self.theirs, next).is_ok_and(|d| d.resting >> at & 1 == 1);
            self.expect(rests, &format!("impediment of {at}: {here:?}, but it does not rest on {next}"));
            let Ok(there) = library::impediment(&self.theirs, next) else { self.fail("a take of a chain is refused") };
            self.expect(without(there).0 == reason, &format!("impediments of {at} and {next}: {here:?}, {there:?}"));
            (at, here) = (next, there);
        }
        self.fail(&format!("the chain from {take} has no end: {i:?}"));
    }

    /// For whom steps act: one of the session, one of random bits, and now and then one that is too short or too long. No take that was opened
    /// before and that the step does not act for is changed by it.
    fn actors(&mut self) {
        let mut steps = vec![self.r.next(), self.r.next() & 0xff0f_0000_0000_0000 | self.r.next() & 0xffff_0000_0000];
        if self.ours.len() == IMAGE && ledger::formed(&self.ours) {
            let mix = self.r.pick(&generate::MIXES).unwrap();
            steps.extend((0..4).map(|_| generate::step(&mut self.r, &mix, &self.ours)));
        }
        for step in steps {
            let mut bytes = step.to_be_bytes().to_vec();
            if self.r.one_in(50) {
                bytes.resize(self.r.below(17), 0);
            }
            let (a, b) = (library::actor(&self.theirs, &bytes), actor::actor(&self.ours, &bytes));
            self.expect(a == b, &format!("actor of {bytes:x?}: {a:?}, and {b:?} in the Rust reading"));
            self.calls[13][a.err().unwrap_or(0) as usize] += 1;
            let Ok([kind, takes]) = a else { continue };
            self.acted[kind] += 1;
            self.acts_alone(step, takes);
        }
    }

    fn acts_alone(&self, step: u64, takes: usize) {
        let mut after = self.ours.clone();
        ledger::step_unchecked(&mut after, step);
        for t in (0..generate::opened(&self.ours)).filter(|t| takes >> t & 1 == 0) {
            let place = generate::take_at(t)..generate::take_at(t + 1);
            self.expect(after[place.clone()] == self.ours[place], &format!("{step:016x} changes take {t}"));
        }
    }

    /// Where the image fails the form first.
    fn fault(&mut self) {
        let (a, b) = (library::fault(&self.theirs), defect::defect(&self.ours));
        self.expect(a == b, &format!("fault: {a:?}, and {b:?} in the Rust reading"));
        self.calls[14][a.0 as usize] += 1;
        self.failed[if a.0 == 19 { a.1[1] } else { 0 }] += 1;
        let refusal = ledger::offer(&self.ours, 0).err().filter(|n| [16, 19].contains(n)).unwrap_or(0);
        self.expect(a.0 == refusal, &format!("fault answers {}, an offer {refusal}", a.0));
    }

    /// Of the image as it is, and of copies with more and more damage: which of several defects comes first.
    fn faults(&mut self) {
        let kept = self.ours.clone();
        self.fault();
        for _ in 0..3 {
            let mut image = self.ours.clone();
            if image.len() == IMAGE {
                generate::damage(&mut self.r, &mut image);
            }
            self.set(image);
            self.fault();
        }
        self.set(kept);
    }

    /// What is left to do; every plan is run.
    fn plan(&mut self, take: usize) {
        let mut blank = vec![0; if self.r.one_in(16) { self.r.below(2 * PLAN) } else { PLAN }];
        self.r.fill(&mut blank);
        let (mut mine, mut other) = (blank.clone(), blank.clone());
        let before = self.ours.clone();
        let a = library::plan(&self.theirs, take, &mut other);
        let b = ledger::plan(&self.ours, take, &mut mine);
        self.expect(a == b, &format!("plan for {take}: {a:?}, and {b:?} in the Rust ledger"));
        self.expect(mine == other, &format!("the plan for {take} has other bytes than in the Rust ledger"));
        self.calls[12][a.err().unwrap_or(0) as usize] += 1;
        self.expect(self.theirs == before, "a query changed the image");
        match a {
            Err(_) => return self.expect(other == blank, "a refused query changed the buffer"),
            Ok(0) => self.unplanned(take),
            Ok(n) => self.run_plan(take, &other[..STEP * n]),
        }
        if self.r.one_in(20) {
            self.read[3] += 1;
            let mut plain: Vec<u8> = reading::plan(&self.ours, take).iter().flat_map(|s| s.to_be_bytes()).collect();
            plain.resize(PLAN, 0);
            self.expect(other == plain, &format!("the plan for {take} is not that of the plain reading"));
        }
    }

    /// No steps: the impediment lasts; else a letter is needed, and there is no place or no number for it.
    fn unplanned(&mut self, take: usize) {
        let lasts =
            matches!(library::impediment(&self.theirs, take), Ok(Impediment::Hopeless(..) | Impediment::Exhausted(..)));
        self.planned[if lasts { 3 } else { 4 }] += 1;
        let next = u16::from_be_bytes([self.ours[1], self.ours[2]]) as usize;
        let room = generate::waiting(&self.ours) < generate::limits(&self.ours)[1] && next + TAKES <= 65_535;
        self.expect(lasts || !room, &format!("no plan for {take}, though nothing lasts and there is room"));
    }

    /// On a copy: every step is answered with 0, the last signs the take, no text changes, nor anything of other takes and of parcels.
    fn run_plan(&mut self, take: usize, steps: &[u8]) {
        let (mut image, mut replies) = (self.theirs.clone(), vec![255; steps.len()]);
        let answer = library::run(&mut image, steps, 0, steps.len(), &mut replies);
        self.expect(answer == 0, &format!("the run of the plan for {take} answers {answer}"));
        let zeros = replies.chunks(STEP).all(|r| r[0] == 0);
        self.expect(zeros, &format!("a step of the plan for {take} is not answered with 0: {replies:?}"));
        let last = &steps[steps.len() - STEP..];
        let volume = u16::from_be_bytes([last[2], last[3]]);
        self.expect(last[0] >> 4 == 12 && volume >> take & 1 == 1, &format!("the plan for {take} does not sign it"));
        for u in 0..TAKES {
            let at = generate::take_at(u);
            let part = |of: &[u8], n: usize| of[at..at + n].to_vec();
            let texts = image[at + 1..at + 5] == self.theirs[at + 1..at + 5];
            self.expect(texts, &format!("the plan for {take} changes the text of {u}"));
            let same = volume >> u & 1 == 1 || part(&image, generate::TAKE) == part(&self.theirs, generate::TAKE);
            self.expect(same, &format!("the plan for {take} changes take {u}, which it does not sign"));
        }
        let parcels = image[generate::FIRST_PARCEL..] == self.theirs[generate::FIRST_PARCEL..];
        self.expect(parcels, &format!("the plan for {take} changes the parcels"));
        let letters = steps.chunks(STEP).filter(|s| s[0] >> 4 == 1).count();
        for (i, n) in [1, steps.len() / STEP, letters].into_iter().enumerate() {
            self.planned[i] += n as u64;
        }
    }

    /// The image, or a fresh one where it is ill-formed or of another length: what steps are drawn for.
    fn drawn_for(&self) -> Vec<u8> {
        let whole = self.ours.len() == IMAGE && ledger::offer(&self.ours, 0) != Err(19);
        if whole {
            self.ours.clone()
        } else {
            generate::fresh()
        }
    }

    /// Of the replies of a run, some of them with another outcome or short of a byte.
    fn windows(&mut self, replies: &mut Vec<u8>) {
        let n = replies.len() / STEP;
        let share = 1 + self.r.below(40);
        let from = self.r.below(n + 1);
        for reply in replies.chunks_mut(STEP).skip(from) {
            if self.r.one_in(share) {
                reply[0] = self.r.below(8) as u8;
            }
        }
        if self.r.one_in(16) {
            replies.truncate((STEP * n).saturating_sub(1));
        } else if self.r.one_in(16) {
            replies.resize(LONGEST + STEP, 3);
        }
        let width = match self.r.below(8) {
            0 => self.r.below(3),
            1 => n + self.r.below(3),
            2 => 255 + self.r.below(4),
            3 => usize::MAX - self.r.below(400),
            4 => 256 * self.r.below(300) + self.r.below(256),
            _ => 1 + self.r.below(256),
        };
        let (a, b) = (library::worst_window(replies, width), ledger::worst_window(replies, width));
        self.expect(a == b, &format!("worst window of {width}: {a:?}, and {b:?} in the Rust ledger"));
        self.calls[6][a.err().unwrap_or(0) as usize] += 1;
        let Ok(worst) = a else { return };
        if self.r.one_in(10) {
            self.count_each(replies, width, worst);
        }
    }

    /// By a fresh count of each window.
    fn count_each(&mut self, replies: &[u8], width: usize, worst: (usize, usize)) {
        self.counted += 1;
        let n = replies.len() / STEP;
        let length = width.min(n);
        let count = |p: usize| (p..p + length).filter(|i| matches!(replies[STEP * i], 3 | 4)).count();
        let counts: Vec<usize> = (0..=n - length).map(count).collect();
        let most = *counts.iter().max().unwrap();
        let first = counts.iter().position(|c| *c == most).unwrap();
        self.expect(
            worst == (most, first),
            &format!("worst window of {width}: {worst:?}, by counting {:?}", (most, first)),
        );
    }

    fn thin(&mut self, list: &[u8], start: usize, end: usize, length: usize) {
        let mut blank = vec![0; length];
        self.r.fill(&mut blank);
        let (mut mine, mut other) = (blank.clone(), blank.clone());
        let before = self.theirs.clone();
        let a = library::thin(&self.theirs, list, start, end, &mut other);
        let b = ledger::thin(&self.ours, list, start, end, &mut mine);
        self.expect(a == b, &format!("thin: {a:?}, and {b:?} in the Rust ledger"));
        self.expect(mine == other, "thin gives another list than the Rust ledger");
        self.expect(self.theirs == before, "thin changed the image");
        self.calls[7][a.err().unwrap_or(0) as usize] += 1;
        let Ok(n) = a else {
            return self.expect(other == blank, "a refused pass changed the buffer");
        };
        let (mut whole, mut replies) = (before.clone(), vec![0; length]);
        library::run(&mut whole, list, start, end, &mut replies);
        let part = &list[start..end];
        let kept: Vec<usize> = (0..length / STEP).filter(|i| self.stands(part, &replies, *i)).collect();
        let bytes = |of: &[u8]| kept.iter().flat_map(|i| of[STEP * i..STEP * i + STEP].to_vec()).collect::<Vec<u8>>();
        self.expect(kept.len() == n && other[..STEP * n] == bytes(part), "thin does not keep the steps of the rule");
        self.expect(other[STEP * n..].iter().all(|b| *b == 0), "a byte past the short list is not zero");
        let (mut again, mut few) = (before, vec![0; STEP * n]);
        self.expect(library::run(&mut again, &other, 0, STEP * n, &mut few) == 0, "the short list is refused");
        self.expect(again == whole, "the short list leaves another image");
        self.expect(few == bytes(&replies), "a step of the short list has another reply");
    }

    /// The rule of document 02, W12, read as it stands: whether step i stands.
    fn stands(&mut self, list: &[u8], replies: &[u8], i: usize) -> bool {
        let kind = |j: usize| list[STEP * j] >> 4;
        let take = |j: usize| list[STEP * j] & 15;
        let volume = |j: usize| u16::from_be_bytes([list[STEP * j + 2], list[STEP * j + 3]]);
        let outcome = |j: usize| replies[STEP * j];
        if outcome(i) >= 20 {
            self.left_out[0] += 1;
            return false;
        }
        if kind(i) != 5 {
            return true;
        }
        let touches = |j: usize| {
            let acts = (3..=10).contains(&kind(j)) && take(j) == take(i);
            let signs = kind(j) == 12 && volume(j) >> take(i) & 1 == 1 && outcome(j) == 0;
            outcome(j) < 20 && (acts || signs)
        };
        let next = (i + 1..list.len() / STEP).find(|j| touches(*j));
        let emptied = next.filter(|j| matches!((kind(*j), outcome(*j)), (8 | 9 | 12, _) | (10, 0 | 2..)));
        self.left_out[emptied.map_or(5, kind) as usize] += 1;
        emptied.is_none()
    }

    /// The short forms of some short lists.
    fn thin_lists(&mut self) {
        for _ in 0..8 {
            let n = self.r.below(24);
            let (list, start) = self.list(n);
            let length = STEP * n + self.r.one_in(16) as usize;
            self.thin(&list, start, start + STEP * n, length);
        }
    }

    /// A good list of n steps somewhere in a longer one: the list and where the part starts.
    fn list(&mut self, n: usize) -> (Vec<u8>, usize) {
        let mix = generate::MIXES[self.r.below(generate::MIXES.len())];
        let start = self.r.below(40);
        let mut list = vec![0; start];
        self.r.fill(&mut list);
        let mut image = self.drawn_for();
        list.extend(generate::steps(&mut self.r, &mix, &mut image, n));
        let mut rest = vec![0; self.r.below(40)];
        self.r.fill(&mut rest);
        list.extend(rest);
        (list, start)
    }

    fn good_run(&mut self) {
        let n = match self.r.below(10) {
            0 | 1 => 1,
            2..=4 => 1 + self.r.below(16),
            5..=8 => 1 + self.r.below(1024),
            _ => 1024,
        };
        let (list, start) = self.list(n);
        self.thin(&list, start, start + STEP * n, STEP * n);
        self.run(&list, start, start + STEP * n, STEP * n);
        let seen = generate::long_lives(&self.ours);
        (0..2).for_each(|i| self.long[self.grown as usize][i] += seen[i] as u64);
        let take = self.take();
        self.smallest(take);
        self.ready();
        self.all_heard(take);
        self.grounds(take);
    }

    /// Runs with a bad part, a wrong reply length, or both.
    fn bad_run(&mut self) {
        let n = self.r.below(1060);
        let (list, start) = self.list(n);
        let (mut start, mut end) = (start, start + STEP * n);
        let mut length = end - start;
        let fault = self.r.below(14);
        match fault {
            0 => end = list.len() + 1 + self.r.below(20),
            1 => end += 1 + self.r.below(7),
            2 => start = end + 1 + self.r.below(20),
            3 => (start, end) = (usize::MAX - self.r.below(9), self.r.below(9)),
            4 => end = usize::MAX - self.r.below(9),
            5 => start += 1 + self.r.below(7),
            6 => {
                // A part of 8,200 bytes and more, in a list that has it.
                let long = vec![0; LONGEST + STEP * (1 + self.r.below(4))];
                let length = long.len() - self.r.below(2);
                self.thin(&long, 0, long.len(), length);
                return self.run(&long, 0, long.len(), length);
            }
            _ => {}
        }
        if fault > 6 || self.r.one_in(2) {
            length = match self.r.below(4) {
                0 => 0,
                1 => length + 1,
                2 => length.saturating_sub(1),
                _ => self.r.below(9000),
            };
        }
        self.thin(&list, start, end, length);
        self.run(&list, start, end, length);
    }

    /// Two neighbours of kinds 5 to 10 on different takes change places: the same image, and each the same reply.
    fn exchange(&mut self) {
        let mix = generate::MIXES[self.r.below(generate::MIXES.len())];
        let (before, after) = (self.r.below(20), self.r.below(20));
        let mut image = self.drawn_for();
        let mut list = generate::steps(&mut self.r, &mix, &mut image, before);
        let at = list.len();
        for s in generate::edits_apart(&mut self.r, &image) {
            ledger::step_unchecked(&mut image, s);
            list.extend(s.to_be_bytes());
        }
        list.extend(generate::steps(&mut self.r, &mix, &mut image, after));
        let mut blank = vec![0; list.len() - self.r.one_in(8) as usize];
        self.r.fill(&mut blank);
        let library_run = |list: &[u8]| {
            let (mut image, mut replies) = (self.theirs.clone(), blank.clone());
            let answer = library::run(&mut image, list, 0, list.len(), &mut replies);
            (answer, image, replies)
        };
        let (a, first, mut replies) = library_run(&list);
        let refused = (replies.get(at).is_some_and(|o| *o >= 20), replies.get(at + STEP).is_some_and(|o| *o >= 20));
        list[at..at + 2 * STEP].rotate_left(STEP);
        let (b, second, turned) = library_run(&list);
        self.expect(a == b, &format!("answers {a} and {b} with two edits in either order"));
        self.expect(first == second, "two edits of different takes in either order leave different images");
        if a == 0 {
            replies[at..at + 2 * STEP].rotate_left(STEP);
        }
        self.expect(replies == turned, "two edits of different takes in either order have different replies");
        self.expect(a == 0 || (first == self.theirs && turned == blank), "a refused run changed something");
        self.exchanged[if a == 0 { refused.0 as usize + refused.1 as usize } else { 3 }] += 1;
    }

    fn take(&mut self) -> usize {
        match self.r.below(8) {
            0 => self.r.below(40),
            1 => usize::MAX - self.r.below(20),
            _ => self.r.below(TAKES),
        }
    }

    fn number(&mut self) -> u16 {
        let n = generate::waiting(&self.ours);
        if n == 0 || self.r.one_in(4) {
            return self.r.next() as u16 >> self.r.below(16);
        }
        generate::number(&self.ours, self.r.below(n))
    }

    /// Every call once on an image of another length.
    fn wrong_length(&mut self) {
        let kept = self.ours.clone();
        let length = match self.r.below(4) {
            0 => IMAGE - 1,
            1 => IMAGE + 1,
            2 => 0,
            _ => self.r.below(2 * IMAGE),
        };
        let mut image = kept.clone();
        image.resize(length, 0);
        self.set(image);
        let limits = self.limits();
        self.begin(limits);
        let (list, start) = self.list(2);
        let end = start + self.r.below(20);
        self.run(&list, start, end, 16);
        self.thin(&list, start, end, 16);
        let (take, number) = (self.take(), self.r.next() as u16);
        self.offer(take);
        self.smallest(take);
        self.ready();
        self.all_heard(take);
        self.grounds(take);
        self.show(number);
        self.actors();
        self.faults();
        self.exchange();
        self.set(kept);
    }

    /// Runs on a copy with marks of another hearing in it.
    fn pasted(&mut self) {
        let kept = self.ours.clone();
        let mut image = kept.clone();
        generate::paste(&mut self.r, &mut image);
        if ledger::offer(&image, 0) == Err(19) {
            return;
        }
        self.set(image);
        let n = 1 + self.r.below(60);
        let (list, start) = self.list(n);
        self.thin(&list, start, start + STEP * n, STEP * n);
        self.run(&list, start, start + STEP * n, STEP * n);
        self.grounds(0);
        self.set(kept);
    }

    /// Calls on a copy with one to five bytes changed: ill-formed, or another well-formed image.
    fn damaged(&mut self) {
        let kept = self.ours.clone();
        let mut image = kept.clone();
        generate::damage(&mut self.r, &mut image);
        self.damaged += 1;
        self.still_formed += (ledger::offer(&image, 0) != Err(19)) as u64;
        self.set(image);
        let (take, number) = (self.take(), self.number());
        self.offer(take);
        self.smallest(take);
        self.ready();
        self.all_heard(take);
        self.grounds(take);
        self.show(number);
        self.actors();
        self.faults();
        if self.r.one_in(4) {
            self.bad_run();
        }
        let n = self.r.below(20);
        let (list, start) = self.list(n);
        self.thin(&list, start, start + STEP * n, STEP * n);
        self.run(&list, start, start + STEP * n, STEP * n);
        self.exchange();
        self.set(kept);
    }

    /// A begun image, or one that no session grows.
    fn start(&mut self) {
        if self.r.one_in(2) {
            let mut bytes = vec![0; IMAGE];
            self.r.fill(&mut bytes);
            self.set(bytes);
            let limits = generate::any_limits(&mut self.r);
            self.begin(limits);
            if self.r.one_in(2) {
                let falls = if self.r.one_in(4) { 250 + self.r.below(20) } else { 0 };
                let list = generate::prelude(&mut self.r, &mut self.ours.clone(), falls);
                self.run(&list, 0, list.len(), list.len());
            }
        } else {
            let image = generate::image(&mut self.r);
            self.expect(ledger::offer(&image, 0) != Err(19), "a generated image is ill-formed");
            self.set(image);
            self.grown = false;
        }
    }

    fn round(&mut self) {
        self.start();
        for _ in 0..1 + self.r.below(10) {
            self.exchange();
            self.thin_lists();
            match self.r.below(20) {
                0..=9 => self.good_run(),
                10 | 11 => {
                    let take = self.take();
                    self.offer(take);
                    self.smallest(take);
                    self.all_heard(take);
                    self.grounds(take);
                    self.actors();
                    self.faults();
                }
                12 | 13 => {
                    let number = self.number();
                    self.show(number);
                }
                14 => self.bad_run(),
                15 => self.wrong_length(),
                16 | 17 => self.damaged(),
                18 => self.pasted(),
                _ => {
                    let limits = self.limits();
                    if self.r.one_in(4) || limits.iter().any(|n| *n > 32) {
                        self.begin(limits);
                    }
                }
            }
        }
    }

    /// The short forms of many lists, most of them short; after one in four the session goes on, by a run of the list.
    fn thin_round(&mut self) {
        self.start();
        for _ in 0..64 {
            let n = match self.r.below(256) {
                0 => 1024,
                1..=3 => self.r.below(300),
                4..=63 => self.r.below(4),
                _ => self.r.below(24),
            };
            let (list, start) = self.list(n);
            self.thin(&list, start, start + STEP * n, STEP * n);
            if self.r.one_in(4) {
                self.run(&list, start, start + STEP * n, STEP * n);
            }
        }
        match self.r.below(8) {
            0 => self.bad_run(),
            1 => self.wrong_length(),
            2 => self.damaged(),
            3 => self.pasted(),
            _ => {}
        }
    }

    fn total(&self) -> u64 {
        self.steps.iter().flatten().sum()
    }

    /// Each way in which a step is left out, or a read kept, must have been seen.
    fn thin_covered(&self) {
        for n in [0, 5, 8, 9, 10, 12] {
            self.expect(self.left_out[n] > 0, &format!("no step was left out, or kept, by {n}"));
        }
        for n in [0, 16, 17, 18, 19] {
            self.expect(self.calls[7][n] > 0, &format!("no thin answered {n}"));
        }
    }

    /// Every answer that the documents have must have been seen.
    fn covered(&self) {
        self.expect(self.offered > 0, "no offer gave a parcel");
        self.expect(self.long.iter().flatten().all(|n| *n > 0), "no life number, or no entry, was over 255");
        for (what, n) in [("none", self.named[0]), ("one take", self.named[1]), ("more", self.named[2..].iter().sum())]
        {
            self.expect(n > 0, &format!("no smallest volume was of {what}"));
        }
        for (what, n) in [("none", self.ready[0]), ("one take", self.ready[1]), ("more", self.ready[2..].iter().sum())]
        {
            self.expect(n > 0, &format!("no count of ready volumes was of {what}"));
        }
        self.expect(self.heard[0] > 0 && self.heard[1] > 0, "all heard frozen was never yes, or never no");
        self.expect(
            self.rested.iter().all(|n| *n > 0) && self.withdrawn > 0,
            "dependents of some sort were never seen",
        );
        self.expect(self.hindered.iter().all(|n| *n > 0), "no obstacle was of some sort");
        self.expect(self.impeded.iter().chain(&self.chained).all(|n| *n > 0), "no impediment was of some sort");
        self.expect(self.planned.iter().all(|n| *n > 0), "no plan was of some sort");
        self.expect(self.acted.iter().all(|n| *n > 0), "no step acted for somebody of some sort");
        self.expect(
            self.failed.iter().all(|n| *n > 0),
            &format!("no image failed some clause first: {:?}", self.failed),
        );
        self.expect(self.exchanged.iter().all(|n| *n > 0), "no two edits of some sort were exchanged");
        self.thin_covered();
        let outcome = |n: usize| self.steps.iter().map(|kind| kind[n]).sum::<u64>();
        for n in (0..=5).chain(20..=31) {
            self.expect(outcome(n) > 0, &format!("no step had outcome or refusal {n}"));
        }
        for n in [0, 2, 3, 4, 20, 22, 23, 24, 28, 31] {
            self.expect(self.steps[2][n] > 0, &format!("no receive had outcome or refusal {n}"));
        }
        let query: &[usize] = &[0, 16, 19, 21, 22];
        let run: &[usize] = &[0, 16, 17, 18, 19];
        let answers: [&[usize]; 15] = [
            &[0, 16, 33],
            run,
            query,
            &[0, 16, 19, 24],
            query,
            query,
            &[0, 17, 35],
            run,
            &[0, 16, 19, 34],
            query,
            &[0, 16, 19, 21, 22, 29, 30],
            query,
            &[0, 16, 18, 19, 21, 22],
            &[0, 16, 17, 19],
            &[0, 16, 19],
        ];
        for (call, wanted) in answers.iter().enumerate() {
            for n in *wanted {
                self.expect(self.calls[call][*n] > 0, &format!("no {} answered {n}", CALLS[call]));
            }
        }
    }

    fn print(&self) {
        let row = |name: &str, counts: &[u64]| {
            let seen: Vec<String> =
                counts.iter().enumerate().filter(|c| *c.1 > 0).map(|(n, c)| format!("{n}: {c}")).collect();
            println!("{name:10} {}", seen.join("  "));
        };
        for (name, counts) in CALLS.iter().zip(&self.calls) {
            row(name, counts);
        }
        println!("smallest volumes by size {:?}, searched for {}", self.named, self.searched);
        println!("ready volumes of size {:?}, every volume signed {}", self.ready, self.signed_each);
        println!("worst windows counted afresh {}", self.counted);
        let l = &self.left_out;
        println!(
            "left out: refused {}, reads by done {}, fall {}, fail {}, signing {}; reads kept {}",
            l[0], l[8], l[9], l[10], l[12], l[5]
        );
        println!("all heard frozen: no {}, yes {}", self.heard[0], self.heard[1]);
        let [others, through, working, parcels] = self.rested;
        println!("dependents: others resting {others}, more through others {through}, at work {working}, in parcels {parcels}");
        println!(
            "dependents read plainly {}, takes withdrawn {}; obstacles read plainly {}, impediments {}, plans {}",
            self.read[0], self.withdrawn, self.read[1], self.read[2], self.read[3]
        );
        let [nothing, unfrozen, outside, withdrawn] = self.hindered;
        println!("obstacles: nothing {nothing}, not frozen {unfrozen}, outside {outside}, withdrawn {withdrawn}");
        let ([nothing, hopeless, exhausted, unfrozen], [own, next, behind]) = (self.impeded, self.chained);
        println!("impediments: nothing {nothing}, hopeless {hopeless}, exhausted {exhausted}, not frozen {unfrozen}; in the way itself {own}, the next {next}, others between {behind}");
        let [plans, steps, letters, lasting, room] = self.planned;
        println!(
            "plans run {plans}, of {steps} steps, {letters} letters; none for what lasts {lasting}, for room {room}"
        );
        println!("steps that act for nobody, the house, a take, a volume: {:?}", self.acted);
        println!("images by the clause that fails first: {:?}", self.failed);
        let [none, one, both, calls] = self.exchanged;
        println!("edits exchanged: none refused {none}, one {one}, both {both}; in refused calls {calls}");
        println!(
            "offers that gave a parcel {}; damaged images {}, still well-formed {}",
            self.offered, self.damaged, self.still_formed
        );
        let [other, grown] = self.long;
        println!("runs with a life number over 255: {} and {} from begun images", other[0], grown[0]);
        println!("runs with an entry over 255: {} and {} from begun images", other[1], grown[1]);
        let mut all = [0; 32];
        for (kind, counts) in self.steps.iter().enumerate() {
            row(&format!("kind {kind}"), counts);
            counts.iter().enumerate().for_each(|(n, c)| all[n] += c);
        }
        row("steps", &all);
    }
}

fn main() {
    let mut words = std::env::args().skip(1).peekable();
    let thin = words.next_if(|a| a == "thin").is_some();
    let args: Vec<u64> = words.map(|a| a.parse().expect("a number")).collect();
    let seed = args.first().copied().unwrap_or(1);
    let wanted = args.get(1).copied().unwrap_or(if thin { 1_000_000 } else { 5_000_000 });
    let mut test = Test {
        seed,
        round: 0,
        r: Random(0),
        ours: Vec::new(),
        theirs: Vec::new(),
        calls: [[0; 36]; 15],
        steps: [[0; 32]; 16],
        offered: 0,
        named: [0; 17],
        searched: 0,
        ready: [0; 17],
        signed_each: 0,
        counted: 0,
        heard: [0; 2],
        rested: [0; 4],
        withdrawn: 0,
        hindered: [0; 4],
        impeded: [0; 4],
        chained: [0; 3],
        read: [0; 4],
        planned: [0; 5],
        acted: [0; 4],
        failed: [0; 16],
        exchanged: [0; 4],
        left_out: [0; 16],
        damaged: 0,
        still_formed: 0,
        grown: false,
        long: [[0; 2]; 2],
    };
    let round = |test: &mut Test, n: u64| {
        test.round = n;
        test.r = Random(seed.wrapping_mul(0x1_0000_0001).wrapping_add(n << 20));
        if thin {
            test.thin_round();
        } else {
            test.round();
        }
    };
    let reached = |test: &Test| if thin { test.calls[7][0] } else { test.total() };
    if let Some(n) = args.get(2) {
        round(&mut test, *n);
        test.print();
        return;
    }
    let mut n = 0;
    while reached(&test) < wanted {
        n += 1;
        round(&mut test, n);
    }
    test.print();
    match (wanted, thin) {
        (100_000.., true) => test.thin_covered(),
        (1_000_000.., false) => test.covered(),
        _ => {}
    }
    let what = if thin { "lists thinned" } else { "steps" };
    println!("differential: seed {seed}, {n} rounds, {} {what}, no difference", reached(&test));
}
