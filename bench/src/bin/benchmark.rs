//! Times the proved library against the Rust ledger: the same calls on the same bytes, in turns, in one process.
//!
//!     benchmark [REPETITIONS [ROW ..]]                every row, or some
//!     benchmark profile library|rust ROW N            N passes of one row, for a profiler
//!     benchmark thin [REPETITIONS]                    a pass that thins a list against a run of it
//!
//! Before each pass, and outside the time measured, the image is set back and the replies are cleared.

use bench::convert::{self, OLD_IMAGE};
use bench::generate::{self, packed, Random, MAP, MARK, STATE};
use bench::ledger::{self, Dependents, Impediment, Obstacle, IMAGE, PARCELS, PLAN, SIGNINGS, STEP, TAKES};
use bench::library;
use std::hint::black_box;
use std::time::{Duration, Instant};

struct Calls {
    name: &'static str,
    begin: fn(&mut [u8], usize, usize, usize) -> u8,
    run: fn(&mut [u8], &[u8], usize, usize, &mut [u8]) -> u8,
    offer: fn(&[u8], usize) -> Result<Option<u16>, u8>,
    smallest: fn(&[u8], usize) -> Result<Option<u16>, u8>,
    ready_count: fn(&[u8], usize) -> Result<usize, u8>,
    all_heard: fn(&[u8], usize) -> Result<bool, u8>,
    dependents: fn(&[u8], usize) -> Result<Dependents, u8>,
    obstacle: fn(&[u8], usize) -> Result<Obstacle, u8>,
    impediment: fn(&[u8], usize) -> Result<Impediment, u8>,
    plan: fn(&[u8], usize, &mut [u8]) -> Result<usize, u8>,
    thin: fn(&[u8], &[u8], usize, usize, &mut [u8]) -> Result<usize, u8>,
    show: for<'a> fn(&'a [u8], u16) -> Result<&'a [u8], u8>,
    forward: fn(&[u8], &mut [u8]) -> u8,
    back: fn(&[u8], &mut [u8]) -> u8,
    worst_window: fn(&[u8], usize) -> Result<(usize, usize), u8>,
}

const LIBRARY: Calls = Calls {
    name: "library",
    begin: library::begin,
    run: library::run,
    offer: library::offer,
    smallest: library::smallest,
    ready_count: library::ready_count,
    all_heard: library::all_heard,
    dependents: library::dependents,
    obstacle: library::obstacle,
    impediment: library::impediment,
    plan: library::plan,
    thin: library::thin,
    show: library::show,
    forward: library::forward,
    back: library::back,
    worst_window: library::worst_window,
};
const RUST: Calls = Calls {
    name: "rust",
    begin: ledger::begin,
    run: ledger::run,
    offer: ledger::offer,
    smallest: ledger::smallest,
    ready_count: ledger::ready_count,
    all_heard: ledger::all_heard,
    dependents: ledger::dependents,
    obstacle: ledger::obstacle,
    impediment: ledger::impediment,
    plan: ledger::plan,
    thin: ledger::thin,
    show: ledger::show,
    forward: convert::forward,
    back: convert::back,
    worst_window: ledger::worst_window,
};

enum Call {
    Begin,
    /// The steps of the list, this many to a run.
    Run(Vec<u8>, usize),
    /// An empty part: the form test alone.
    Form,
    Offer(usize),
    Smallest(usize),
    ReadyCount(usize),
    AllHeard(usize),
    Dependents(usize),
    Obstacle(usize),
    Impediment(usize),
    /// The plan for a take, written to the replies.
    Plan(usize),
    Show(u16),
    /// Conversions: the image is the source, the replies are the destination.
    Forward,
    Back,
    /// A list of replies and a width.
    WorstWindow(Vec<u8>, usize),
    /// The short form of the list.
    Thin(Vec<u8>),
}

/// A call, repeated on an image.
struct Work {
    image: Vec<u8>,
    call: Call,
    times: usize,
}

struct Row {
    name: &'static str,
    /// What one unit is: a step or a call.
    unit: &'static str,
    works: Vec<Work>,
}

impl Work {
    fn units(&self) -> usize {
        match &self.call {
            Call::Run(list, _) | Call::Thin(list) => list.len() / STEP * self.times,
            _ => self.times,
        }
    }

    #[inline(never)]
    fn timed(&self, by: &Calls, image: &mut [u8], replies: &mut [u8]) -> u64 {
        let mut sum = 0;
        for _ in 0..self.times {
            sum += match &self.call {
                Call::Begin => (by.begin)(image, TAKES, PARCELS, SIGNINGS) as u64,
                Call::Form => (by.run)(image, &[], 0, 0, &mut []) as u64,
                Call::Offer(t) => (by.offer)(image, *t).unwrap().map_or(7, |n| n as u64),
                Call::Smallest(t) => (by.smallest)(image, *t).unwrap().map_or(7, |v| v as u64),
                Call::ReadyCount(n) => (by.ready_count)(image, *n).unwrap() as u64,
                Call::AllHeard(t) => (by.all_heard)(image, *t).unwrap() as u64,
                Call::Dependents(t) => {
                    let d = (by.dependents)(image, *t).unwrap();
                    (d.resting ^ d.through ^ d.unfinished ^ d.carried) as u64
                }
                Call::Obstacle(v) => match (by.obstacle)(image, *v).unwrap() {
                    Obstacle::Nothing => 7,
                    Obstacle::NotFrozen(t) | Obstacle::Outside(t, _) | Obstacle::Withdrawn(t, _) => t as u64,
                },
                Call::Impediment(t) => match (by.impediment)(image, *t).unwrap() {
                    Impediment::Nothing => 7,
                    Impediment::Hopeless(c, _, x) | Impediment::Exhausted(c, x) | Impediment::NotFrozen(c, x) => {
                        (c ^ x) as u64
                    }
                },
                Call::Plan(t) => (by.plan)(image, *t, replies).unwrap() as u64,
                Call::Show(n) => (by.show)(image, *n).unwrap()[0] as u64,
                Call::Forward => (by.forward)(image, replies) as u64,
                Call::Back => (by.back)(image, replies) as u64,
                Call::WorstWindow(replies, w) => {
                    let (count, place) = (by.worst_window)(black_box(replies), *w).unwrap();
                    (count << 10 | place) as u64
                }
                Call::Thin(list) => (by.thin)(image, list, 0, list.len(), replies).unwrap() as u64,
                Call::Run(list, n) => {
                    let (mut at, mut sum) = (0, 0);
                    while at < list.len() {
                        let end = (at + STEP * n).min(list.len());
                        sum += (by.run)(image, list, at, end, &mut replies[at..end]) as u64;
                        at = end;
                    }
                    sum
                }
            };
        }
        sum
    }

    fn replies(&self) -> Vec<u8> {
        match &self.call {
            Call::Run(list, _) | Call::Thin(list) => vec![0; list.len()],
            Call::Plan(_) => vec![0; PLAN],
            Call::Forward => vec![0; IMAGE],
            Call::Back => vec![0; OLD_IMAGE],
            _ => Vec::new(),
        }
    }

    fn pass(&self, by: &Calls, image: &mut [u8], replies: &mut [u8]) -> Duration {
        image.copy_from_slice(&self.image);
        replies.fill(0);
        let start = Instant::now();
        black_box(self.timed(by, black_box(image), black_box(replies)));
        start.elapsed()
    }

    /// Both leave the same bytes.
    fn check(&self, name: &str) {
        let (mut a, mut b) = (self.image.clone(), self.image.clone());
        let (mut p, mut q) = (self.replies(), self.replies());
        self.pass(&LIBRARY, &mut a, &mut p);
        self.pass(&RUST, &mut b, &mut q);
        assert!(a == b && p == q, "{name}: the two ledgers differ");
    }
}

impl Row {
    fn units(&self) -> f64 {
        self.works.iter().map(Work::units).sum::<usize>() as f64
    }

    /// Nanoseconds a unit, of each side. The sides take turns at each piece of work, and of each piece the least of some
    /// passes counts: a pass that the machine interrupts does not. All pieces are passed before the first comes again, so
    /// that no list is learnt by heart.
    fn sample(&self, sides: &[&Calls], passes: usize) -> Vec<f64> {
        let mut room = vec![0; IMAGE + 63];
        let at = room.as_ptr().align_offset(64);
        let mut least = vec![vec![Duration::MAX; self.works.len()]; sides.len()];
        for i in 0..passes {
            for (k, w) in self.works.iter().enumerate() {
                let mut replies = w.replies();
                for side in 0..sides.len() {
                    let side = (side + i) % sides.len();
                    let image = &mut room[at..at + w.image.len()];
                    let spent = w.pass(sides[side], image, &mut replies);
                    least[side][k] = least[side][k].min(spent);
                }
            }
        }
        least.iter().map(|l| l.iter().sum::<Duration>().as_nanos() as f64 / self.units()).collect()
    }

    /// How many steps of a hundred reply with each outcome or refusal.
    fn outcomes(&self) -> String {
        let (mut image, mut counts) = (vec![0; IMAGE], [0; 32]);
        for w in &self.works {
            let mut replies = w.replies();
            w.pass(&RUST, &mut image, &mut replies);
            replies.chunks(STEP).for_each(|r| counts[r[0] as usize] += 1);
        }
        let share = |n: usize| 100.0 * counts[n] as f64 / self.units();
        let shares: Vec<String> = (0..32).filter(|n| counts[*n] > 0).map(|n| format!("{n}: {:.1}", share(n))).collect();
        shares.join("  ")
    }

    fn measure(&self, repetitions: usize) {
        self.works.iter().for_each(|w| w.check(self.name));
        let samples: Vec<Vec<f64>> = (0..repetitions).map(|_| self.sample(&[&LIBRARY, &RUST], 8)).collect();
        let spread = |f: fn(&Vec<f64>) -> f64| Spread::of(samples.iter().map(f).collect());
        let (library, rust, ratio) = (spread(|s| s[0]), spread(|s| s[1]), spread(|s| s[0] / s[1]));
        print!("{:44} {:>5}", self.name, self.unit);
        println!(" {library:9.1} {rust:9.1} {ratio:6.2}");
    }
}

/// The median, and the quartiles around it.
struct Spread {
    low: f64,
    median: f64,
    high: f64,
}

impl Spread {
    fn of(mut all: Vec<f64>) -> Spread {
        all.sort_by(f64::total_cmp);
        let at = |n: usize| all[(all.len() - 1) * n / 4];
        Spread { low: at(1), median: at(2), high: at(3) }
    }
}

impl std::fmt::Display for Spread {
    fn fmt(&self, f: &mut std::fmt::Formatter) -> std::fmt::Result {
        let (width, digits) = (f.width().unwrap_or(0), f.precision().unwrap_or(1));
        let quartiles = format!("({:.digits$} to {:.digits$})", self.low, self.high);
        write!(f, "{:width$.digits$} {quartiles:<19}", self.median)
    }
}

// ---- inputs

fn apply(image: &mut [u8], list: &[u64]) {
    for s in list {
        let reply = ledger::step_unchecked(image, *s);
        assert!(reply >> 56 == 0, "step {s:x}: reply {reply:x}");
    }
}

fn bytes(list: &[u64]) -> Vec<u8> {
    list.iter().flat_map(|s| s.to_be_bytes()).collect()
}

/// A session some steps old, and the next n steps of it.
fn mixed(seed: u64, old: usize, n: usize) -> (Vec<u8>, Vec<u8>) {
    let mut r = Random(seed);
    let mut image = generate::fresh();
    generate::prelude(&mut r, &mut image, 0);
    generate::steps(&mut r, &generate::MIXED, &mut image, old);
    let list = generate::steps(&mut r, &generate::MIXED, &mut image.clone(), n);
    (image, list)
}

/// Sixteen takes, all at work; a parcel has gone round them twice, so that each knows all.
fn ring() -> Vec<u8> {
    let mut image = generate::fresh();
    apply(&mut image, &[packed(0, 0, 0, 0, 1); 16]);
    apply(&mut image, &[packed(1, 0, 0, 0, 5)]);
    for i in 0..32 {
        let (t, next) = (i % 16, (i + 1) % 16);
        apply(
            &mut image,
            &[packed(2, 0, 0, i, 0), packed(6, t, 0, 0, 9), packed(4, t, next, 0, 7), packed(8, t, 0, 0, 0)],
        );
    }
    apply(&mut image, &[packed(11, 0, 0, 32, 0)]);
    for t in 0..16 {
        apply(&mut image, &[packed(1, t, 0, 0, 5), packed(2, 0, 0, 33 + t, 0), packed(5, t, 0, 0, 0)]);
    }
    image
}

/// 31 parcels with full maps wait; a list of receipts of the oldest, each followed by a send of one more.
fn crowded() -> (Vec<u8>, Vec<u8>) {
    let mut image = ring();
    let first = 49;
    for i in 0..31 {
        apply(&mut image, &[packed(4, i % 16, i % 16, 0, 5)]);
    }
    for t in 0..16 {
        apply(&mut image, &[packed(8, t, 0, 0, 0)]);
    }
    let mut list = Vec::new();
    for i in 0..341 {
        let t = i % 31 % 16;
        list.extend([packed(2, 0, 0, first + i, 0), packed(4, t, t, 0, 5), packed(8, t, 0, 0, 0)]);
    }
    let mut after = image.clone();
    apply(&mut after, &list);
    assert_eq!(generate::waiting(&after), 31);
    (image, bytes(&list))
}

/// Sixteen frozen takes that rest on each other.
fn frozen() -> Vec<u8> {
    let mut image = ring();
    for t in 0..16 {
        apply(&mut image, &[packed(7, t, 0, 0, 0)]);
    }
    image
}

/// Sixteen frozen takes in pairs that rest on each other, both at work.
fn pairs() -> Vec<u8> {
    let mut image = generate::fresh();
    apply(&mut image, &[packed(0, 0, 0, 0, 1); 16]);
    for pair in 0..8 {
        // A letter to the one, which sends a parcel to the other and gets one back; each writes on what it was sent.
        let (a, b, m) = (2 * pair, 2 * pair + 1, 3 * pair);
        apply(
            &mut image,
            &[packed(1, a, 0, 0, 5), packed(2, 0, 0, m, 0), packed(4, a, b, 0, 7), packed(8, a, 0, 0, 0)],
        );
        apply(&mut image, &[packed(2, 0, 0, m + 1, 0), packed(6, b, 0, 0, 9), packed(4, b, a, 0, 7)]);
        apply(
            &mut image,
            &[packed(2, 0, 0, m + 2, 0), packed(6, a, 0, 0, 9), packed(7, a, 0, 0, 0), packed(7, b, 0, 0, 0)],
        );
    }
    image
}

/// Sixteen frozen takes, of which each but the first rests on itself and the one before.
fn chain() -> Vec<u8> {
    let mut image = generate::fresh();
    apply(&mut image, &[packed(0, 0, 0, 0, 1); 16]);
    for t in 1..16 {
        // A letter, on which the take before sends a parcel; the take writes on that.
        let m = 2 * (t - 1);
        apply(
            &mut image,
            &[packed(1, t - 1, 0, 0, 1), packed(2, 0, 0, m, 0), packed(4, t - 1, t, 0, 1), packed(8, t - 1, 0, 0, 0)],
        );
        apply(&mut image, &[packed(2, 0, 0, m + 1, 0), packed(6, t, 0, 0, 1), packed(8, t, 0, 0, 0)]);
    }
    for t in 0..16 {
        apply(&mut image, &[packed(1, t, 0, 0, 1), packed(2, 0, 0, 30 + t, 0), packed(7, t, 0, 0, 0)]);
    }
    assert_eq!(ledger::smallest(&image, 15), Ok(Some(0xffff)));
    image
}

/// The same chain before it is frozen, with every take idle: the longest plan.
fn idle_chain() -> Vec<u8> {
    let mut image = chain();
    for t in 0..16 {
        image[generate::take_at(t)] = 1 << 6;
        image[generate::take_at(t) + STATE + MARK * t] &= !0x40;
    }
    assert_eq!(ledger::plan(&image, 15, &mut [0; PLAN]), Ok(49));
    image
}

/// A full image in which every volume is ready: each take is frozen, and every mark but the own ones is of a signed life.
fn alone() -> Vec<u8> {
    let mut image = generate::full_image(&mut Random(2));
    let own = |t: usize| generate::take_at(t) + STATE + MARK * t;
    (0..16).for_each(|t| image[own(t)] = 0xce); // present, frozen, fourteen entries
    (0..16).for_each(|t| image[own(t) + 31..own(t) + 33].fill(0));
    for (t, u, map) in (0..512).map(|i| (i / 32, i / 2 % 16, i % 2)) {
        let at = generate::take_at(t) + STATE + MAP * map + MARK * u;
        if at != own(u) {
            // The life that was signed last.
            image.copy_within(own(u)..own(u) + MARK, at);
            image[at] = 0x8d;
            image.copy_within(at + 29..at + 31, at + 1);
            image[at + 29..at + 31].fill(0);
        }
    }
    assert_eq!((1..=16).map(|n| ledger::ready_count(&image, n).unwrap()).sum::<usize>(), 65_535);
    image
}

/// A full image in which every map, of takes and parcels, holds the present lives of all.
fn bound() -> Vec<u8> {
    let mut image = generate::full_image(&mut Random(2));
    for (i, at) in generate::marks().enumerate() {
        let own = generate::take_at(i % 16) + STATE + MARK * (i % 16);
        image.copy_within(own..own + MARK, at);
    }
    let all = Dependents { resting: 0xffff, through: 0xffff, unfinished: 0xffff, carried: 32 };
    assert_eq!(ledger::dependents(&image, 0), Ok(all));
    image
}

/// The last of sixteen takes on each other, with every mark frozen that it has heard of.
fn heard() -> Vec<u8> {
    let mut image = frozen();
    for i in 0..32 {
        let head = &mut image[generate::take_at(15) + STATE + MARK * i];
        *head |= (*head & 0x80) >> 1; // frozen if present
    }
    assert_eq!(ledger::all_heard(&image, 15), Ok(true));
    image
}

/// 1,024 replies of which one in so many has outcome 3 or 4.
fn replies(seed: u64, one_in: usize) -> Vec<u8> {
    let mut r = Random(seed);
    let mut list = vec![0; 1024 * STEP];
    r.fill(&mut list);
    for reply in list.chunks_mut(STEP) {
        reply[0] = if r.one_in(one_in) { 3 + r.below(2) } else { 20 * r.below(2) } as u8;
    }
    list
}

/// The signing of a volume.
const fn sign(volume: u64) -> u64 {
    12 << 60 | volume << 32
}

fn rows() -> Vec<Row> {
    let run = |(image, list): (Vec<u8>, Vec<u8>), n: usize| Work { image, call: Call::Run(list, n), times: 1 };
    let row = |name, unit, works| Row { name, unit, works };
    let many = |image: &[u8], call| vec![Work { image: image.to_vec(), call, times: 64 }];
    let few = |image: &[u8], call| vec![Work { image: image.to_vec(), call, times: 1 }];
    let long = (0..32).map(|seed| run(mixed(seed, 128 * (seed as usize % 8), 1024), 1024)).collect();
    let short = (0..32).map(|seed| run(mixed(seed, 128 * (seed as usize % 8), 64), 1)).collect();
    let thin = |(image, list): (Vec<u8>, Vec<u8>)| Work { image, call: Call::Thin(list), times: 1 };
    let thin_long = (0..32).map(|seed| thin(mixed(seed, 128 * (seed as usize % 8), 1024))).collect();
    let thin_short = (0..32).map(|seed| thin(mixed(seed, 128 * (seed as usize % 8), 1))).collect();
    let crowded = crowded();
    let signing = frozen();
    // The last mark of a take's creation map is of a withdrawn life.
    let spoilt = |image: &[u8], take: usize| {
        let mut image = image.to_vec();
        let last = generate::take_at(take) + STATE + MAP + MARK * 15;
        image[last..last + 2].copy_from_slice(&[0x80, 1]);
        image
    };
    let unready = |image: &[u8], take, volume| vec![run((spoilt(image, take), bytes(&[sign(volume); 256])), 1024)];
    let pairs = pairs();
    let each_pair: Vec<u64> = (0..8).map(|pair| sign(3 << (2 * pair))).collect();
    apply(&mut pairs.clone(), &each_pair);
    let (session, _) = mixed(3, 512, 1);
    let waiting = generate::waiting(&session);
    let first_live =
        (0..TAKES).find(|t| ledger::obstacle(&session, 1 << t) == Ok(Obstacle::NotFrozen(*t as u8))).unwrap();
    let full = generate::full_image(&mut Random(2));
    // The same with every number in one byte, and in the old form.
    let lower = |image: &[u8]| {
        let mut low = image.to_vec();
        generate::marks().for_each(|at| (0..16).for_each(|i| low[at + 1 + 2 * i] = 0));
        let mut old = vec![0; OLD_IMAGE];
        assert_eq!(convert::back(&low, &mut old), 0);
        (low, old)
    };
    let (low, old) = lower(&full);
    let (_, session_old) = lower(&session);
    let newest = |image: &[u8], n: usize| generate::number(image, n - 1);
    let owner = |image: &[u8], n: usize| generate::addressee(image, n - 1);
    vec![
        row("mixed, runs of 1,024 steps", "step", long),
        row("mixed, runs of one step", "call", short),
        row("receive, send, done with 31 waiting", "step", vec![run(crowded.clone(), 1024)]),
        row("sign of 16 takes, not ready at the last mark", "step", unready(&signing, 15, 0xffff)),
        row(
            "sign of 16 takes, a run of one step",
            "call",
            (0..16).map(|_| run((signing.clone(), bytes(&[sign(0xffff)])), 1)).collect(),
        ),
        row("sign of 2 takes, not ready at the last mark", "step", unready(&pairs, 1, 3)),
        row(
            "sign of 2 takes, eight volumes in a run",
            "step",
            (0..16).map(|_| run((pairs.clone(), bytes(&each_pair)), 8)).collect(),
        ),
        row("form test alone, fresh image", "call", many(&generate::fresh(), Call::Form)),
        row("form test alone, session", "call", many(&session, Call::Form)),
        row("form test alone, full image", "call", many(&full, Call::Form)),
        row("show, session", "call", many(&session, Call::Show(newest(&session, waiting)))),
        row("show, full image", "call", many(&full, Call::Show(newest(&full, 32)))),
        row("offer, session", "call", many(&session, Call::Offer(owner(&session, waiting)))),
        row("offer, full image", "call", many(&full, Call::Offer(owner(&full, 32)))),
        row("smallest volume, 16 takes on each other", "call", many(&signing, Call::Smallest(15))),
        row("smallest volume, 16 takes in a chain", "call", many(&chain(), Call::Smallest(15))),
        row("ready volumes of 8 takes, all 65,535 ready", "call", few(&alone(), Call::ReadyCount(8))),
        row("all heard frozen, 16 takes on each other", "call", many(&heard(), Call::AllHeard(15))),
        row("dependents, session", "call", many(&session, Call::Dependents(first_live))),
        row("dependents, full image, all on each other", "call", many(&bound(), Call::Dependents(0))),
        row("dependents, 16 takes in a chain", "call", many(&chain(), Call::Dependents(0))),
        row("obstacle, session, not frozen", "call", many(&session, Call::Obstacle(1 << first_live))),
        row("obstacle of 16 takes, full image, none", "call", many(&alone(), Call::Obstacle(0xffff))),
        row("obstacle of 16 takes, the last mark", "call", many(&spoilt(&signing, 15), Call::Obstacle(0xffff))),
        row("impediment, session, itself not frozen", "call", many(&session, Call::Impediment(first_live))),
        row("impediment, full image, nothing", "call", many(&alone(), Call::Impediment(15))),
        row("impediment, full image, all on each other", "call", many(&bound(), Call::Impediment(15))),
        row("impediment, 16 takes in a chain", "call", many(&spoilt(&chain(), 0), Call::Impediment(15))),
        row("plan, session, two steps", "call", many(&session, Call::Plan(first_live))),
        row("plan, full image, the signing alone", "call", many(&alone(), Call::Plan(15))),
        row("plan, 16 idle takes in a chain, 49 steps", "call", many(&idle_chain(), Call::Plan(15))),
        row("plan, 16 takes in a chain, none: hopeless", "call", many(&spoilt(&chain(), 0), Call::Plan(15))),
        row("forward, session", "call", many(&session_old, Call::Forward)),
        row("forward, full image", "call", many(&old, Call::Forward)),
        row("back, session", "call", many(&session, Call::Back)),
        row("back, full image", "call", many(&low, Call::Back)),
        row(
            "worst window of 1,024 replies, width 256",
            "call",
            (0..16)
                .map(|seed| Work { image: vec![0; IMAGE], call: Call::WorstWindow(replies(seed, 8), 256), times: 16 })
                .collect(),
        ),
        row("thin, mixed, lists of 1,024 steps", "step", thin_long),
        row("thin, mixed, lists of one step", "call", thin_short),
        row("begin", "call", many(&session, Call::Begin)),
    ]
}

/// Steps of one kind on a full image with one parcel fewer, so that no kind hides in the mix.
fn kinds() -> Vec<Row> {
    let mut image = bound();
    let newest = generate::number(&image, 31) as usize;
    apply(&mut image, &[packed(11, 0, 0, newest, 0)]);
    let next = u16::from_be_bytes([image[1], image[2]]) as usize;
    let own = |t: usize| image[generate::take_at(t) + STATE + MARK * t];
    let loose = (0..TAKES).find(|t| own(*t) & 0x40 == 0 && own(*t) & 15 > 0).unwrap();
    let still = (0..TAKES).find(|t| own(*t) & 0x40 != 0).unwrap();
    let work = |list: &[u64]| Work { image: image.clone(), call: Call::Run(bytes(list), 1024), times: 1 };
    let again = |step: u64| vec![work(&[step; 1024])];
    // A parcel made, received or lost, and what follows.
    let each =
        |n: usize, make: &dyn Fn(usize) -> Vec<u64>| vec![work(&(next..next + n).flat_map(make).collect::<Vec<_>>())];
    let lose = |m| packed(11, 0, 0, m, 0);
    // Every waiting parcel, the newest first, to a take that is done with the one before.
    let receipts: Vec<u64> = (0..31)
        .rev()
        .flat_map(|k| {
            [
                packed(8, generate::addressee(&image, k), 0, 0, 0),
                packed(2, 0, 0, generate::number(&image, k) as usize, 0),
            ]
        })
        .collect();
    let short = |image: &[u8], list: &[u64]| {
        let (image, list) = (image.to_vec(), bytes(list));
        vec![Work { image, call: Call::Run(list, 1024), times: 1 }]
    };
    let each_alone: Vec<u64> = (0..16).map(|t| sign(1 << t)).collect();
    let half = half();
    let news: Vec<u64> = (0..8).map(|t| packed(3, t, 0, 0, 1)).collect();
    let row = |name, works| Row { name, unit: "step", works };
    vec![
        row("full: refused 20", again(u64::MAX)),
        row("full: letter, lose", each(512, &|m| vec![packed(1, loose, 0, 0, 5), lose(m)])),
        row(
            "full: letter, receive, done",
            each(256, &|m| vec![packed(8, loose, 0, 0, 0), packed(1, loose, 0, 0, 5), packed(2, 0, 0, m, 0)]),
        ),
        row("full: done, receive, newest first", short(&image, &receipts)),
        row("full: send, lose", each(512, &|m| vec![packed(4, loose, still, 0, 5), lose(m)])),
        row("full: read", again(packed(5, loose, 0, 0, 0))),
        row("full: write", again(packed(6, loose, 0, 0, 9))),
        row("full: write, held", again(packed(6, still, 0, 0, 9))),
        row("full: freeze", again(packed(7, loose, 0, 0, 0))),
        row("full: fail, falls back", again(packed(10, loose, 0, 0, 0))),
        row("full: fail, held", again(packed(10, still, 0, 0, 0))),
        row("full: sign of one take, 16 in a run", short(&alone(), &each_alone)),
        row("half full: new, 8 in a run", short(&half, &news)),
    ]
}

/// Eight takes of sixteen, with every place of theirs taken.
fn half() -> Vec<u8> {
    let mut image = bound();
    image[0] = 8;
    image[generate::take_at(8)..generate::parcel_at(0)].fill(0);
    for at in generate::marks().skip(8).step_by(16).flat_map(|at| (0..8).map(move |i| at + MARK * i)) {
        image[at..at + MARK].fill(0);
    }
    (0..PARCELS).for_each(|k| image[generate::parcel_at(k)] &= 0x87);
    image
}

/// A pass that thins a list against a run of the same list: how many runs it costs.
fn thin_cost(by: &Calls, repetitions: usize) {
    println!("{}: nanoseconds a list and ratio, median of {repetitions} (quartiles)", by.name);
    println!("{:20} {:>9} {:19} {:>9} {:19} {:>6}", "mixed, lists of", "thin", "", "run", "", "ratio");
    for n in [1, 8, 40, 200, 1024] {
        let lists: Vec<_> = (0..32).map(|seed| mixed(seed, 128 * (seed as usize % 8), n)).collect();
        let row = |call: fn(Vec<u8>) -> Call| {
            let work =
                |(image, list): &(Vec<u8>, Vec<u8>)| Work { image: image.clone(), call: call(list.clone()), times: 1 };
            Row { name: "", unit: "list", works: lists.iter().map(work).collect() }
        };
        let (thin, run) = (row(Call::Thin), row(|list| Call::Run(list, 1024)));
        let sample = |row: &Row| row.sample(&[by], 8)[0] * n as f64;
        let samples: Vec<[f64; 2]> = (0..repetitions).map(|_| [sample(&thin), sample(&run)]).collect();
        let spread = |f: fn(&[f64; 2]) -> f64| Spread::of(samples.iter().map(f).collect());
        let (thin, run, ratio) = (spread(|s| s[0]), spread(|s| s[1]), spread(|s| s[0] / s[1]));
        println!("{:20} {thin:9.0} {run:9.0} {ratio:6.2}", format!("{n} steps"));
    }
}

fn main() {
    let args: Vec<String> = std::env::args().skip(1).collect();
    if args.first().map(String::as_str) == Some("thin") {
        let repetitions = args.get(1).map_or(31, |n| n.parse().expect("a number of repetitions"));
        return [LIBRARY, RUST].iter().for_each(|by| thin_cost(by, repetitions));
    }
    let rows: Vec<Row> = rows().into_iter().chain(kinds()).collect();
    if args.first().map(String::as_str) == Some("profile") {
        let by = if args[1] == LIBRARY.name { LIBRARY } else { RUST };
        let row = &rows[args[2].parse::<usize>().expect("a row")];
        let passes = args[3].parse().expect("a number of passes");
        println!("{} by {}: {:.1} ns a {}", row.name, by.name, row.sample(&[&by], passes)[0], row.unit);
        return;
    }
    let repetitions = args.first().map_or(31, |n| n.parse().expect("a number of repetitions"));
    println!("of a hundred mixed steps reply with {}", rows[0].outcomes());
    println!("nanoseconds and ratio, median of {repetitions} (quartiles)");
    println!("{:44} {:>5} {:>9} {:19} {:>9} {:19} {:>6}", "", "unit", "library", "", "Rust", "", "ratio");
    let wanted: Vec<usize> = args.iter().skip(1).map(|n| n.parse().expect("a row")).collect();
    for (i, row) in rows.iter().enumerate() {
        if wanted.is_empty() || wanted.contains(&i) {
            row.measure(repetitions);
        }
    }
}
