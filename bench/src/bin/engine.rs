//! Compares the proved engine without maps with the one in Rust and with the Rust ledger, list by list: every answer and reply, and after
//! each refusal that no reply changed. Then measures both engines.
//!
//!     engine [SEED [STEPS [REPETITIONS [ROUND]]]]
//!
//! Each round has a seed of its own; with ROUND that one alone is run. The engine's library is linked with the feature `engine`.

use bench::engine;
use bench::generate::{self, packed, Mix, Random};
use bench::ledger::{self, IMAGE, LONGEST, PARCELS, SIGNINGS, STEP, TAKES};
use bench::library;
use std::hint::black_box;
use std::process::exit;
use std::time::{Duration, Instant};

type Play = fn(&[u8], usize, usize, usize, &mut [u8]) -> u8;

/// The last goes back to the first step at each walk, and the one before it only as far as it must.
const SIDES: [(&str, Play); 3] =
    [("library", library::play), ("Rust engine", engine::play), ("Rust engine, through", engine::play_through)];

/// The steps of a list that begins a session with these limits.
fn steps(r: &mut Random, limits: [usize; 3], mix: &Mix, n: usize) -> Vec<u8> {
    let mut image = vec![0; IMAGE];
    assert_eq!(ledger::begin(&mut image, limits[0], limits[1], limits[2]), 0);
    let mut list = if r.one_in(2) { generate::prelude(r, &mut image, 0) } else { Vec::new() };
    let more = n.saturating_sub(list.len() / STEP);
    list.extend(generate::steps(r, mix, &mut image, more));
    list.truncate(STEP * n);
    list
}

/// The replies of the Rust ledger.
fn ledger_replies(list: &[u8], [takes, parcels, signings]: [usize; 3]) -> Vec<u8> {
    let (mut image, mut replies) = (vec![0; IMAGE], vec![0; list.len()]);
    assert_eq!(ledger::begin(&mut image, takes, parcels, signings), 0);
    assert_eq!(ledger::run(&mut image, list, 0, list.len(), &mut replies), 0);
    replies
}

// ---- the comparison

struct Test {
    seed: u64,
    round: u64,
    r: Random,
    answers: [u64; 36],
    steps: [[u64; 32]; 16], // by kind and outcome or refusal
    lists: u64,
}

impl Test {
    fn expect(&self, holds: bool, what: &str) {
        if !holds {
            eprintln!("FAILED: seed {} round {}: {what}", self.seed, self.round);
            eprintln!("again: engine {} 1 1 {}", self.seed, self.round);
            exit(1);
        }
    }

    /// Both engines on a list, with so many bytes for the replies: what is wanted is the answer, and for 0 the replies.
    fn play(&mut self, list: &[u8], limits: [usize; 3], room: usize, answer: u8, wanted: &[u8]) {
        let mut blank = vec![0; room];
        self.r.fill(&mut blank);
        for (name, play) in SIDES {
            let mut replies = blank.clone();
            let given = play(list, limits[0], limits[1], limits[2], &mut replies);
            let (n, limits) = (list.len(), format!("limits {limits:?}"));
            self.expect(
                given == answer,
                &format!("{name}: {n} bytes, room for {room}, {limits}: {given}, not {answer}"),
            );
            if answer != 0 {
                self.expect(replies == blank, &format!("{name}: a refused list changed the replies"));
                continue;
            }
            if let Some(i) =
                (0..n / STEP).find(|i| replies[STEP * i..STEP * i + STEP] != wanted[STEP * i..STEP * i + STEP])
            {
                let at = STEP * i..STEP * i + STEP;
                let (step, reply, wanted) = (&list[at.clone()], &replies[at.clone()], &wanted[at]);
                self.expect(
                    false,
                    &format!("{name}: step {i}, {step:?}, {limits}: {reply:?}, by the ledger {wanted:?}"),
                );
            }
        }
        self.answers[answer as usize] += 1;
    }

    fn good(&mut self) {
        let limits = generate::any_limits(&mut self.r);
        let mix = generate::MIXES[self.r.below(generate::MIXES.len())];
        let n = match self.r.below(8) {
            0 => self.r.below(16),
            1 => self.r.below(1024),
            _ => 1024,
        };
        let list = steps(&mut self.r, limits, &mix, n);
        let wanted = ledger_replies(&list, limits);
        self.play(&list, limits, list.len(), 0, &wanted);
        self.lists += 1;
        for (step, reply) in list.chunks(STEP).zip(wanted.chunks(STEP)) {
            self.steps[(step[0] >> 4) as usize][reply[0] as usize & 31] += 1;
        }
    }

    /// A list of a wrong length, replies of a wrong length, limits out of range: some of them, and the first in this order is answered.
    fn bad(&mut self) {
        let mut limits = generate::any_limits(&mut self.r);
        let n = STEP * self.r.below(LONGEST / STEP + 1);
        let mut list = vec![0; n];
        self.r.fill(&mut list);
        let (mut room, mut answer) = (n, 0);
        if self.r.one_in(2) {
            let i = self.r.below(3);
            let greatest = [TAKES, PARCELS, SIGNINGS][i];
            limits[i] = match self.r.below(5) {
                0 => 0,
                1 => greatest + 1,
                2 => limits[i] + 256 * (1 + self.r.below(3)),
                3 => limits[i] + (1 << 32 + self.r.below(32)),
                _ => usize::MAX - self.r.below(20),
            };
            answer = 33;
        }
        if self.r.one_in(2) {
            room = match self.r.below(4) {
                0 => room + 1,
                1 => room.saturating_sub(1),
                2 => 0,
                _ => self.r.below(LONGEST + 20),
            };
            answer = if room == n { answer } else { 18 };
        }
        if self.r.one_in(2) {
            let more = if self.r.one_in(2) { LONGEST + STEP } else { n + 1 + self.r.below(7) };
            room = if room == n { more } else { room };
            list.resize(more, 0);
            answer = 17;
        }
        let wanted = if answer == 0 { ledger_replies(&list, limits) } else { Vec::new() };
        self.play(&list, limits, room, answer, &wanted);
    }

    fn round(&mut self, n: u64) {
        self.round = n;
        self.r = Random(self.seed.wrapping_mul(0x1_0000_0001).wrapping_add(n << 20));
        self.good();
        self.bad();
    }

    fn total(&self) -> u64 {
        self.steps.iter().flatten().sum()
    }

    /// Every outcome and refusal that a session from fresh can have in 1,024 steps, and each answer, must have been seen.
    fn covered(&self) {
        let outcome = |n: usize| self.steps.iter().map(|kind| kind[n]).sum::<u64>();
        for n in (0..=5).chain(20..=26).chain([29, 30]) {
            self.expect(outcome(n) > 0, &format!("no step had outcome or refusal {n}"));
        }
        for n in [0, 2, 3, 4, 20, 22, 23, 24] {
            self.expect(self.steps[2][n] > 0, &format!("no receive had outcome or refusal {n}"));
        }
        for n in [0, 17, 18, 33] {
            self.expect(self.answers[n] > 0, &format!("no list was answered {n}"));
        }
    }

    fn print(&self) {
        let row = |name: &str, counts: &[u64]| {
            let seen: Vec<String> =
                counts.iter().enumerate().filter(|c| *c.1 > 0).map(|(n, c)| format!("{n}: {c}")).collect();
            println!("{name:9} {}", seen.join("  "));
        };
        row("answers", &self.answers);
        let mut all = [0; 32];
        for (kind, counts) in self.steps.iter().enumerate() {
            row(&format!("kind {kind}"), counts);
            counts.iter().enumerate().for_each(|(n, c)| all[n] += c);
        }
        row("steps", &all);
    }
}

// ---- the benchmark

/// A session of 1,024 steps, put together step by step; the image says what a step would find.
struct Session {
    image: Vec<u8>,
    list: Vec<u8>,
}

impl Session {
    fn full(&self) -> bool {
        self.list.len() >= LONGEST
    }

    /// The outcome of a step. Those past the end of the list are left out.
    fn add(&mut self, step: u64) -> u64 {
        if self.full() {
            return 0;
        }
        self.list.extend(step.to_be_bytes());
        ledger::step_unchecked(&mut self.image, step) >> 56
    }

    fn next(&self) -> usize {
        u16::from_be_bytes([self.image[1], self.image[2]]) as usize
    }

    /// A letter to the take, received.
    fn wake(&mut self, take: usize) {
        let parcel = self.next();
        self.add(packed(1, take, 0, 0, 5));
        self.add(packed(2, 0, 0, parcel, 0));
    }

    /// The take sends to another, which receives.
    fn pass(&mut self, from: usize, to: usize) {
        let parcel = self.next();
        self.add(packed(4, from, to, 0, 7));
        self.add(packed(2, 0, 0, parcel, 0));
    }
}

fn sixteen() -> Session {
    let mut s = Session { image: generate::fresh(), list: Vec::new() };
    (0..TAKES).for_each(|_| assert_eq!(s.add(packed(0, 0, 0, 0, 1)), 0));
    s
}

/// A letter wakes the first of sixteen takes; each in turn does something, sends to the next, which receives, and is done. What a take
/// rests on goes back to the first steps.
fn chain(work: impl Fn(&mut Session, usize)) -> Vec<u8> {
    let mut s = sixteen();
    s.wake(0);
    for t in (0..TAKES).cycle() {
        if s.full() {
            break;
        }
        work(&mut s, t);
        s.pass(t, (t + 1) % TAKES);
        s.add(packed(8, t, 0, 0, 0));
    }
    s.list
}

fn write(s: &mut Session, t: usize) {
    s.add(packed(6, t, 0, 0, 9));
}

fn read_and_write(s: &mut Session, t: usize) {
    s.add(packed(5, t, 0, 0, 0));
    write(s, t);
}

/// A letter to each of sixteen takes in turn, received, and done. The parcel's chain ends at the letter, the take's at its opening.
fn letters() -> Vec<u8> {
    let mut s = sixteen();
    for t in (0..TAKES).cycle() {
        if s.full() {
            break;
        }
        s.wake(t);
        s.add(packed(8, t, 0, 0, 0));
    }
    s.list
}

/// Signings of the first fifteen takes up to the end of the list, which are not ready.
fn sign_fifteen(mut s: Session) -> Vec<u8> {
    while !s.full() {
        assert_eq!(s.add(packed(12, 0, 0, 0x7fff, 0)), 5);
    }
    s.list
}

/// Fifteen takes that rest on each other, and by a chain that begins at the first steps on a sixteenth.
fn signings() -> Vec<u8> {
    let mut s = sixteen();
    s.wake(15);
    s.pass(15, 0);
    for i in 0..60 {
        let t = i % 15;
        write(&mut s, t);
        s.pass(t, (t + 1) % 15);
        s.add(packed(8, t, 0, 0, 0));
    }
    s.add(packed(7, 0, 0, 0, 0));
    for t in 1..15 {
        s.wake(t);
        s.add(packed(7, t, 0, 0, 0));
    }
    sign_fifteen(s)
}

/// The same of fifteen takes of which one rests on the sixteenth; that one reads and writes for the first half of the list.
fn late_signings() -> Vec<u8> {
    let mut s = sixteen();
    s.wake(15);
    s.pass(15, 0);
    write(&mut s, 0);
    s.add(packed(7, 0, 0, 0, 0));
    for t in 1..15 {
        s.wake(t);
        s.add(packed(7, t, 0, 0, 0));
    }
    while s.list.len() < LONGEST / 2 {
        read_and_write(&mut s, 15);
    }
    sign_fifteen(s)
}

struct Row {
    name: &'static str,
    lists: Vec<Vec<u8>>,
    goal: f64, // milliseconds
}

fn rows() -> Vec<Row> {
    let mixed =
        (0..16).map(|seed| steps(&mut Random(seed), [TAKES, PARCELS, SIGNINGS], &generate::MIXED, 1024)).collect();
    let row = |name, list| Row { name, lists: vec![list], goal: 300.0 };
    vec![
        Row { name: "mixed", lists: mixed, goal: 20.0 },
        row("chain, each reads and writes once", chain(read_and_write)),
        row("chain, each reads and writes 22 times", chain(|s, t| (0..22).for_each(|_| read_and_write(s, t)))),
        row("chain of sends and receipts, each writes", chain(write)),
        row("chain of sends and receipts alone", chain(|_, _| {})),
        row("letters received", letters()),
        row("signings of 15 takes on each other", signings()),
        row("signings of 15 takes, after reads and writes", late_signings()),
    ]
}

fn median(mut all: Vec<f64>) -> f64 {
    all.sort_by(f64::total_cmp);
    all[all.len() / 2]
}

impl Row {
    /// Milliseconds a list; of each list the least of three passes counts.
    fn sample(&self, play: Play) -> f64 {
        let mut sum = Duration::ZERO;
        for list in &self.lists {
            let mut replies = vec![0; list.len()];
            let pass = |_| {
                let start = Instant::now();
                black_box(play(black_box(list), TAKES, PARCELS, SIGNINGS, black_box(&mut replies)));
                start.elapsed()
            };
            sum += (0..3).map(pass).min().unwrap();
        }
        sum.as_secs_f64() * 1000.0 / self.lists.len() as f64
    }

    fn measure(&self, repetitions: usize) {
        for list in &self.lists {
            let wanted = ledger_replies(list, [TAKES, PARCELS, SIGNINGS]);
            for (name, play) in SIDES {
                let mut replies = vec![0; list.len()];
                play(list, TAKES, PARCELS, SIGNINGS, &mut replies);
                assert!(replies == wanted, "{}: the {name} and the ledger differ", self.name);
            }
        }
        let samples: Vec<[f64; 3]> = (0..repetitions).map(|_| SIDES.map(|side| self.sample(side.1))).collect();
        let of = |f: fn(&[f64; 3]) -> f64| median(samples.iter().map(f).collect());
        let (library, rust, through) = (of(|s| s[0]), of(|s| s[1]), of(|s| s[2]));
        let ratios = (of(|s| s[0] / s[1]), of(|s| s[0] / s[2]));
        print!("{:46} {library:9.2} {rust:9.2} {through:9.2}", self.name);
        println!(" {:6.2} {:6.2} {:6}", ratios.0, ratios.1, self.goal);
    }
}

fn main() {
    let args: Vec<u64> = std::env::args().skip(1).map(|a| a.parse().expect("a number")).collect();
    let seed = args.first().copied().unwrap_or(1);
    let wanted = args.get(1).copied().unwrap_or(10_000_000);
    let repetitions = args.get(2).copied().unwrap_or(7) as usize;
    let mut test = Test { seed, round: 0, r: Random(0), answers: [0; 36], steps: [[0; 32]; 16], lists: 0 };
    if let Some(n) = args.get(3) {
        test.round(*n);
        return test.print();
    }
    let mut n = 0;
    while test.total() < wanted {
        n += 1;
        test.round(n);
    }
    test.print();
    if wanted >= 1_000_000 {
        test.covered();
    }
    println!("engine: seed {seed}, {} lists, {} steps, no difference", test.lists, test.total());
    println!("milliseconds a list of 1,024 steps, and ratios to both, median of {repetitions}; goal in milliseconds");
    println!("{:46} {:>9} {:>9} {:>9} {:>6} {:>6} {:>6}", "", "library", "Rust", "through", "ratio", "", "goal");
    rows().iter().for_each(|row| row.measure(repetitions));
}
