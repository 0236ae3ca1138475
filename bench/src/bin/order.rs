//! Steps in other orders of arrival. Lists of steps are drawn for random images. In each, neighbours that the proved library
//! calls independent change places, again and again; the list so made is run from the same image by the library, and must
//! leave the same bytes and give every step the reply that it had. The library's answer is held against the Rust reading
//! (bench::order). Of the pairs that it calls dependent some must show a difference, for each clause some in which that clause
//! alone makes them dependent.
//!
//!     order [SEED [LISTS [ROUND]]]

use bench::generate::{self, packed, Random};
use bench::ledger::{self, IMAGE, STEP};
use bench::library;
use bench::order::{self, CHANGES, SEES};
use std::process::exit;

struct Test {
    seed: u64,
    round: u64,
    r: Random,
    lists: u64,
    exchanges: u64,
    asked: [u64; 20],      // by refusal, 0 for those answered
    answers: [u64; 2],     // dependent, independent
    shown: u64,            // dependent pairs whose order shows
    alone: [[u64; 10]; 2], // of these, by the one clause of `changes`, and by the one of `sees`, without which they were independent
}

fn step_at(list: &[u8], i: usize) -> u64 {
    u64::from_be_bytes(list[STEP * i..STEP * (i + 1)].try_into().unwrap())
}

impl Test {
    fn expect(&self, holds: bool, what: &str) {
        if !holds {
            eprintln!("FAILED: seed {} round {}: {what}", self.seed, self.round);
            eprintln!("again: order {} 1 {}", self.seed, self.round);
            exit(1);
        }
    }

    /// A grown session, or an image that no session grows.
    fn image(&mut self) -> Vec<u8> {
        if self.r.one_in(3) {
            return generate::image(&mut self.r);
        }
        let mut image = vec![0; IMAGE];
        let [takes, parcels, signings] = generate::any_limits(&mut self.r);
        ledger::begin(&mut image, takes, parcels, signings);
        generate::prelude(&mut self.r, &mut image, 0);
        let (mix, n) = (self.mix(), self.r.below(80));
        generate::steps(&mut self.r, &mix, &mut image, n);
        if self.r.one_in(3) {
            self.rest(&mut image);
        }
        image
    }

    /// One take is woken and sends a parcel, another writes on it, and both are frozen: where the session lets it be.
    fn rest(&mut self, image: &mut [u8]) {
        let (a, b) = (self.r.below(generate::opened(image)), self.r.below(generate::opened(image)));
        let next = u16::from_be_bytes([image[1], image[2]]) as usize;
        let steps =
            [packed(1, a, 0, 0, 0), packed(2, 0, 0, next, 0), packed(4, a, b, 0, 0), packed(2, 0, 0, next + 1, 0)];
        let more = [packed(6, b, 0, 0, 1), packed(7, b, 0, 0, 0), packed(7, a, 0, 0, 0)];
        for step in steps.into_iter().chain(more) {
            ledger::step_unchecked(image, step);
        }
    }

    fn mix(&mut self) -> generate::Mix {
        generate::MIXES[self.r.below(generate::MIXES.len())]
    }

    /// Two steps for one image, so that they meet often: signings of frozen takes, or any; a number that is waiting, or the next.
    fn pair(&mut self, image: &[u8]) -> [u64; 2] {
        let frozen: Vec<usize> = (0..generate::opened(image)).filter(|t| generate::frozen(image, *t)).collect();
        let signing = self.r.one_in(4);
        [(); 2].map(|_| match (self.r.pick(&frozen), self.r.pick(&frozen)) {
            (Some(t), Some(u)) if signing => packed(12, 0, 0, 1 << t | if self.r.one_in(3) { 1 << u } else { 0 }, 0),
            _ => self.any(image),
        })
    }

    fn any(&mut self, image: &[u8]) -> u64 {
        let top = (generate::opened(image) + 2).min(16);
        let (take, other, kind) = (self.r.below(top), self.r.below(top), self.r.below(13));
        let n = generate::waiting(image);
        let next = u16::from_be_bytes([image[1], image[2]]) as usize;
        let number = match self.r.below(6) {
            0 => next,
            _ if n > 0 => generate::number(image, self.r.below(n)) as usize,
            _ => self.r.below(next + 1),
        };
        match kind {
            0 => packed(0, 0, 0, 0, 1),
            2 | 11 => packed(kind, 0, 0, number, 0),
            4 => packed(4, take, other, 0, 3),
            12 => packed(12, 0, 0, 1 << take | if self.r.one_in(2) { 1 << other } else { 0 }, 0),
            1 | 3 | 6 => packed(kind, take, 0, 0, self.r.below(3) as u32),
            _ => packed(kind, take, 0, 0, 0),
        }
    }

    /// The library's answer about two steps, held against the reading.
    fn independent(&mut self, image: &[u8], p: u64, q: u64) -> bool {
        let answer = library::independent(image, &p.to_be_bytes(), &q.to_be_bytes());
        let met = order::meetings(image, p, q);
        self.expect(answer == Ok(met.is_empty()), &format!("{p:016x} {q:016x}: {answer:?}, by the reading {met:?}"));
        self.asked[0] += 1;
        self.answers[met.is_empty() as usize] += 1;
        if !met.is_empty() && !order::exchange(image, p, q) {
            self.shown += 1;
            for (side, of) in self.alone.iter_mut().enumerate() {
                let clause = met[0][side];
                of[clause] += met.iter().all(|m| m[side] == clause) as u64;
            }
        }
        met.is_empty()
    }

    /// The refusals, in their order: 16, 17, 19.
    fn refused(&mut self, image: &[u8]) {
        let (p, q) = ([0; STEP], vec![0; self.r.below(12)]);
        let mut damaged = image.to_vec();
        damaged[3] = 1;
        let wrong = q.len() != STEP;
        for (image, first, second, wanted) in [
            (&image[..IMAGE - 1], &p[..], &q[..], 16),
            (&damaged[..], &q[..], &p[..], if wrong { 17 } else { 19 }),
            (&damaged[..], &p[..], &q[..], if wrong { 17 } else { 19 }),
            (&damaged[..], &p[..], &p[..], 19),
        ] {
            let answer = library::independent(image, first, second);
            self.expect(answer == Err(wanted), &format!("refused: {answer:?}, not {wanted}"));
            self.asked[wanted as usize] += 1;
        }
    }

    /// Brings independent neighbours of the list into another order: the list, and where each of its steps stood.
    fn reordered(&mut self, image: &[u8], list: &[u8]) -> (Vec<u8>, Vec<usize>) {
        let n = list.len() / STEP;
        let (mut list, mut places) = (list.to_vec(), (0..n).collect::<Vec<_>>());
        for _ in 0..if n > 1 { 1 + self.r.below(n) } else { 0 } {
            let i = self.r.below(n - 1);
            let mut before = image.to_vec();
            for j in 0..i {
                ledger::step_unchecked(&mut before, step_at(&list, j));
            }
            if self.independent(&before, step_at(&list, i), step_at(&list, i + 1)) {
                list[STEP * i..STEP * (i + 2)].rotate_left(STEP);
                places.swap(i, i + 1);
                self.exchanges += 1;
            }
        }
        (list, places)
    }

    fn list(&mut self, image: &[u8]) {
        let (mix, n) = (self.mix(), self.r.below(12));
        let mut after = image.to_vec();
        let mut list = generate::steps(&mut self.r, &mix, &mut after, n);
        let pair = self.pair(&after);
        self.independent(&after, pair[0], pair[1]);
        list.extend(pair.iter().flat_map(|s| s.to_be_bytes()));
        let (other, places) = self.reordered(image, &list);
        let run = |list: &[u8]| {
            let (mut image, mut replies) = (image.to_vec(), vec![0; list.len()]);
            let answer = library::run(&mut image, list, 0, list.len(), &mut replies);
            (answer, image, replies)
        };
        let ((a, one, replies), (b, two, turned)) = (run(&list), run(&other));
        self.expect(a == 0 && b == 0, "a run of good steps is refused");
        self.expect(one == two, "independent neighbours changed places, and the image is another");
        let moved: Vec<u8> = places.iter().flat_map(|i| replies[STEP * i..STEP * (i + 1)].to_vec()).collect();
        self.expect(turned == moved, "independent neighbours changed places, and a reply is another");
        self.lists += 1;
    }

    fn round(&mut self) {
        let image = self.image();
        self.refused(&image);
        for _ in 0..16 {
            self.list(&image);
        }
    }

    fn print(&self) {
        let [dependent, independent] = self.answers;
        println!(
            "pairs asked {}: independent {independent}, dependent {dependent}, of which the order shows in {}",
            self.asked[0], self.shown
        );
        println!("refused: 16 {}, 17 {}, 19 {}", self.asked[16], self.asked[17], self.asked[19]);
        println!("exchanges {} in {} lists", self.exchanges, self.lists);
        for (names, counts, what) in [(&CHANGES[..], self.alone[0], "changes"), (&SEES[..], self.alone[1], "sees")] {
            let each: Vec<String> = names.iter().zip(counts).map(|(name, n)| format!("{name} {n}")).collect();
            println!("dependent by one clause of {what} alone, and the order shows: {}", each.join(", "));
        }
    }

    fn covered(&self) {
        for (names, counts) in [(&CHANGES[..], self.alone[0]), (&SEES[..], self.alone[1])] {
            for (name, n) in names.iter().zip(counts) {
                self.expect(n > 0, &format!("no pair was dependent by {name} alone"));
            }
        }
    }
}

fn main() {
    let args: Vec<u64> = std::env::args().skip(1).map(|a| a.parse().expect("a number")).collect();
    let seed = args.first().copied().unwrap_or(1);
    let wanted = args.get(1).copied().unwrap_or(1_000_000);
    let mut test = Test {
        seed,
        round: 0,
        r: Random(0),
        lists: 0,
        exchanges: 0,
        asked: [0; 20],
        answers: [0; 2],
        shown: 0,
        alone: [[0; 10]; 2],
    };
    let round = |test: &mut Test, n: u64| {
        test.round = n;
        test.r = Random(seed.wrapping_mul(0x1_0000_0001).wrapping_add(n << 20));
        test.round();
    };
    if let Some(n) = args.get(2) {
        round(&mut test, *n);
        return test.print();
    }
    let mut n = 0;
    while test.lists < wanted {
        n += 1;
        round(&mut test, n);
    }
    test.print();
    if wanted >= 50_000 {
        test.covered();
    }
    println!("order: seed {seed}, {} lists, no difference", test.lists);
}
