//! Compares the conversions of the proved library with those written in Rust, call by call: every answer and every byte, that a refusal
//! leaves the destination, and that each way undoes the other.
//!
//!     conversions [SEED [COUNT]]              until both ways were asked for COUNT times

use bench::convert::{self, OLD_IMAGE};
use bench::generate::{self, Random, MARK};
use bench::ledger::{IMAGE, TAKES};
use bench::library;

/// What follows the head of a new image that has an old form.
const LIMITS: [u8; 4] = [16, 32, 15, 0];

type Convert = fn(&[u8], &mut [u8]) -> u8;

struct Way {
    name: &'static str,
    library: Convert,
    rust: Convert,
    answers: [u64; 33],
}

impl Way {
    /// Both on the same source and the same destination, which they leave in it.
    fn ask(&mut self, source: &[u8], target: &mut [u8]) -> u8 {
        let before = target.to_vec();
        let mut other = before.clone();
        let a = (self.library)(source, target);
        let b = (self.rust)(source, &mut other);
        assert_eq!(a, b, "{} answers {a}, and {b} in Rust", self.name);
        if let Some(at) = (0..other.len()).find(|i| target[*i] != other[*i]) {
            panic!("{}: byte {at} is {} in the library and {} in Rust", self.name, target[at], other[at]);
        }
        assert!(a == 0 || target == before, "a refused {} changed its destination", self.name);
        self.answers[a as usize] += 1;
        a
    }

    fn asked(&self) -> u64 {
        self.answers.iter().sum()
    }
}

struct Test {
    r: Random,
    marks: Vec<usize>,
    forward: Way,
    back: Way,
    /// 32 for numbers n and entries of lists, in the maps of takes and in parcels.
    over: [[u64; 2]; 4],
    /// 32 for limits alone.
    limits: u64,
    damaged: [u64; 2],
}

impl Test {
    fn buffer(&mut self, length: usize) -> Vec<u8> {
        let mut bytes = vec![0; length];
        self.r.fill(&mut bytes);
        bytes
    }

    /// The way back, and the way forward again where it succeeds; the old image.
    fn there_and_again(&mut self, new: &[u8]) -> (u8, Vec<u8>) {
        let mut old = self.buffer(OLD_IMAGE);
        let answer = self.back.ask(new, &mut old);
        if answer == 0 {
            let mut again = self.buffer(IMAGE);
            assert_eq!(self.forward.ask(&old, &mut again), 0, "what came back is not taken forward");
            assert!(again == new, "new to old to new gives other bytes");
        }
        (answer, old)
    }

    /// The way forward, and the way back again where it succeeds.
    fn forth_and_back(&mut self, old: &[u8]) -> u8 {
        let mut new = self.buffer(IMAGE);
        let answer = self.forward.ask(old, &mut new);
        if answer == 0 {
            let mut again = self.buffer(OLD_IMAGE);
            assert_eq!(self.back.ask(&new, &mut again), 0, "what was carried forward does not come back");
            assert!(again == old, "old to new to old gives other bytes");
        }
        answer
    }

    /// Every number of the image in one byte.
    fn lower(&self, image: &mut [u8]) {
        for at in &self.marks {
            (0..16).for_each(|i| image[at + 1 + 2 * i] = 0);
        }
    }

    /// Puts a number in a mark that is present; which of 32's counts it belongs to.
    fn raise(&mut self, image: &mut [u8], to: u16) -> Option<(usize, usize)> {
        let present: Vec<usize> = (0..self.marks.len()).filter(|m| image[self.marks[*m]] >> 7 == 1).collect();
        let m = self.r.pick(&present)?;
        let at = self.marks[m];
        let i = self.r.below(1 + (image[at] & 15) as usize);
        image[at + 1 + 2 * i..at + 3 + 2 * i].copy_from_slice(&to.to_be_bytes());
        let map = if m < 3 * TAKES * TAKES { m % (3 * TAKES) / TAKES } else { 3 };
        Some((map, (i > 0) as usize))
    }

    fn round(&mut self) {
        let mut image =
            if self.r.one_in(10) { generate::full_image(&mut self.r) } else { generate::image(&mut self.r) };
        if !self.r.one_in(4) {
            image[4..8].copy_from_slice(&LIMITS);
        }
        let other = image[4..8] != LIMITS;
        let kind = self.r.below(8);
        if kind > 0 {
            self.lower(&mut image);
        }
        let mut raised = None;
        match kind {
            1 | 2 => raised = self.raise(&mut image, 256),
            3 => _ = self.raise(&mut image, 255),
            4 => generate::damage(&mut self.r, &mut image),
            _ => {}
        }
        let (answer, mut old) = self.there_and_again(&image);
        if let Some((map, entry)) = raised {
            assert_eq!(answer, 32, "a number of 256 comes back");
            self.over[map][entry] += 1;
        }
        if kind == 3 || kind > 4 {
            assert_eq!(answer, if other { 32 } else { 0 }, "limits {:?}", &image[4..8]);
            self.limits += other as u64;
        }
        if answer == 0 {
            assert_eq!(self.forth_and_back(&old), 0);
            let bytes: Vec<usize> = (0..OLD_IMAGE).filter(|i| old[*i] != 0).collect();
            for _ in 0..1 + self.r.below(3) {
                let near = self.r.pick(&bytes).unwrap_or(0) + self.r.below(3);
                let at = if self.r.one_in(3) { self.r.below(OLD_IMAGE) } else { near.min(OLD_IMAGE - 1) };
                old[at] = if self.r.one_in(2) { old[at] ^ 1 << self.r.below(8) } else { self.r.next() as u8 };
            }
            let answer = self.forth_and_back(&old);
            self.damaged[(answer == 0) as usize] += 1;
        }
    }

    /// A source or a destination of another length, or both.
    fn wrong_lengths(&mut self) {
        let lengths = [0, 1, OLD_IMAGE - 1, OLD_IMAGE, OLD_IMAGE + 1, IMAGE - 1, IMAGE, IMAGE + 1];
        for a in lengths {
            for b in lengths {
                let (source, mut target) = (self.buffer(a), self.buffer(b));
                self.forward.ask(&source, &mut target);
                self.back.ask(&source, &mut target);
            }
        }
    }

    /// 255 and 256 in every place where a number stands, of an image in which all of them are taken.
    fn every_place(&mut self) {
        let mut image = generate::full_image(&mut self.r);
        for at in self.marks.clone() {
            image[at] = 0x80 | 15;
            self.r.fill(&mut image[at + 1..at + MARK]);
        }
        self.lower(&mut image);
        let mut old = self.buffer(OLD_IMAGE);
        for at in self.marks.clone() {
            for i in 0..16 {
                let place = at + 1 + 2 * i;
                let kept = [image[place], image[place + 1]];
                image[place..place + 2].copy_from_slice(&[0, 255]);
                assert_eq!(self.back.ask(&image, &mut old), 0, "255 at {place}");
                image[place..place + 2].copy_from_slice(&[1, 0]);
                assert_eq!(self.back.ask(&image, &mut old), 32, "256 at {place}");
                image[place..place + 2].copy_from_slice(&kept);
            }
        }
        self.there_and_again(&image);
    }
}

fn main() {
    let args: Vec<u64> = std::env::args().skip(1).map(|a| a.parse().expect("a number")).collect();
    let seed = args.first().copied().unwrap_or(1);
    let count = args.get(1).copied().unwrap_or(1_000_000);
    let mut test = Test {
        r: Random(seed),
        marks: generate::marks().collect(),
        forward: Way { name: "forward", library: library::forward, rust: convert::forward, answers: [0; 33] },
        back: Way { name: "back", library: library::back, rust: convert::back, answers: [0; 33] },
        over: [[0; 2]; 4],
        limits: 0,
        damaged: [0; 2],
    };
    test.every_place();
    while test.forward.asked() < count || test.back.asked() < count {
        test.round();
        if test.r.one_in(1000) {
            test.wrong_lengths();
        }
    }
    for way in [&test.forward, &test.back] {
        let seen: Vec<String> =
            way.answers.iter().enumerate().filter(|c| *c.1 > 0).map(|(n, c)| format!("{n}: {c}")).collect();
        println!("{:8} {}", way.name, seen.join("  "));
    }
    println!(
        "32 for numbers and for list entries: state {:?}, creation {:?}, behaviour {:?}, parcels {:?}",
        test.over[0], test.over[1], test.over[2], test.over[3]
    );
    println!("32 for limits alone: {}", test.limits);
    println!("damaged old images: ill-formed {}, still well-formed {}", test.damaged[0], test.damaged[1]);
    if count >= 100_000 {
        for n in [0, 16, 19] {
            assert!(test.forward.answers[n] > 0 && test.back.answers[n] > 0, "{n} was not seen both ways");
        }
        assert!(test.over.as_flattened().iter().all(|n| *n > 0), "32 was not seen everywhere");
        assert!(test.limits > 0, "32 was not seen for limits");
    }
    println!("conversions: seed {seed}, {} forward, {} back, no difference", test.forward.asked(), test.back.asked());
}
