//! test_vectors: a script of cases, whose operations are described at the head of its file stdin. Here are the lines, the
//! operations on bytes, those that run lists, and the conversions.

use crate::{asked, lists, marked};
use reference::ledger::{self, IMAGE, STEP};
use reference::{convert, defect, engine, generate};

/// What an operation prints behind the label, each word after a space; none if it prints nothing.
pub type Told = Option<Vec<String>>;

/// The longest list.
const LIST: usize = 8208;

struct Script {
    image: Vec<u8>,
    list: Vec<u8>,
}

pub fn numbers(told: &[usize]) -> Vec<String> {
    told.iter().map(|n| n.to_string()).collect()
}

pub fn truth(yes: bool) -> Vec<String> {
    vec![if yes { "yes" } else { "no" }.to_string()]
}

/// The bytes that are shown; past the end they count as zero.
fn row(bytes: &[u8], count: usize) -> impl Iterator<Item = String> + '_ {
    (0..count).map(|i| format!("{:02x}", bytes.get(i).copied().unwrap_or(0)))
}

/// The answer, and whether something changed.
fn answered(answer: u8, changed: bool) -> Told {
    Some(vec![answer.to_string(), if changed { "changed" } else { "unchanged" }.to_string()])
}

/// The step of KIND TAKE OTHER PARCEL TEXT; OTHER has 16 times the zero bits.
fn step(n: &[usize]) -> [u8; STEP] {
    let zero = (n[2] as u64 >> 4 & 15) << 48;
    (generate::packed(n[0] & 15, n[1] & 15, n[2] & 15, n[3] & 0xffff, n[4] as u32) | zero).to_be_bytes()
}

/// The numbers as bytes, from a place on.
fn put(bytes: &mut [u8], at: usize, numbers: &[usize]) -> Told {
    for (byte, n) in bytes[at..at + numbers.len()].iter_mut().zip(numbers) {
        *byte = *n as u8;
    }
    None
}

impl Script {
    fn begin(&mut self, limits: [usize; 3]) -> Told {
        let before = self.image.clone();
        let answer = ledger::begin(&mut self.image, limits[0], limits[1], limits[2]);
        answered(answer, before != self.image)
    }

    /// Runs the step so often; the last reply.
    fn run(&mut self, n: &[usize], times: usize) -> [u8; STEP] {
        let mut reply = [0; STEP];
        for _ in 0..times {
            reply = [0; STEP];
            ledger::run(&mut self.image, &step(n), 0, STEP, &mut reply);
        }
        reply
    }

    fn replied(&mut self, n: &[usize]) -> Told {
        let before = self.image.clone();
        let reply = self.run(n, 1);
        let mut told: Vec<String> = lists::numbers(&reply).iter().map(|n| n.to_string()).collect();
        told.extend(answered(0, before != self.image)?.pop());
        Some(told)
    }

    /// The answer of an empty run where the byte is changed; the clauses of well-formed images, read to the letter, say the same.
    fn form(&self, at: usize, byte: usize) -> Told {
        let mut image = self.image.clone();
        image[at] = byte as u8;
        let answer = ledger::run(&mut image, &[], 0, 0, &mut []);
        assert_eq!(answer, defect::defect(&image).0, "two readings of a rule");
        Some(numbers(&[answer as usize]))
    }

    fn number(&self, at: usize, width: usize, by: usize, modulo: usize) -> Told {
        let n = self.image[at..at + width].iter().fold(0, |n, byte| n << 8 | *byte as usize);
        Some(numbers(&[n / by % modulo]))
    }

    fn run_part(&mut self, start: usize, end: usize, length: usize, room: usize) -> Told {
        let (before, mut replies) = (self.image.clone(), vec![0; room]);
        let answer = ledger::run(&mut self.image, &self.list[..length], start, end, &mut replies);
        answered(answer, before != self.image || replies.iter().any(|byte| *byte != 0))
    }

    fn thin(&self, [start, end, length, room]: [usize; 4], shown: usize) -> Told {
        let mut out = vec![255; room];
        let answer = ledger::thin(&self.image, &self.list[..length], start, end, &mut out);
        let told = numbers(&answer.map_or_else(|refusal| [refusal as usize, 0], |kept| [0, kept]));
        Some(told.into_iter().chain(row(&out, shown)).collect())
    }

    fn engine(&self, limits: [usize; 3], length: usize, room: usize, shown: usize) -> Told {
        let mut replies = vec![255; room];
        let answer = engine::play(&self.list[..length], limits[0], limits[1], limits[2], &mut replies);
        Some(numbers(&[answer as usize]).into_iter().chain(row(&replies, shown)).collect())
    }

    /// Into a target of which every byte is 255, which is the image from then on if the answer is 0.
    fn convert(&mut self, by: fn(&[u8], &mut [u8]) -> u8, length: usize) -> Told {
        let mut target = vec![255; length];
        let answer = by(&self.image, &mut target);
        let changed = target.iter().any(|byte| *byte != 255);
        if answer == 0 {
            self.image = target;
        }
        answered(answer, changed)
    }

    fn operation(&mut self, op: &str, n: &[usize]) -> Told {
        match (op, n) {
            ("n", []) => {
                self.image = generate::fresh();
                None
            }
            ("i", [length, byte]) => {
                self.image = vec![*byte as u8; *length];
                None
            }
            ("b", [takes, parcels, signings]) => self.begin([*takes, *parcels, *signings]),
            ("z", []) => Some(truth(self.image.iter().all(|byte| *byte == 0))),
            ("p", [at, bytes @ ..]) if !bytes.is_empty() => put(&mut self.image, *at, bytes),
            ("v", [at, width]) => self.number(*at, *width, 1, usize::MAX),
            ("v", [at, width, by]) => self.number(*at, *width, *by, usize::MAX),
            ("v", [at, width, by, modulo]) => self.number(*at, *width, *by, *modulo),
            ("x", [at, count]) => Some(row(&self.image[*at..at + count], *count).collect()),
            ("f", [at, byte]) => self.form(*at, *byte),
            ("s", [_, _, _, _, _]) => {
                self.run(n, 1);
                None
            }
            ("r", [_, _, _, _, _, times]) => {
                self.run(n, *times);
                None
            }
            ("c", [_, _, _, _, _]) => self.replied(n),
            ("l", [at, bytes @ ..]) if !bytes.is_empty() => put(&mut self.list, *at, bytes),
            ("m", [_, _, _, _, _, at]) => {
                self.list[*at..at + STEP].copy_from_slice(&step(n));
                None
            }
            ("u", [start, end, length, room]) => self.run_part(*start, *end, *length, *room),
            ("d", [start, end, length, room, shown]) => self.thin([*start, *end, *length, *room], *shown),
            ("G", [t, p, s, length, room, shown]) => self.engine([*t, *p, *s], *length, *room, *shown),
            ("t", [length, width]) => Some(asked::window(&self.list[..*length], *width)),
            ("j", [length]) => self.convert(convert::forward, *length),
            ("k", [length]) => self.convert(convert::back, *length),
            _ => marked::operation(&mut self.image, op, n).unwrap_or_else(|| Some(asked::ask(&self.image, op, n))),
        }
    }
}

/// The letter, the numbers and the label of a line.
fn parts(line: &str) -> (&str, Vec<usize>, &str) {
    let (front, label) = line.split_once(" | ").unwrap_or((line, ""));
    let mut words = front.split(' ');
    let op = words.next().unwrap();
    (op, words.map(|w| w.parse().unwrap_or_else(|_| panic!("{line:?}: no number {w:?}"))).collect(), label)
}

pub fn play(input: &[u8]) -> Vec<u8> {
    let text = std::str::from_utf8(input).expect("a text");
    let mut script = Script { image: Vec::with_capacity(IMAGE), list: vec![0; LIST] };
    let mut printed = String::new();
    for line in text.lines().filter(|line| !line.is_empty() && !line.starts_with('#')) {
        let (op, n, label) = parts(line);
        let told = script.operation(op, &n);
        assert_eq!(told.is_some(), !label.is_empty(), "{line:?}: what prints a line has a label, and nothing else has");
        if let Some(words) = told {
            printed += label;
            printed += ":";
            words.iter().for_each(|word| printed.extend([" ", word]));
            printed += "\n";
        }
    }
    printed.into_bytes()
}
