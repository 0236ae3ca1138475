//! Steps, replies and images as text, written from docs/NOTATION.md.

use crate::generate;

/// Lines of an image.
pub const LINES: usize = 1330;

// ---- steps

fn volume(g: u16) -> String {
    let takes: Vec<String> = (0..16).filter(|t| g >> t & 1 == 1).map(|t| t.to_string()).collect();
    format!("{{{}}}", takes.join(","))
}

/// A step's line, or none for a step that is refused with 20.
fn words(s: u64) -> Option<String> {
    let (kind, take, other, zero) = (s >> 60, s >> 56 & 15, s >> 52 & 15, s >> 48 & 15);
    let (parcel, text) = (s >> 32 & 65535, s & 0xffff_ffff);
    let uses = |t: bool, o: bool, p: bool, x: bool| {
        zero == 0 && (t || take == 0) && (o || other == 0) && (p || parcel == 0) && (x || text == 0)
    };
    let (line, fits) = match kind {
        0 => (format!("root text {text}"), uses(false, false, false, true)),
        1 => (format!("letter to {take} text {text}"), uses(true, false, false, true)),
        2 => (format!("receive {parcel}"), uses(false, false, true, false)),
        3 => (format!("new {take} text {text}"), uses(true, false, false, true)),
        4 => (format!("send {take} to {other} text {text}"), uses(true, true, false, true)),
        5 => (format!("read {take}"), uses(true, false, false, false)),
        6 => (format!("write {take} text {text}"), uses(true, false, false, true)),
        7 => (format!("freeze {take}"), uses(true, false, false, false)),
        8 => (format!("done {take}"), uses(true, false, false, false)),
        9 => (format!("fall {take}"), uses(true, false, false, false)),
        10 => (format!("fail {take}"), uses(true, false, false, false)),
        11 => (format!("lose {parcel}"), uses(false, false, true, false)),
        12 => (format!("sign {}", volume(parcel as u16)), uses(false, false, true, false)),
        _ => return None,
    };
    fits.then_some(line)
}

/// A step's line, with its LF.
pub fn step_line(step: &[u8]) -> String {
    let s = u64::from_be_bytes(step.try_into().unwrap());
    words(s).unwrap_or(format!("raw {s:016x}")) + "\n"
}

// ---- replies

const REFUSALS: [&str; 12] = [
    "kind 13 to 15, or unused or zero bits not zero",
    "acting take, addressee or named take not opened",
    "acting, receiving or named take vanished",
    "acting take not at work",
    "parcel not waiting",
    "no room for a take",
    "no room for a parcel",
    "next parcel number is 65535",
    "a signed take would fall from life 65535",
    "volume empty",
    "a named take has no room for a signing",
    "unrelated marks in parcel and receiver",
];

/// The words of a reply to a step of this kind.
pub fn reply(kind: u8, bytes: &[u8]) -> String {
    let r = u64::from_be_bytes(bytes.try_into().unwrap());
    let (outcome, take, parcel, text) = (r >> 56, r >> 48 & 255, r >> 32 & 65535, r & 0xffff_ffff);
    let has = [kind <= 10, [1, 2, 4, 11].contains(&kind), outcome == 0 && [2, 5].contains(&kind)];
    let numbers = [take, parcel, text];
    if outcome <= 5 && (0..3).all(|i| has[i] || numbers[i] == 0) {
        let mut s = String::from(["done", "held", "dropped", "fallen back", "vanished", "not ready"][outcome as usize]);
        for i in (0..3).filter(|i| has[*i]) {
            s += &format!(" {} {}", ["take", "parcel", "text"][i], numbers[i]);
        }
        return s;
    }
    if (20..=31).contains(&outcome) && numbers == [0, 0, 0] {
        let sentence =
            if outcome == 23 && kind == 2 { "receiving take not idle" } else { REFUSALS[outcome as usize - 20] };
        return format!("refused {outcome}: {sentence}");
    }
    format!("raw {r:016x}")
}

// ---- images

fn number_at(bytes: &[u8], at: usize) -> u32 {
    u16::from_be_bytes([bytes[at], bytes[at + 1]]) as u32
}

fn text_at(bytes: &[u8], at: usize) -> u32 {
    u32::from_be_bytes(bytes[at..at + 4].try_into().unwrap())
}

/// The text of a well-formed image. A million are written, so it is one buffer, and nothing is allocated for a line or a number.
#[derive(Default)]
pub struct Text {
    pub bytes: Vec<u8>,
    /// Where each line begins, and the end of the last.
    lines: Vec<usize>,
}

impl Text {
    pub fn of(&mut self, image: &[u8]) {
        self.bytes.clear();
        self.lines.clear();
        self.lines.push(0);
        let [takes, parcels, signings] = [4, 5, 6].map(|at| image[at] as u32);
        self.line(&[("limits: takes ", takes), (", parcels ", parcels), (", signings ", signings)]);
        self.line(&[("opened ", image[0] as u32), (", next parcel ", number_at(image, 1))]);
        (0..16).for_each(|t| self.take(t, &image[generate::take_at(t)..]));
        (0..32).for_each(|k| self.parcel(&image[generate::parcel_at(k)..]));
    }

    fn take(&mut self, t: usize, take: &[u8]) {
        let (text, saved) = (text_at(take, 1), text_at(take, 5));
        match take[0] >> 6 {
            0 => self.end(),
            1 => self.line(&[("take ", t as u32), (": idle, text ", text), (", saved ", saved)]),
            2 => self.line(&[("take ", t as u32), (": at work, text ", text), (", saved ", saved)]),
            _ => {
                self.words(&[("take ", t as u32)]);
                self.word(": vanished\n");
                self.end();
            }
        }
        for (m, name) in ["  state: take ", "  creation: take ", "  behaviour: take "].iter().enumerate() {
            self.map(name, &take[generate::STATE + generate::MAP * m..]);
        }
    }

    fn parcel(&mut self, parcel: &[u8]) {
        let (number, to, text) = (number_at(parcel, 1), parcel[0] & 15, text_at(parcel, 3));
        match parcel[0] >> 7 {
            0 => self.end(),
            _ => self.line(&[("parcel ", number), (" to ", to as u32), (", text ", text)]),
        }
        self.map("  map: take ", &parcel[7..]);
    }

    fn map(&mut self, name: &str, map: &[u8]) {
        for t in 0..16 {
            let m = &map[generate::MARK * t..][..generate::MARK];
            if m[0] & 128 != 0 {
                self.words(&[(name, t as u32)]);
                self.mark(m);
            }
            self.end();
        }
    }

    fn mark(&mut self, m: &[u8]) {
        let count = m[0] as usize & 15;
        self.word(if count == 0 { " (empty" } else { " (" });
        for i in 0..count {
            if i > 0 {
                self.bytes.push(b',');
            }
            self.number(number_at(m, 3 + 2 * i));
        }
        self.words(&[("; ", number_at(m, 1))]);
        self.word(if m[0] & 64 != 0 { ") frozen\n" } else { ")\n" });
    }

    fn line(&mut self, parts: &[(&str, u32)]) {
        self.words(parts);
        self.word("\n");
        self.end();
    }

    fn words(&mut self, parts: &[(&str, u32)]) {
        for (word, n) in parts {
            self.word(word);
            self.number(*n);
        }
    }

    fn number(&mut self, mut n: u32) {
        let (mut digits, mut first) = ([0; 10], 10);
        while first == 10 || n != 0 {
            first -= 1;
            digits[first] = b'0' + (n % 10) as u8;
            n /= 10;
        }
        self.bytes.extend_from_slice(&digits[first..]);
    }

    fn word(&mut self, word: &str) {
        self.bytes.extend_from_slice(word.as_bytes());
    }

    /// The end of a line, which may be empty.
    fn end(&mut self) {
        self.lines.push(self.bytes.len());
    }

    /// Line n; past the last they are empty.
    pub fn said(&self, n: usize) -> &[u8] {
        if LINES <= n {
            return &[];
        }
        &self.bytes[self.lines[n]..self.lines[n + 1]]
    }

    /// The line that has the byte.
    pub fn line_at(&self, byte: usize) -> usize {
        self.lines.partition_point(|first| *first <= byte) - 1
    }
}
