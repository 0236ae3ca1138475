//! Compares the text of lists, of replies and of images with what reference/src/notation.rs writes from docs/NOTATION.md, and the
//! steps and faults of a text with what reference/src/parser.rs reads: every byte and answer, that a refusal leaves the buffer, that
//! a list is read back from its text and from a looser one, that random bytes are a fault or whole steps, and that an image is read
//! back from its text. Every line looks at the whole image, so all 1,330 lines are asked of WHOLE of the IMAGES, which are read
//! back from the library's text; of each other one a few that are picked at random, and it is read back from that writer's text.
//!
//!     text [SEED [LISTS [IMAGES [WHOLE]]]]

use bench::generate::{self, Random};
use bench::ledger::{self, IMAGE, LONGEST, STEP};
use bench::notation::{reply, step_line, Text, LINES};
use bench::parser::{self, EXPECTED};
use std::ops::Range;
use std::sync::atomic::{AtomicUsize, Ordering};

/// Room for each line of an image.
const LINE: usize = 256;
/// How many lists or images have a seed in common.
const BATCH: usize = 1000;

#[repr(C)]
struct Given {
    length: usize,
    refusal: u8,
}

extern "C" {
    fn notation_parse(
        text: *const u8,
        text_length: usize,
        out: *mut u8,
        out_length: usize,
        line: *mut usize,
        column: *mut usize,
        expected: *mut u8,
    ) -> usize;
    fn notation_expected_text(expected: u8, out: *mut u8, out_length: usize) -> Given;
    fn notation_length(list: *const u8, list_length: usize) -> Given;
    fn notation_print(list: *const u8, list_length: usize, out: *mut u8, out_length: usize) -> Given;
    fn notation_step(list: *const u8, list_length: usize, i: usize, out: *mut u8, out_length: usize) -> Given;
    fn notation_reply(
        list: *const u8,
        list_length: usize,
        replies: *const u8,
        replies_length: usize,
        i: usize,
        out: *mut u8,
        out_length: usize,
    ) -> Given;
    fn notation_image(image: *const u8, image_length: usize, n: usize, out: *mut u8, out_length: usize) -> Given;
}

// ---- images, read back

/// What is left of a text.
struct Reader<'a>(&'a [u8]);

impl Reader<'_> {
    #[inline(always)] // so that a short word is compared in place
    fn has(&mut self, word: &str) -> bool {
        let rest = self.0.strip_prefix(word.as_bytes());
        self.0 = rest.unwrap_or(self.0);
        rest.is_some()
    }

    #[inline(always)]
    fn word(&mut self, word: &str) {
        assert!(self.has(word), "{word:?} is not in the text");
    }

    fn number(&mut self) -> u32 {
        let (mut n, mut digits) = (0, 0);
        while let Some(b @ b'0'..=b'9') = self.0.get(digits) {
            n = 10 * n + (*b - b'0') as u64;
            digits += 1;
        }
        assert!(0 < digits && digits <= 10, "a number is not in the text");
        self.0 = &self.0[digits..];
        n.try_into().unwrap()
    }

    /// Reads the word and the number behind it, and writes that to the bytes.
    #[inline(always)]
    fn put<const N: usize>(&mut self, word: &str, bytes: &mut [u8]) {
        self.word(word);
        let n = self.number();
        assert!(N == 4 || n >> (8 * N) == 0, "a number is too great");
        bytes[..N].copy_from_slice(&n.to_be_bytes()[4 - N..]);
    }

    fn map(&mut self, name: &str, map: &mut [u8]) {
        while self.has(name) {
            let t = self.number() as usize;
            self.mark(&mut map[generate::MARK * t..][..generate::MARK]);
        }
    }

    fn mark(&mut self, m: &mut [u8]) {
        self.word(" (");
        let mut count = 0;
        let mut more = !self.has("empty");
        while more {
            self.put::<2>("", &mut m[3 + 2 * count..]);
            count += 1;
            more = self.has(",");
        }
        self.put::<2>("; ", &mut m[1..]);
        self.word(")");
        m[0] = 128 + 64 * self.has(" frozen") as u8 + count as u8;
        self.word("\n");
    }

    /// A take, from its status on.
    fn take(&mut self, take: &mut [u8]) {
        let status = [": idle", ": at work", ": vanished"].iter().position(|s| self.has(s));
        take[0] = 64 * (1 + status.expect("a status") as u8);
        if status != Some(2) {
            self.put::<4>(", text ", &mut take[1..]);
            self.put::<4>(", saved ", &mut take[5..]);
        }
        self.word("\n");
        for (m, name) in ["  state: take ", "  creation: take ", "  behaviour: take "].iter().enumerate() {
            self.map(name, &mut take[generate::STATE + generate::MAP * m..]);
        }
    }

    /// A parcel, from its number on.
    fn parcel(&mut self, parcel: &mut [u8]) {
        self.put::<2>("", &mut parcel[1..]);
        self.put::<1>(" to ", parcel);
        parcel[0] += 128;
        self.put::<4>(", text ", &mut parcel[3..]);
        self.word("\n");
        self.map("  map: take ", &mut parcel[7..]);
    }
}

/// Writes the image that a text says.
fn image_of(text: &[u8], image: &mut [u8]) {
    image.fill(0);
    let mut s = Reader(text);
    s.put::<1>("limits: takes ", &mut image[4..]);
    s.put::<1>(", parcels ", &mut image[5..]);
    s.put::<1>(", signings ", &mut image[6..]);
    s.put::<1>("\nopened ", image);
    s.put::<2>(", next parcel ", &mut image[1..]);
    s.word("\n");
    while s.has("take ") {
        let t = s.number() as usize;
        s.take(&mut image[generate::take_at(t)..][..generate::TAKE]);
    }
    let mut k = 0;
    while s.has("parcel ") {
        s.parcel(&mut image[generate::parcel_at(k)..][..generate::PARCEL]);
        k += 1;
    }
    assert!(s.0.is_empty(), "a line too many");
}

// ---- the comparison

/// A list: random bytes, random steps of a session, or both.
fn list(r: &mut Random) -> Vec<u8> {
    let n = if r.one_in(50) { LONGEST / STEP } else { r.below(40) };
    let mut bytes = vec![0; STEP * n];
    r.fill(&mut bytes);
    for s in bytes.chunks_mut(STEP) {
        if r.one_in(4) {
            continue;
        }
        let kind = r.below(13);
        let text = if r.one_in(2) { r.next() as u32 } else { r.below(12) as u32 };
        let all = generate::packed(kind, r.below(16), r.below(16), r.below(65536), text);
        let fields = [
            0xf000_0000_ffff_ffffu64,
            0xff00_0000_ffff_ffff,
            0xf000_ffff_0000_0000,
            0xff00_0000_ffff_ffff,
            0xfff0_0000_ffff_ffff,
        ][kind.min(4)];
        let mask = match kind {
            0..=4 => fields,
            6 => 0xff00_0000_ffff_ffff,
            11 | 12 => 0xf000_ffff_0000_0000,
            _ => 0xff00_0000_0000_0000,
        };
        s.copy_from_slice(&(all & mask).to_be_bytes());
    }
    if r.one_in(20) {
        bytes.truncate(bytes.len().saturating_sub(1 + r.below(7)));
    }
    if r.one_in(200) {
        bytes.resize(LONGEST + STEP, 0);
    }
    bytes
}

/// Calls on a buffer of that length, filled with noise, and gives what was written; a refusal leaves all of it, the rest stays.
fn given(r: &mut Random, room: usize, call: impl Fn(*mut u8, usize) -> Given) -> Result<Vec<u8>, u8> {
    let mut out = vec![0; room];
    r.fill(&mut out);
    let before = out.clone();
    let g = call(out.as_mut_ptr(), out.len());
    if g.refusal != 0 {
        assert!(g.length == 0 && out == before, "a refusal changed the buffer");
        return Err(g.refusal);
    }
    assert!(out[g.length..] == before[g.length..], "more was written than answered");
    out.truncate(g.length);
    Ok(out)
}

/// A fault: the line, the column and what was expected.
type Fault = (usize, usize, u8);

/// The steps of a text, read into that much room, or its fault: the library's answer, which is that of reference/src/parser.rs.
fn parsed(r: &mut Random, text: &[u8], room: usize) -> Result<Vec<u8>, Fault> {
    let answer = read(r, text, room);
    let other = parser::parse(text, room / STEP).map_err(|f| (f.line, f.column, f.expected as u8));
    assert_eq!(answer, other, "{:?}", String::from_utf8_lossy(text));
    answer
}

/// The library's answer: at a fault no byte is changed, and without one none past the steps.
fn read(r: &mut Random, text: &[u8], room: usize) -> Result<Vec<u8>, Fault> {
    let mut out = vec![0; room];
    r.fill(&mut out);
    let before = out.clone();
    let (mut line, mut column, mut expected) = (9, 9, 9);
    let n = unsafe {
        notation_parse(text.as_ptr(), text.len(), out.as_mut_ptr(), room, &mut line, &mut column, &mut expected)
    };
    if expected != 0 {
        assert!(n == 0 && out == before, "a fault changed the buffer");
        return Err((line, column, expected));
    }
    assert!((line, column) == (0, 0) && out[STEP * n..] == before[STEP * n..], "more was written than answered");
    out.truncate(STEP * n);
    Ok(out)
}

/// The text with blanks, comments, empty lines and zeros in front of numbers, where a reader lets them pass.
fn loosened(r: &mut Random, text: &str) -> String {
    let mut loose = String::new();
    for line in text.lines() {
        let raw = line.starts_with("raw");
        let mut fresh = true;
        for c in line.chars() {
            if c == ' ' || c == ',' || c == '{' || c == '}' {
                loose += ["", " ", "\t", " \r "][if c == ' ' { 1 + r.below(3) } else { r.below(4) }];
                fresh = true;
            } else if fresh && c.is_ascii_digit() && !raw {
                loose += ["", "0", "000"][r.below(3)];
                fresh = false;
            } else {
                fresh = false;
            }
            if c != ' ' {
                loose.push(c);
            }
        }
        loose += ["\n", " \n", "\r\n", " # root text 1\n", "#\n\n", "\n  # nothing\n"][r.below(6)];
    }
    loose
}

/// A list is read back from its text, and from a looser one; with a step's room less it is not.
fn back(r: &mut Random, list: &[u8], text: &str) {
    let extra = r.below(9);
    assert_eq!(parsed(r, text.as_bytes(), list.len() + extra).as_deref(), Ok(list));
    let loose = loosened(r, text);
    assert_eq!(parsed(r, loose.as_bytes(), list.len()).as_deref(), Ok(list), "{loose}");
    if !list.is_empty() {
        let last = text.lines().count();
        assert_eq!(parsed(r, text.as_bytes(), list.len() - 1), Err((last, 1, 12)));
    }
}

const USUAL: &[u8] =
    b"root letter receive new send read write freeze done fall fail lose sign raw to text 0123456789{,} \t\r\n#";

/// Random bytes, most of them such as stand in texts.
fn random_text(r: &mut Random) -> Vec<u8> {
    let mut text = vec![0; r.below(60)];
    r.fill(&mut text);
    if !r.one_in(4) {
        text.iter_mut().for_each(|b| *b = USUAL[*b as usize % USUAL.len()]);
    }
    text
}

/// The loose text of a few steps, with a byte or two changed, put in or taken out.
fn spoilt_text(r: &mut Random) -> Vec<u8> {
    let steps = list(r);
    let lines: String = steps.chunks_exact(STEP).take(1 + r.below(4)).map(step_line).collect();
    let mut text = loosened(r, &lines).into_bytes();
    for _ in 0..1 + r.below(2) {
        let (at, byte) = (r.below(text.len() + 1), USUAL[r.below(USUAL.len())]);
        match r.below(3) {
            0 => text.insert(at, byte),
            1 if at < text.len() => text[at] = byte,
            _ if at < text.len() => drop(text.remove(at)),
            _ => {}
        }
    }
    text
}

/// Such texts: faults, or whole steps that are read again from their own text.
fn noise(r: &mut Random, count: usize) -> usize {
    let mut faults = 0;
    for _ in 0..count {
        let text = if r.one_in(2) { random_text(r) } else { spoilt_text(r) };
        let room = if r.one_in(8) { STEP * r.below(4) } else { STEP * 61 };
        match parsed(r, &text, room) {
            Err(_) => faults += 1,
            Ok(list) => back(r, &list, &list.chunks_exact(STEP).map(step_line).collect::<String>()),
        }
    }
    faults
}

/// What was expected, by its number, as the table of docs/NOTATION.md has it (the rows with four columns, two blanks or more between
/// them) and as reference/src/parser.rs has it; in every room, up to a byte too much.
fn expected(r: &mut Random) -> usize {
    let columns = |line: &'static str| line.split("  ").map(str::trim).filter(|c| !c.is_empty()).collect::<Vec<_>>();
    let rows: Vec<Vec<&str>> = include_str!("../../../docs/NOTATION.md").lines().map(columns).collect();
    let named = |n: u8| rows.iter().find(|row| row.len() == 4 && row[0] == n.to_string());
    let words = |n: u8| named(n).map_or("", |row| row[1]).as_bytes();
    for n in 0..=u8::MAX {
        let word = (n as usize).checked_sub(1).and_then(|i| EXPECTED.get(i)).copied().unwrap_or_default();
        assert_eq!(word.as_bytes(), words(n), "number {n} in docs/NOTATION.md");
    }
    for n in 0..=u8::MAX {
        for room in 0..=words(n).len() + 1 {
            let got = given(r, room, |out, len| unsafe { notation_expected_text(n, out, len) });
            assert_eq!(got, if room < words(n).len() { Err(18) } else { Ok(words(n).to_vec()) }, "number {n}");
        }
    }
    (0..=u8::MAX).filter(|n| !words(*n).is_empty()).count()
}

fn lists(r: &mut Random, count: usize) -> usize {
    let mut steps = 0;
    for _ in 0..count {
        let l = list(r);
        let lines: Vec<String> = l.chunks_exact(STEP).map(step_line).collect();
        let text = lines.concat();
        let bad = l.len() % STEP != 0 || LONGEST < l.len();
        let n = unsafe { notation_length(l.as_ptr(), l.len()) };
        assert_eq!((n.length, n.refusal), if bad { (0, 17) } else { (text.len(), 0) });
        for room in [text.len(), text.len() + r.below(9), text.len().saturating_sub(1 + r.below(3))] {
            let got = given(r, room, |out, n| unsafe { notation_print(l.as_ptr(), l.len(), out, n) });
            let want = if bad {
                Err(17)
            } else if room < text.len() {
                Err(18)
            } else {
                Ok(text.clone().into_bytes())
            };
            assert_eq!(got, want);
        }
        if !bad {
            back(r, &l, &text);
        }
        let i = r.below(lines.len() + 2);
        let line = lines.get(i).cloned().unwrap_or_default();
        let got = given(r, 45, |out, n| unsafe { notation_step(l.as_ptr(), l.len(), i, out, n) });
        assert_eq!(got, Ok(line.into_bytes()));
        steps += lines.len();
    }
    steps
}

fn replies(r: &mut Random, count: usize) -> usize {
    for _ in 0..count {
        let step = (r.next() & 0x0fff_ffff_ffff_ffff | (r.below(16) as u64) << 60).to_be_bytes();
        let mut bytes = [0; STEP];
        r.fill(&mut bytes);
        for b in bytes.iter_mut() {
            *b = if r.one_in(3) { *b } else { 0 };
        }
        bytes[0] = if r.one_in(9) { bytes[0] } else { [r.below(7), 19 + r.below(14)][r.below(2)] as u8 };
        if r.one_in(2) {
            bytes[1..].fill(0);
        }
        let want = reply(step[0] >> 4, &bytes);
        let got =
            given(r, LINE, |out, n| unsafe { notation_reply(step.as_ptr(), STEP, bytes.as_ptr(), STEP, 0, out, n) });
        assert_eq!(got, Ok(want.clone().into_bytes()));
        let less = r.below(want.len());
        let got =
            given(r, less, |out, n| unsafe { notation_reply(step.as_ptr(), STEP, bytes.as_ptr(), STEP, 0, out, n) });
        assert_eq!(got, Err(18));
    }
    count
}

/// An image, most of them well-formed, and the refusal that it calls for.
fn any_image(r: &mut Random) -> (Vec<u8>, u8) {
    let mut image = if r.one_in(2) { generate::full_image(r) } else { generate::image(r) };
    if r.one_in(20) {
        generate::damage(r, &mut image);
    }
    if r.one_in(50) {
        image.truncate(r.below(IMAGE));
    }
    let refusal = match image.len() {
        IMAGE if ledger::formed(&image) => 0,
        IMAGE => 19,
        _ => 16,
    };
    (image, refusal)
}

/// What is kept from one image to the next.
struct Images {
    r: Random,
    text: Text,
    whole: Vec<u8>,
    back: Vec<u8>,
    noise: [u8; LINE],
    out: [u8; LINE],
}

impl Images {
    fn seeded(seed: u64) -> Self {
        let (text, whole, back) = (Text::default(), Vec::new(), vec![0; IMAGE]);
        Images { r: Random(seed), text, whole, back, noise: [0; LINE], out: [0; LINE] }
    }

    /// How long the library's line n is, which is then in `out`; a refusal leaves all of it, the rest stays.
    fn ask(&mut self, image: &[u8], n: usize, room: usize) -> Result<usize, u8> {
        self.out = self.noise;
        let g = unsafe { notation_image(image.as_ptr(), image.len(), n, self.out.as_mut_ptr(), room) };
        assert!(g.length <= room && self.out[g.length..] == self.noise[g.length..], "more was written than answered");
        assert!(g.refusal == 0 || g.length == 0, "a refusal changed the buffer");
        if g.refusal == 0 {
            Ok(g.length)
        } else {
            Err(g.refusal)
        }
    }

    fn compare(&mut self, image: &[u8], n: usize) -> usize {
        let length = self.ask(image, n, LINE).unwrap();
        assert!(self.out[..length] == *self.text.said(n), "line {n} differs");
        length
    }

    /// All lines, and one past them.
    fn all(&mut self, image: &[u8]) {
        self.whole.clear();
        for n in 0..LINES + 1 {
            let length = self.compare(image, n);
            self.whole.extend_from_slice(&self.out[..length]);
        }
        image_of(&self.whole, &mut self.back);
    }

    /// Four lines that say something, with one of them in less room than it needs, and any line.
    fn few(&mut self, image: &[u8]) {
        let mut n = self.r.below(LINES + 2);
        self.compare(image, n);
        for _ in 0..4 {
            n = self.text.line_at(self.r.below(self.text.bytes.len()));
            self.compare(image, n);
        }
        let less = self.r.below(self.text.said(n).len());
        assert_eq!(self.ask(image, n, less), Err(18));
        image_of(&self.text.bytes, &mut self.back);
    }

    /// Makes an image and compares; answers whether it is well-formed.
    fn one(&mut self, all: bool) -> bool {
        let (image, refusal) = any_image(&mut self.r);
        self.r.fill(&mut self.noise);
        if refusal != 0 {
            let n = self.r.below(LINES + 2);
            assert_eq!(self.ask(&image, n, LINE), Err(refusal));
            return false;
        }
        self.text.of(&image);
        if all {
            self.all(&image)
        } else {
            self.few(&image)
        }
        assert!(self.back == image, "an image is not read back from its text");
        true
    }
}

/// How many images of a part are well-formed, and how many of those of which every line is asked.
fn images(r: &mut Random, part: Range<usize>, all: impl Fn(usize) -> bool) -> [usize; 2] {
    let (mut batch, mut formed) = (Images::seeded(r.next()), [0; 2]);
    for i in part {
        let good = batch.one(all(i)) as usize;
        formed[0] += good;
        formed[1] += good * all(i) as usize;
    }
    formed
}

/// Works through so many in batches on all cores, and adds up the answers. Each batch has a seed of its own: the number of cores changes nothing.
fn batches(r: &mut Random, count: usize, work: impl Fn(&mut Random, Range<usize>) -> [usize; 2] + Sync) -> [usize; 2] {
    let (seed, next) = (r.next(), AtomicUsize::new(0));
    let sum = |a: [usize; 2], b: [usize; 2]| [a[0] + b[0], a[1] + b[1]];
    let thread = || {
        let mut done = [0; 2];
        loop {
            let first = BATCH * next.fetch_add(1, Ordering::Relaxed);
            if count <= first {
                return done;
            }
            done = sum(done, work(&mut Random(seed ^ first as u64), first..count.min(first + BATCH)));
        }
    };
    let cores = std::thread::available_parallelism().map_or(1, |n| n.get());
    std::thread::scope(|s| {
        let threads: Vec<_> = (0..cores).map(|_| s.spawn(thread)).collect();
        threads.into_iter().map(|t| t.join().unwrap()).fold([0; 2], sum)
    })
}

fn main() {
    let mut args = std::env::args().skip(1).map(|a| a.parse::<usize>().expect("a number"));
    let seed = args.next().unwrap_or(1);
    let hook = std::panic::take_hook();
    std::panic::set_hook(Box::new(move |failure| {
        eprintln!("seed {seed}");
        hook(failure)
    }));
    let mut r = Random(seed as u64);
    let many = args.next().unwrap_or(1_000_000);
    let count = args.next().unwrap_or(1_000_000);
    let whole = args.next().unwrap_or(20_000).min(count);
    let [steps, _] = batches(&mut r, many, |r, part| [lists(r, part.len()), 0]);
    println!("{many} lists of {steps} steps: the same text and answers, read back, and no byte changed by a refusal");
    let [faults, _] = batches(&mut r, many, |r, part| [noise(r, part.len()), 0]);
    println!(
        "{many} texts, random bytes or spoilt steps: {faults} faults, the same ones, and no byte changed; the others whole steps"
    );
    println!("{} things that a text can lack: the words of docs/NOTATION.md, none for other numbers", expected(&mut r));
    batches(&mut r, many, |r, part| [replies(r, part.len()), 0]);
    println!("{many} replies: the same words");
    let apart = count / whole.max(1);
    let all = |i: usize| whole > 0 && i % apart == 0 && i / apart < whole;
    let [formed, entire] = batches(&mut r, count, |r, part| images(r, part, all));
    println!("{count} images, {formed} well-formed: five lines the same, read back from the text; the others refused");
    println!("{whole} of them, {entire} well-formed: all lines the same, read back from the library's text");
}
