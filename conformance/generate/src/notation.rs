//! Steps as text, a line each, and files of cases written in it.
//!
//!     == NAME | FLAGS | TAKES PARCELS SIGNINGS
//!     # comment of the case
//!     + what of a source's example the rules do not have
//!     STEP => OUTCOME # what it tells            the outcome is 0 where none is given
//!     for FIRST..LAST: STEP; STEP                once for each number, which stands for $

use bench::generate::packed;

pub struct Line {
    pub step: u64,
    pub outcome: u8,
    pub text: String,
}

pub struct Case {
    pub name: String,
    pub flags: Vec<String>,
    pub limits: [usize; 3],
    pub comment: String,
    pub without: String,
    pub lines: Vec<Line>,
}

const KINDS: [&str; 13] =
    ["root", "letter", "receive", "new", "send", "read", "write", "freeze", "done", "fall", "fail", "lose", "sign"];

fn number(word: &str) -> usize {
    word.parse().unwrap_or_else(|_| panic!("no number: {word}"))
}

/// The volume of `{0,3}`.
fn volume(word: &str) -> usize {
    let inner = word.strip_prefix('{').and_then(|w| w.strip_suffix('}')).unwrap_or_else(|| panic!("no volume: {word}"));
    inner.split(',').filter(|t| !t.is_empty()).map(|t| 1 << number(t)).sum()
}

pub fn step(text: &str) -> u64 {
    let words: Vec<&str> = text.split_whitespace().collect();
    let kind = KINDS.iter().position(|k| *k == words[0]);
    match (kind, &words[1..]) {
        (None, [digits]) if words[0] == "raw" => u64::from_str_radix(digits, 16).expect("sixteen digits"),
        (Some(0), ["text", x]) => packed(0, 0, 0, 0, number(x) as u32),
        (Some(1), ["to", t, "text", x]) => packed(1, number(t), 0, 0, number(x) as u32),
        (Some(4), [t, "to", u, "text", x]) => packed(4, number(t), number(u), 0, number(x) as u32),
        (Some(k @ (3 | 6)), [t, "text", x]) => packed(k, number(t), 0, 0, number(x) as u32),
        (Some(k @ (2 | 11)), [p]) => packed(k, 0, 0, number(p), 0),
        (Some(12), [v]) => packed(12, 0, 0, volume(v), 0),
        (Some(k @ (5 | 7..=10)), [t]) => packed(k, number(t), 0, 0, 0),
        _ => panic!("no step: {text}"),
    }
}

/// The text of a step: `raw` where the ledger refuses it with 20.
pub fn text(step: u64) -> String {
    let (kind, take, other) = ((step >> 60) as usize, step >> 56 & 15, step >> 52 & 15);
    let (parcel, text) = (step >> 32 & 0xffff, step as u32);
    let named: Vec<String> = (0..16).filter(|t| parcel >> t & 1 == 1).map(|t| t.to_string()).collect();
    let said = match kind {
        0 => format!("root text {text}"),
        1 => format!("letter to {take} text {text}"),
        2 | 11 => format!("{} {parcel}", KINDS[kind]),
        3 | 6 => format!("{} {take} text {text}", KINDS[kind]),
        4 => format!("send {take} to {other} text {text}"),
        5 | 7..=10 => format!("{} {take}", KINDS[kind]),
        12 => format!("sign {{{}}}", named.join(",")),
        _ => return format!("raw {step:016x}"),
    };
    let whole = self::step(&said) == step;
    if whole {
        said
    } else {
        format!("raw {step:016x}")
    }
}

fn line(text: &str) -> Line {
    let (said, told) = text.split_once('#').unwrap_or((text, ""));
    let (said, outcome) = said.split_once("=>").unwrap_or((said, "0"));
    let step = step(said);
    let told = told.trim();
    let text = self::text(step);
    Line {
        step,
        outcome: number(outcome.trim()) as u8,
        text: if told.is_empty() { text } else { format!("{text} # {told}") },
    }
}

/// The lines of `STEP => OUTCOME; STEP`.
pub fn lines(text: &str) -> Vec<Line> {
    text.split(';').filter(|s| !s.trim().is_empty()).map(line).collect()
}

/// The lines of `for 0..3: STEP; STEP`.
fn repeated(text: &str) -> Vec<Line> {
    let (range, body) = text.split_once(':').expect("for FIRST..LAST: ..");
    let (first, last) = range.trim().split_once("..").expect("FIRST..LAST");
    (number(first)..=number(last)).flat_map(|i| lines(&body.replace('$', &i.to_string()))).collect()
}

fn case(head: &str) -> Case {
    let fields: Vec<&str> = head.split('|').map(str::trim).collect();
    let limits: Vec<usize> = fields[2].split_whitespace().map(number).collect();
    Case {
        name: fields[0].to_string(),
        flags: fields[1].split_whitespace().map(str::to_string).collect(),
        limits: limits.try_into().expect("three limits"),
        comment: String::new(),
        without: String::new(),
        lines: Vec::new(),
    }
}

fn append(to: &mut String, more: &str) {
    if !to.is_empty() {
        to.push(' ');
    }
    to.push_str(more.trim());
}

pub fn cases(file: &str) -> Vec<Case> {
    let mut cases: Vec<Case> = Vec::new();
    for text in file.lines().map(str::trim).filter(|t| !t.is_empty()) {
        if let Some(head) = text.strip_prefix("== ") {
            cases.push(case(head));
            continue;
        }
        let Some(case) = cases.last_mut() else { continue };
        match text.split_at(1) {
            ("#", told) => append(&mut case.comment, told),
            ("+", told) => append(&mut case.without, told),
            _ => match text.strip_prefix("for ") {
                Some(rest) => case.lines.extend(repeated(rest)),
                None => case.lines.push(line(text)),
            },
        }
    }
    cases
}
