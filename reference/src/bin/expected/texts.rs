//! The programs about texts: assemble, inspect, test_notation.

use reference::ledger::{self, IMAGE};
use reference::notation::Text;
use reference::parser::{self, Fault, EXPECTED};

/// The packed steps of a text; of one with a fault nothing, since the fault goes to standard error.
pub fn assemble(input: &[u8]) -> Vec<u8> {
    assert!(input.len() < 262_144, "the program reads a text of less than 262144 bytes");
    parser::parse(input, usize::MAX / 8).unwrap_or_default()
}

/// An image as text, or the number that it is refused with.
pub fn inspect(input: &[u8]) -> Vec<u8> {
    if input.len() != IMAGE {
        return b"refused 16\n".to_vec();
    }
    if !ledger::formed(input) {
        return b"refused 19\n".to_vec();
    }
    let mut text = Text::default();
    text.of(input);
    text.bytes
}

/// The text of a case, in which / stands for LF, ^ for a tab and ~ for CR.
fn text_of(case: &[u8]) -> Vec<u8> {
    let byte = |b: &u8| match b {
        b'/' => b'\n',
        b'^' => b'\t',
        b'~' => b'\r',
        _ => *b,
    };
    case.iter().map(byte).collect()
}

/// The case, and behind a colon the bytes of its steps, of which there is room for ten, or its fault.
fn case(line: &[u8]) -> Vec<u8> {
    let told = match parser::parse(&text_of(line), 10) {
        Ok(list) => list.iter().map(|b| format!(" {b:02x}")).collect(),
        Err(Fault { line, column, expected }) => {
            format!(" line {line} column {column}, expected {}", EXPECTED[expected - 1])
        }
    };
    let colon: &[u8] = if line.is_empty() { b"" } else { b":" };
    [line, colon, told.as_bytes(), b"\n"].concat()
}

/// Cases, a line each; those that begin with = are headings.
pub fn cases(input: &[u8]) -> Vec<u8> {
    let lines = input.strip_suffix(b"\n").unwrap_or(input).split(|b| *b == b'\n');
    lines.filter(|line| line.first() != Some(&b'=')).flat_map(case).collect()
}
