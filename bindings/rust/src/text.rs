//! Step lists, replies, refusals and images as text, in the library's words (docs/NOTATION.md).

use crate::native::{self, Given};
use crate::packed::{packed, unpacked, Reply, Step, STEP};
use std::error::Error;
use std::fmt;

const LINE: usize = 256;
const LINES: usize = 1330;
const LONGEST_LINE: usize = 45;

/// A call that the ledger refused; nothing has changed.
///
/// ```
/// let refused = take_ledger::Session::new().offer(9).unwrap_err();
/// assert_eq!(refused.number(), 21);
/// assert_eq!(refused.text(), take_ledger::refusal_text(21));
/// ```
#[derive(Clone, Copy, Debug, PartialEq, Eq, Hash, PartialOrd, Ord)]
pub struct Refused(pub(crate) u8);

impl Refused {
    /// The number of the refusal, 16 to 35 (docs/RULES.md, sections 6 and 9).
    pub const fn number(self) -> u8 {
        self.0
    }

    /// The library's words for it.
    pub fn text(self) -> String {
        refusal_text(self.0)
    }
}

impl fmt::Display for Refused {
    fn fmt(&self, f: &mut fmt::Formatter<'_>) -> fmt::Result {
        write!(f, "refused {}: {}", self.0, self.text())
    }
}

impl Error for Refused {}

pub(crate) fn accepted(number: u8) -> Result<(), Refused> {
    if number == 0 {
        Ok(())
    } else {
        Err(Refused(number))
    }
}

/// What a call writes into a line's room.
pub(crate) fn written(call: impl FnOnce(*mut u8, usize) -> Given) -> String {
    let mut out = [0; LINE];
    let given = call(out.as_mut_ptr(), LINE);
    String::from_utf8_lossy(&out[..given.length]).into_owned()
}

/// The words of a refusal, 16 to 35; empty for another number.
pub fn refusal_text(number: u8) -> String {
    written(|out, room| unsafe { native::notation_refusal_text(number, out, room) })
}

/// A text that is no list of steps: the place of its first fault, and what was expected there.
#[derive(Clone, Copy, Debug, PartialEq, Eq, Hash)]
pub struct Fault {
    /// from 1 on
    pub line: usize,
    /// in bytes, from 1 on
    pub column: usize,
    /// the number of what was expected, 1 to 12
    pub expected: u8,
}

impl Fault {
    /// What was expected, in words.
    pub fn expected_text(self) -> String {
        written(|out, room| unsafe { native::notation_expected_text(self.expected, out, room) })
    }
}

impl fmt::Display for Fault {
    fn fmt(&self, f: &mut fmt::Formatter<'_>) -> fmt::Result {
        write!(f, "line {}, column {}: expected {}", self.line, self.column, self.expected_text())
    }
}

impl Error for Fault {}

/// The steps that a text says.
///
/// ```
/// use take_ledger::{parse, Step};
/// assert_eq!(parse("root text 7 # the names\nreceive 0\n")?, [Step::root(7), Step::receive(0)]);
/// let fault = parse("root text 7\nread 16").unwrap_err();
/// assert_eq!(fault.to_string(), "line 2, column 6: expected a take, 0 to 15");
/// # Ok::<(), take_ledger::Fault>(())
/// ```
pub fn parse(text: impl AsRef<[u8]>) -> Result<Vec<Step>, Fault> {
    let text = text.as_ref();
    let lines = text.iter().filter(|byte| **byte == b'\n').count() + 1;
    let mut out = vec![0; STEP * lines];
    let (mut line, mut column, mut expected) = (0, 0, 0);
    let (o, m) = (out.as_mut_ptr(), out.len());
    let steps = unsafe {
        let (t, n) = (text.as_ptr(), text.len());
        native::notation_parse(t, n, o, m, &mut line, &mut column, &mut expected)
    };
    if expected != 0 {
        return Err(Fault { line, column, expected });
    }
    Ok(unpacked(&out[..STEP * steps]))
}

/// How many bytes the text of a list has; refused with 17 over 1,024 steps.
pub fn text_length(steps: &[Step]) -> Result<usize, Refused> {
    let list = packed(steps);
    let given = unsafe { native::notation_length(list.as_ptr(), list.len()) };
    accepted(given.refusal)?;
    Ok(given.length)
}

/// The canonical text of a list of any length: a step a line.
///
/// ```
/// use take_ledger::{text_of, Step, Volume};
/// let steps = [Step::letter(0, 5)?, Step::sign(Volume::of([0, 1])?)];
/// assert_eq!(text_of(&steps), "letter to 0 text 5\nsign {0,1}\n");
/// # Ok::<(), take_ledger::Unfit>(())
/// ```
pub fn text_of(steps: &[Step]) -> String {
    let mut text = Vec::new();
    for part in steps.chunks(crate::LONGEST / STEP) {
        let (list, mut out) = (packed(part), vec![0; LONGEST_LINE * part.len()]);
        let (o, m) = (out.as_mut_ptr(), out.len());
        let given = unsafe { native::notation_print(list.as_ptr(), list.len(), o, m) };
        text.extend_from_slice(&out[..given.length]);
    }
    String::from_utf8_lossy(&text).into_owned()
}

/// What the ledger replied to this step, in words.
///
/// ```
/// use take_ledger::{reply_text, Session, Step};
/// let step = Step::root(7);
/// let reply = Session::new().run(&[step])[0];
/// assert_eq!(reply_text(step, reply), "done take 0");
/// ```
pub fn reply_text(step: Step, reply: Reply) -> String {
    let (s, r) = (step.bytes(), reply.bytes());
    written(|out, room| unsafe { native::notation_reply(s.as_ptr(), STEP, r.as_ptr(), STEP, 0, out, room) })
}

/// An image in words, line by line; refused with 16 or 19.
pub fn image_text(image: &[u8]) -> Result<String, Refused> {
    let mut text = String::new();
    for n in 0..LINES {
        let mut refusal = 0;
        text += &written(|out, room| {
            let given = unsafe { native::notation_image(image.as_ptr(), image.len(), n, out, room) };
            refusal = given.refusal;
            given
        });
        accepted(refusal)?;
    }
    Ok(text)
}
