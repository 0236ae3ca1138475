//! Steps, replies and volumes, and their packed forms (docs/RULES.md, section 7): the format alone,
//! no rule.

use crate::text::written;
use crate::{native, Refused};
use std::error::Error;
use std::fmt;
use std::ops::{BitOr, BitOrAssign};

/// Bytes of a step, and of a reply.
pub const STEP: usize = 8;

/// How many takes there are at most: they are numbered 0 to 15.
pub const TAKES: usize = 16;

/// A take that no step has room for: its number is past 15.
#[derive(Clone, Copy, Debug, PartialEq, Eq, Hash)]
pub struct Unfit(pub usize);

impl fmt::Display for Unfit {
    fn fmt(&self, f: &mut fmt::Formatter<'_>) -> fmt::Result {
        write!(f, "a take is 0 to 15, not {}", self.0)
    }
}

impl Error for Unfit {}

fn take_field(take: usize) -> Result<u8, Unfit> {
    if take < TAKES {
        Ok(take as u8)
    } else {
        Err(Unfit(take))
    }
}

/// A volume: a set of takes that are signed together.
///
/// ```
/// use take_ledger::Volume;
/// let page_and_names = Volume::of([0, 3])?;
/// assert!(page_and_names.contains(3) && page_and_names.bits() == 9);
/// assert_eq!(page_and_names.to_string(), "{0,3}");
/// # Ok::<(), take_ledger::Unfit>(())
/// ```
#[derive(Clone, Copy, Debug, Default, PartialEq, Eq, Hash, PartialOrd, Ord)]
pub struct Volume(u16);

impl Volume {
    /// The volume of these takes.
    pub fn of(takes: impl IntoIterator<Item = usize>) -> Result<Volume, Unfit> {
        let mut bits = 0;
        for take in takes {
            bits |= 1 << take_field(take)?;
        }
        Ok(Volume(bits))
    }

    /// The volume that these bits are: take t counts 2^t.
    pub const fn from_bits(bits: u16) -> Volume {
        Volume(bits)
    }

    /// The bits of the volume.
    pub const fn bits(self) -> u16 {
        self.0
    }

    /// Whether it names this take.
    pub const fn contains(self, take: usize) -> bool {
        take < TAKES && self.0 >> take & 1 == 1
    }

    /// How many takes it names.
    pub const fn len(self) -> usize {
        self.0.count_ones() as usize
    }

    /// Whether it names none.
    pub const fn is_empty(self) -> bool {
        self.0 == 0
    }

    /// Its takes in rising order.
    pub fn iter(self) -> impl Iterator<Item = usize> {
        (0..TAKES).filter(move |take| self.contains(*take))
    }
}

impl BitOr for Volume {
    type Output = Volume;
    fn bitor(self, other: Volume) -> Volume {
        Volume(self.0 | other.0)
    }
}

impl BitOrAssign for Volume {
    fn bitor_assign(&mut self, other: Volume) {
        self.0 |= other.0;
    }
}

impl fmt::Display for Volume {
    fn fmt(&self, f: &mut fmt::Formatter<'_>) -> fmt::Result {
        let takes: Vec<String> = self.iter().map(|take| take.to_string()).collect();
        write!(f, "{{{}}}", takes.join(","))
    }
}

/// The kind of a step.
#[derive(Clone, Copy, Debug, PartialEq, Eq, Hash, PartialOrd, Ord)]
pub enum Kind {
    Root = 0,
    Letter = 1,
    Receive = 2,
    New = 3,
    Send = 4,
    Read = 5,
    Write = 6,
    Freeze = 7,
    Done = 8,
    Fall = 9,
    Fail = 10,
    Lose = 11,
    Sign = 12,
}

const KINDS: [Kind; 13] = [
    Kind::Root,
    Kind::Letter,
    Kind::Receive,
    Kind::New,
    Kind::Send,
    Kind::Read,
    Kind::Write,
    Kind::Freeze,
    Kind::Done,
    Kind::Fall,
    Kind::Fail,
    Kind::Lose,
    Kind::Sign,
];

/// A step of the ledger, packed. Make one by its kind: `Step::send(0, 1, 9)?`.
///
/// Displayed, a step is its line of the notation (docs/NOTATION.md).
///
/// ```
/// use take_ledger::Step;
/// let step = Step::send(2, 5, 300)?;
/// assert_eq!(step.bytes(), [0x42, 0x50, 0, 0, 0, 0, 0x01, 0x2C]);
/// assert_eq!(step.to_string(), "send 2 to 5 text 300");
/// assert_eq!(Step::freeze(16), Err(take_ledger::Unfit(16)));
/// # Ok::<(), take_ledger::Unfit>(())
/// ```
#[derive(Clone, Copy, Debug, PartialEq, Eq, Hash)]
#[repr(transparent)]
pub struct Step([u8; STEP]);

impl Step {
    fn made(kind: Kind, take: u8, other: u8, parcel: u16, text: u32) -> Step {
        let ([p, q], [a, b, c, d]) = (parcel.to_be_bytes(), text.to_be_bytes());
        Step([(kind as u8) << 4 | take, other << 4, p, q, a, b, c, d])
    }

    fn of_take(kind: Kind, take: usize, text: u32) -> Result<Step, Unfit> {
        Ok(Step::made(kind, take_field(take)?, 0, 0, text))
    }

    /// Opens the next take, with this text.
    pub fn root(text: u32) -> Step {
        Step::made(Kind::Root, 0, 0, 0, text)
    }

    /// A parcel from outside to this take.
    pub fn letter(to: usize, text: u32) -> Result<Step, Unfit> {
        Step::of_take(Kind::Letter, to, text)
    }

    /// The addressee receives the parcel with this number.
    pub fn receive(parcel: u16) -> Step {
        Step::made(Kind::Receive, 0, 0, parcel, 0)
    }

    /// The take opens the next take, a child, with this text.
    pub fn new(take: usize, text: u32) -> Result<Step, Unfit> {
        Step::of_take(Kind::New, take, text)
    }

    /// The take sends a parcel with this text.
    pub fn send(take: usize, to: usize, text: u32) -> Result<Step, Unfit> {
        Ok(Step::made(Kind::Send, take_field(take)?, take_field(to)?, 0, text))
    }

    /// The take reads its text.
    pub fn read(take: usize) -> Result<Step, Unfit> {
        Step::of_take(Kind::Read, take, 0)
    }

    /// The take writes this text, unless it is frozen.
    pub fn write(take: usize, text: u32) -> Result<Step, Unfit> {
        Step::of_take(Kind::Write, take, text)
    }

    /// The take is frozen until it is signed or falls.
    pub fn freeze(take: usize) -> Result<Step, Unfit> {
        Step::of_take(Kind::Freeze, take, 0)
    }

    /// The take is idle again.
    pub fn done(take: usize) -> Result<Step, Unfit> {
        Step::of_take(Kind::Done, take, 0)
    }

    /// The take falls, unless it is frozen.
    pub fn fall(take: usize) -> Result<Step, Unfit> {
        Step::of_take(Kind::Fall, take, 0)
    }

    /// The take falls, unless it is frozen; it need not be at work.
    pub fn fail(take: usize) -> Result<Step, Unfit> {
        Step::of_take(Kind::Fail, take, 0)
    }

    /// The parcel with this number is lost.
    pub fn lose(parcel: u16) -> Step {
        Step::made(Kind::Lose, 0, 0, parcel, 0)
    }

    /// Signs the volume.
    pub fn sign(volume: Volume) -> Step {
        Step::made(Kind::Sign, 0, 0, volume.bits(), 0)
    }

    /// The step that these bytes are, whatever they are; the ledger refuses with 20 those that no
    /// kind has.
    pub const fn from_bytes(bytes: [u8; STEP]) -> Step {
        Step(bytes)
    }

    /// The eight bytes of the step.
    pub const fn bytes(self) -> [u8; STEP] {
        self.0
    }

    /// Its kind; none if its number is 13 to 15.
    pub fn kind(self) -> Option<Kind> {
        KINDS.get(usize::from(self.0[0] >> 4)).copied()
    }

    /// The field of the acting take, or of the addressee of a letter.
    pub const fn take(self) -> u8 {
        self.0[0] & 15
    }

    /// The field of the addressee of a send.
    pub const fn other(self) -> u8 {
        self.0[1] >> 4
    }

    /// The field of the parcel, or of the volume of a sign.
    pub const fn parcel(self) -> u16 {
        u16::from_be_bytes([self.0[2], self.0[3]])
    }

    /// The field of the text.
    pub const fn text(self) -> u32 {
        u32::from_be_bytes([self.0[4], self.0[5], self.0[6], self.0[7]])
    }
}

impl fmt::Display for Step {
    fn fmt(&self, f: &mut fmt::Formatter<'_>) -> fmt::Result {
        let line = written(|out, room| unsafe { native::notation_step(self.0.as_ptr(), STEP, 0, out, room) });
        f.write_str(line.trim_end_matches('\n'))
    }
}

/// The outcome of a step that is not refused.
#[derive(Clone, Copy, Debug, PartialEq, Eq, Hash, PartialOrd, Ord)]
pub enum Outcome {
    Done = 0,
    Held = 1,
    Dropped = 2,
    FallenBack = 3,
    Vanished = 4,
    NotReady = 5,
}

const OUTCOMES: [Outcome; 6] =
    [Outcome::Done, Outcome::Held, Outcome::Dropped, Outcome::FallenBack, Outcome::Vanished, Outcome::NotReady];

impl Outcome {
    pub(crate) fn of(number: usize) -> Option<Outcome> {
        OUTCOMES.get(number).copied()
    }
}

/// What the ledger replied to a step, packed: an outcome 0 to 5, or a refusal 20 to 31.
#[derive(Clone, Copy, Debug, PartialEq, Eq, Hash)]
#[repr(transparent)]
pub struct Reply([u8; STEP]);

impl Reply {
    /// The reply that these bytes are.
    pub const fn from_bytes(bytes: [u8; STEP]) -> Reply {
        Reply(bytes)
    }

    /// The eight bytes of the reply.
    pub const fn bytes(self) -> [u8; STEP] {
        self.0
    }

    /// The outcome, or what the step was refused with; then nothing has changed.
    ///
    /// ```
    /// use take_ledger::{Outcome, Session, Step};
    /// let replies = Session::new().run(&[Step::root(7), Step::receive(9)]);
    /// assert_eq!(replies[0].outcome(), Ok(Outcome::Done));
    /// assert_eq!(replies[1].outcome().unwrap_err().number(), 24);
    /// ```
    pub fn outcome(self) -> Result<Outcome, Refused> {
        Outcome::of(usize::from(self.0[0])).ok_or(Refused(self.0[0]))
    }

    /// Whether the step was refused.
    pub fn refused(self) -> bool {
        self.outcome().is_err()
    }

    /// The number in the first byte: an outcome or a refusal.
    pub const fn number(self) -> u8 {
        self.0[0]
    }

    /// The take, where the reply has one.
    pub const fn take(self) -> u8 {
        self.0[1]
    }

    /// The parcel, where the reply has one.
    pub const fn parcel(self) -> u16 {
        u16::from_be_bytes([self.0[2], self.0[3]])
    }

    /// The text, where the reply has one.
    pub const fn text(self) -> u32 {
        u32::from_be_bytes([self.0[4], self.0[5], self.0[6], self.0[7]])
    }
}

/// Steps as the bytes that they are.
pub fn packed(steps: &[Step]) -> Vec<u8> {
    steps.iter().flat_map(|step| step.0).collect()
}

fn pieces(bytes: &[u8]) -> impl Iterator<Item = [u8; STEP]> + '_ {
    bytes.chunks_exact(STEP).map(|piece| {
        let mut whole = [0; STEP];
        whole.copy_from_slice(piece);
        whole
    })
}

/// The steps that these bytes are; a rest of less than eight bytes is left out.
pub fn unpacked(list: &[u8]) -> Vec<Step> {
    pieces(list).map(Step).collect()
}

/// The replies that these bytes are; a rest of less than eight bytes is left out.
pub fn replies_of(bytes: &[u8]) -> Vec<Reply> {
    pieces(bytes).map(Reply).collect()
}
