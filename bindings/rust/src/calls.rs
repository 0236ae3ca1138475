//! The calls that need no session. Every answer is the library's.

use crate::native;
use crate::packed::{packed, replies_of, Reply, Step};
use crate::session::{another_version, Limits};
use crate::text::{accepted, Refused};
use crate::{IMAGE, OLD_IMAGE};
use std::error::Error;
use std::fmt;

/// The version of the library that is linked: major, minor and patch number.
pub fn version() -> (u8, u8, u8) {
    let [_, major, minor, patch] = unsafe { native::ledger_version() }.to_be_bytes();
    (major, minor, patch)
}

/// The replies to at most 1,024 steps from a fresh session, by the engine without maps; refused with
/// 17 over 1,024 steps, and with 33.
///
/// ```
/// use take_ledger::{play, Limits, Session, Step};
/// let steps = [Step::root(7), Step::letter(0, 5)?, Step::receive(0)];
/// assert_eq!(play(&steps, Limits::default())?, Session::new().run(&steps));
/// # Ok::<(), Box<dyn std::error::Error>>(())
/// ```
pub fn play(steps: &[Step], limits: Limits) -> Result<Vec<Reply>, Refused> {
    let list = packed(steps);
    let mut replies = vec![0; list.len()];
    let Limits { takes, parcels, signings } = limits;
    let (r, n) = (replies.as_mut_ptr(), replies.len());
    accepted(unsafe { native::engine_play(list.as_ptr(), list.len(), r, n, takes, parcels, signings) })?;
    Ok(replies_of(&replies))
}

/// An image of the old form, 22,132 bytes, in the form of today; refused with 16 or 19.
pub fn forward(source: &[u8]) -> Result<Vec<u8>, Refused> {
    let mut target = vec![0; IMAGE];
    let (t, n) = (target.as_mut_ptr(), target.len());
    accepted(unsafe { native::ledger_forward(source.as_ptr(), source.len(), t, n) })?;
    Ok(target)
}

/// An image in the old form; refused with 16, 19, or 32 where it has no room there.
pub fn back(source: &[u8]) -> Result<Vec<u8>, Refused> {
    let mut target = vec![0; OLD_IMAGE];
    let (t, n) = (target.as_mut_ptr(), target.len());
    accepted(unsafe { native::ledger_back(source.as_ptr(), source.len(), t, n) })?;
    Ok(target)
}

/// Of all windows of so many replies the one with the most outcomes `FallenBack` and `Vanished`:
/// how many it has, and its place, that of its first reply.
#[derive(Clone, Copy, Debug, PartialEq, Eq, Hash)]
pub struct Window {
    pub count: usize,
    pub place: usize,
}

/// The worst window of a list of replies; refused with 17 over 1,024 replies, and with 35 unless the
/// width is 1 to 256.
pub fn worst_window(replies: &[Reply], width: usize) -> Result<Window, Refused> {
    let list: Vec<u8> = replies.iter().flat_map(|reply| reply.bytes()).collect();
    let mut refusal = 0;
    let worst = unsafe { native::ledger_worst_window(list.as_ptr(), list.len(), width, &mut refusal) };
    accepted(refusal)?;
    Ok(Window { count: worst.count, place: worst.place })
}

/// What is wrong with an image.
#[derive(Clone, Copy, Debug, PartialEq, Eq, Hash)]
pub enum Defect {
    /// It has another length than 42,616 bytes.
    Length,
    /// It is ill-formed: the byte at which the form fails first, and the clause of docs/RULES.md,
    /// section 8.
    Clause { at: usize, clause: u8 },
}

impl fmt::Display for Defect {
    fn fmt(&self, f: &mut fmt::Formatter<'_>) -> fmt::Result {
        match self {
            Defect::Length => write!(f, "an image is {IMAGE} bytes"),
            Defect::Clause { at, clause } => {
                write!(f, "byte {at} fails clause {clause} of the form")
            }
        }
    }
}

impl Error for Defect {}

/// Whether an image is well-formed; if not, where it fails first.
///
/// ```
/// use take_ledger::{defect, Defect, Session};
/// let mut image = Session::new().image().to_vec();
/// assert_eq!(defect(&image), Ok(()));
/// image[3] = 9;
/// assert_eq!(defect(&image), Err(Defect::Clause { at: 3, clause: 1 }));
/// ```
pub fn defect(image: &[u8]) -> Result<(), Defect> {
    let (mut at, mut clause) = (0, 0);
    let refusal = unsafe { native::ledger_fault(image.as_ptr(), image.len(), &mut at, &mut clause) };
    match refusal {
        0 => Ok(()),
        16 => Err(Defect::Length),
        19 => Err(Defect::Clause { at, clause }),
        number => another_version("fault", number.into()),
    }
}

/// How the lives of two marks are related (docs/RULES.md, section 2); of the middle four the named
/// one is the earlier.
#[derive(Clone, Copy, Debug, PartialEq, Eq, Hash)]
pub enum Relation {
    SameLife,
    LeftSigned,
    RightSigned,
    LeftStale,
    RightStale,
    Unrelated,
}

/// Two marks compared.
#[derive(Clone, Copy, Debug, PartialEq, Eq, Hash)]
pub struct Comparison {
    pub relation: Relation,
    /// whether a join keeps the right one
    pub right_is_newer: bool,
}

/// Two packed marks of one take, 33 bytes each, compared; refused with 16 where one has another
/// length, with 19 where one is absent or ill-formed.
pub fn compare(left: &[u8], right: &[u8]) -> Result<Comparison, Refused> {
    let mut refusal = 0;
    let (l, n, r, m) = (left.as_ptr(), left.len(), right.as_ptr(), right.len());
    let c = unsafe { native::looking_compare(l, n, r, m, &mut refusal) };
    accepted(refusal)?;
    let relation = match c.relation {
        0 => Relation::SameLife,
        1 => Relation::LeftSigned,
        2 => Relation::RightSigned,
        3 => Relation::LeftStale,
        4 => Relation::RightStale,
        5 => Relation::Unrelated,
        number => another_version("compare", number.into()),
    };
    Ok(Comparison { relation, right_is_newer: c.newer == 1 })
}

/// One of the four maps: three of a take, one of a parcel.
#[derive(Clone, Copy, Debug, PartialEq, Eq, Hash)]
pub enum Map {
    /// of this take
    State(u8),
    /// of this take
    Creation(u8),
    /// of this take
    Behaviour(u8),
    /// of the parcel in this place
    Parcel(u8),
}

/// The field of an image that a byte belongs to (docs/RULES.md, section 7).
#[derive(Clone, Copy, Debug, PartialEq, Eq, Hash)]
pub enum Field {
    TakesOpened,
    NextParcel,
    Zero,
    LimitOfTakes,
    LimitOfParcels,
    LimitOfSignings,
    LimitsZero,
    Status {
        take: u8,
    },
    Text {
        take: u8,
    },
    SavedText {
        take: u8,
    },
    Addressee {
        place: u8,
    },
    Number {
        place: u8,
    },
    ParcelText {
        place: u8,
    },
    /// present, frozen, length of the list
    MarkHead {
        map: Map,
        take: u8,
    },
    /// the life number
    MarkNumber {
        map: Map,
        take: u8,
    },
    /// this entry of the list, from 0
    MarkEntry {
        map: Map,
        take: u8,
        entry: u8,
    },
}

/// What byte `at` of an image belongs to, and which byte of that field it is, the most significant
/// one being 0; none past the image.
///
/// ```
/// use take_ledger::{field, Field};
/// assert_eq!(field(2), Some((Field::NextParcel, 1)));
/// assert_eq!(field(8 + 1593), Some((Field::Status { take: 1 }, 0)));
/// assert_eq!(field(42616), None);
/// ```
pub fn field(at: usize) -> Option<(Field, u8)> {
    let f = unsafe { native::looking_field(at) };
    let (take, place, entry) = (f.holder, f.holder, f.entry);
    let map = match f.map {
        0 => Map::State(f.holder),
        1 => Map::Creation(f.holder),
        2 => Map::Behaviour(f.holder),
        _ => Map::Parcel(f.holder),
    };
    let field = match f.kind {
        0 => return None,
        1 => Field::TakesOpened,
        2 => Field::NextParcel,
        3 => Field::Zero,
        4 => Field::LimitOfTakes,
        5 => Field::LimitOfParcels,
        6 => Field::LimitOfSignings,
        7 => Field::LimitsZero,
        8 => Field::Status { take },
        9 => Field::Text { take },
        10 => Field::SavedText { take },
        11 => Field::Addressee { place },
        12 => Field::Number { place },
        13 => Field::ParcelText { place },
        14 => Field::MarkHead { map, take: f.ground },
        15 => Field::MarkNumber { map, take: f.ground },
        16 => Field::MarkEntry { map, take: f.ground, entry },
        kind => another_version("field", kind.into()),
    };
    Some((field, f.byte))
}
