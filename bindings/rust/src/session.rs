//! A session of the ledger. Every answer is the library's.

use crate::native;
use crate::packed::{packed, replies_of, unpacked, Outcome, Reply, Step, Volume, STEP};
use crate::text::{accepted, image_text, Refused};
use crate::{IMAGE, LONGEST, MAP, PLAN};
use std::fmt;

const NO_PARCEL: u16 = 65_535;

/// The limits of a session: how many takes it opens (1 to 16), how many parcels wait at a time
/// (1 to 32), how often one take is signed (1 to 15). By default they are the greatest.
#[derive(Clone, Copy, Debug, PartialEq, Eq, Hash)]
pub struct Limits {
    pub takes: usize,
    pub parcels: usize,
    pub signings: usize,
}

impl Default for Limits {
    fn default() -> Limits {
        Limits { takes: 16, parcels: 32, signings: 15 }
    }
}

/// What rests on the present life of a take.
#[derive(Clone, Copy, Debug, PartialEq, Eq, Hash)]
pub struct Dependents {
    /// the live takes that hold the life in state or creation, the take itself among them
    pub resting: Volume,
    /// those, whoever rests on the present life of one of those, and so on
    pub through: Volume,
    /// the takes at work that have the life in behaviour
    pub unfinished: Volume,
    /// how many waiting parcels carry it
    pub carried: u16,
}

/// Why a volume can't be signed.
#[derive(Clone, Copy, Debug, PartialEq, Eq, Hash)]
pub enum Obstacle {
    /// It can: its signing would reply `Done`.
    Nothing,
    /// The take is named and not frozen.
    NotFrozen { take: u8 },
    /// The take is named and rests on the present life of `ground`, which is not named.
    Outside { take: u8, ground: u8 },
    /// The take is named and rests on a withdrawn life of `ground`.
    Withdrawn { take: u8, ground: u8 },
}

/// Why no volume with a take could be signed. `take` is the one in the way: the asked one, or one
/// that it rests on; `next` is the next on the chain from the asked one to it.
#[derive(Clone, Copy, Debug, PartialEq, Eq, Hash)]
pub enum Impediment {
    /// One could: `smallest_volume` gives it.
    Nothing,
    /// The take rests on a withdrawn life of `ground`.
    Hopeless { take: u8, ground: u8, next: u8 },
    /// The take was signed as often as the session allows.
    Exhausted { take: u8, next: u8 },
    /// The take is not frozen.
    NotFrozen { take: u8, next: u8 },
}

/// For whom a step acts.
#[derive(Clone, Copy, Debug, PartialEq, Eq, Hash)]
pub enum Actor {
    /// The step would be refused with 20, or it receives a parcel that does not wait.
    Nobody,
    /// Root, letter and lose: no take's.
    House,
    /// Kinds 3 to 10: the acting take; receive: the addressee.
    Take(u8),
    /// Sign: the named takes.
    Volume(Volume),
}

/// What a receipt would do.
#[derive(Clone, Copy, Debug, PartialEq, Eq, Hash)]
pub struct Decision {
    /// `Done`, `Dropped`, `FallenBack` or `Vanished`
    pub outcome: Outcome,
    /// the first take whose marks decide it; 0 for `Done`
    pub take: u8,
}

/// A session: an image of 42,616 bytes, which is always well-formed, and the calls on it.
///
/// Steps that the ledger refuses are replies, and the list goes on. Numbers that a question is
/// asked about are judged as they are: take 260 is not opened, so it is refused with 21.
///
/// ```
/// use take_ledger::{Obstacle, Session, Step, Volume};
/// # fn main() -> Result<(), Box<dyn std::error::Error>> {
/// let mut hearing = Session::new();
/// hearing.run(&[
///     Step::root(7),            // take 0, the names
///     Step::root(8),            // take 1, a page
///     Step::letter(0, 5)?,      // parcel 0 wakes the names
///     Step::receive(0),
///     Step::send(0, 1, 9)?,     // parcel 1 goes to the page
///     Step::receive(1),
///     Step::write(1, 10)?,      // the page rests on the names from here on
///     Step::freeze(1)?,
/// ]);
/// let page = Volume::of([1])?;
/// assert_eq!(hearing.obstacle(page)?, Obstacle::Outside { take: 1, ground: 0 });
/// let left = hearing.plan(1)?;
/// assert_eq!(left, [Step::freeze(0)?, Step::sign(Volume::of([0, 1])?)]);
/// hearing.run(&left);           // the page is signed, together with the names
/// # Ok(()) }
/// ```
#[derive(Clone, PartialEq, Eq)]
pub struct Session {
    image: Box<[u8]>,
}

impl Default for Session {
    fn default() -> Session {
        Session::new()
    }
}

impl fmt::Debug for Session {
    fn fmt(&self, f: &mut fmt::Formatter<'_>) -> fmt::Result {
        f.write_str(&self.text())
    }
}

impl Session {
    /// Begins a fresh session with the greatest limits.
    pub fn new() -> Session {
        Session::begin(Limits::default()).expect("the greatest limits are in range")
    }

    /// Begins a fresh session with these limits; refused with 33 where one is out of range.
    pub fn begin(limits: Limits) -> Result<Session, Refused> {
        let mut image = vec![0; IMAGE].into_boxed_slice();
        let Limits { takes, parcels, signings } = limits;
        let (i, n) = (image.as_mut_ptr(), image.len());
        accepted(unsafe { native::ledger_begin(i, n, takes, parcels, signings) })?;
        Ok(Session { image })
    }

    /// The session that this image is; refused with 16 (another length) or 19 (ill-formed: `defect`
    /// says where).
    ///
    /// ```
    /// use take_ledger::Session;
    /// let stored: Vec<u8> = Session::new().image().to_vec();
    /// assert_eq!(Session::from_image(&stored)?, Session::new());
    /// assert_eq!(Session::from_image(&stored[1..]).unwrap_err().number(), 16);
    /// # Ok::<(), take_ledger::Refused>(())
    /// ```
    pub fn from_image(image: &[u8]) -> Result<Session, Refused> {
        let mut session = Session { image: image.to_vec().into_boxed_slice() };
        session.run_packed(&[], 0, 0, &mut [])?;
        Ok(session)
    }

    /// The image: all there is to store.
    pub fn image(&self) -> &[u8] {
        &self.image
    }

    /// The image in words.
    pub fn text(&self) -> String {
        image_text(&self.image).expect("the image is well-formed")
    }

    /// Runs the steps, one after the other, and gives the reply to each. Any number of them: they
    /// are handed over 1,024 at a time.
    pub fn run(&mut self, steps: &[Step]) -> Vec<Reply> {
        let mut replies = Vec::with_capacity(steps.len());
        for part in steps.chunks(LONGEST / STEP) {
            let list = packed(part);
            let mut room = vec![0; list.len()];
            self.run_packed(&list, 0, list.len(), &mut room).expect("a part is within the limits");
            replies.extend(replies_of(&room));
        }
        replies
    }

    /// Runs the steps of `list` from byte `start` up to byte `end` and writes a reply of eight bytes
    /// for each. Refused with 17 unless that is a part of the list, of whole steps and at most 8,192
    /// bytes, and with 18 if `replies` is not as long as the part: no byte is changed.
    pub fn run_packed(&mut self, list: &[u8], start: usize, end: usize, replies: &mut [u8]) -> Result<(), Refused> {
        let (i, n) = (self.image.as_mut_ptr(), self.image.len());
        let (l, m) = (list.as_ptr(), list.len());
        let (r, k) = (replies.as_mut_ptr(), replies.len());
        accepted(unsafe { native::ledger_run(i, n, l, m, start, end, r, k) })
    }

    /// A question about the image and a number.
    fn ask<A>(
        &self,
        call: unsafe extern "C" fn(*const u8, usize, usize, *mut u8) -> A,
        number: usize,
    ) -> Result<A, Refused> {
        let mut refusal = 0;
        let answer = unsafe { call(self.image.as_ptr(), self.image.len(), number, &mut refusal) };
        accepted(refusal)?;
        Ok(answer)
    }

    /// The lowest number of a waiting parcel to the take; or none. 21, 22.
    pub fn offer(&self, take: usize) -> Result<Option<u16>, Refused> {
        let parcel = self.ask(native::ledger_offer, take)?;
        Ok((parcel != NO_PARCEL).then_some(parcel))
    }

    /// The 528 bytes of the image that hold the map of the waiting parcel. 24.
    pub fn show(&self, parcel: usize) -> Result<&[u8], Refused> {
        let part = self.ask(native::ledger_show, parcel)?;
        debug_assert_eq!(part.length, MAP);
        Ok(&self.image[part.offset..part.offset + part.length])
    }

    /// The smallest volume with the take that could be signed now; or none. 21, 22.
    pub fn smallest_volume(&self, take: usize) -> Result<Option<Volume>, Refused> {
        let volume = Volume::from_bits(self.ask(native::ledger_smallest_group, take)?);
        Ok((!volume.is_empty()).then_some(volume))
    }

    /// How many volumes of exactly so many takes could be signed now. 34.
    pub fn ready_count(&self, size: usize) -> Result<usize, Refused> {
        self.ask(native::ledger_ready_count, size)
    }

    /// Whether every mark in the take's state and creation maps, its own apart, is frozen. 21, 22.
    pub fn all_heard_frozen(&self, take: usize) -> Result<bool, Refused> {
        Ok(self.ask(native::ledger_all_heard_stable, take)? == 1)
    }

    /// What rests on the present life of the take: what its withdrawal would reach. 21, 22.
    pub fn dependents(&self, take: usize) -> Result<Dependents, Refused> {
        let d = self.ask(native::ledger_dependents, take)?;
        Ok(Dependents {
            resting: Volume::from_bits(d.resting),
            through: Volume::from_bits(d.through),
            unfinished: Volume::from_bits(d.unfinished),
            carried: d.carried,
        })
    }

    /// Why this volume can't be signed now. 29, 21, 22, 30.
    pub fn obstacle(&self, volume: Volume) -> Result<Obstacle, Refused> {
        let o = self.ask(native::ledger_obstacle, usize::from(volume.bits()))?;
        let (take, ground) = (o.take, o.ground);
        Ok(match o.kind {
            0 => Obstacle::Nothing,
            1 => Obstacle::NotFrozen { take },
            2 => Obstacle::Outside { take, ground },
            3 => Obstacle::Withdrawn { take, ground },
            kind => another_version("obstacle", kind.into()),
        })
    }

    /// Why no volume with the take could be signed now. 21, 22.
    pub fn impediment(&self, take: usize) -> Result<Impediment, Refused> {
        let o = self.ask(native::ledger_impediment, take)?;
        let (take, ground, next) = (o.take, o.ground, o.next);
        Ok(match o.kind {
            0 => Impediment::Nothing,
            1 => Impediment::Hopeless { take, ground, next },
            2 => Impediment::Exhausted { take, next },
            3 => Impediment::NotFrozen { take, next },
            kind => another_version("impediment", kind.into()),
        })
    }

    /// The steps after which the take is signed, together with all that it rests on; none where it
    /// can't be, or where the letters that wake idle takes have no room: `impediment` tells why. 21, 22.
    pub fn plan(&self, take: usize) -> Result<Vec<Step>, Refused> {
        let (mut out, mut refusal) = ([0; PLAN], 0);
        let (i, n) = (self.image.as_ptr(), self.image.len());
        let o = out.as_mut_ptr();
        let steps = unsafe { native::ledger_plan(i, n, take, o, PLAN, &mut refusal) };
        accepted(refusal)?;
        Ok(unpacked(&out[..STEP * steps]))
    }

    /// For whom the step would act now: ask it before you let somebody run it.
    ///
    /// ```
    /// use take_ledger::{Actor, Session, Step};
    /// let hearing = Session::new();
    /// assert_eq!(hearing.actor(Step::root(7)), Actor::House);
    /// assert_eq!(hearing.actor(Step::freeze(3)?), Actor::Take(3));
    /// assert_eq!(hearing.actor(Step::receive(0)), Actor::Nobody);
    /// # Ok::<(), take_ledger::Unfit>(())
    /// ```
    pub fn actor(&self, step: Step) -> Actor {
        let (one, mut refusal) = (step.bytes(), 0);
        let (i, n) = (self.image.as_ptr(), self.image.len());
        let a = unsafe { native::ledger_actor(i, n, one.as_ptr(), STEP, &mut refusal) };
        accepted(refusal).expect("the image is well-formed");
        match a.kind {
            0 => Actor::Nobody,
            1 => Actor::House,
            2 => Actor::Take(a.takes.trailing_zeros() as u8),
            3 => Actor::Volume(Volume::from_bits(a.takes as u16)),
            kind => another_version("actor", kind),
        }
    }

    /// What the receipt of the waiting parcel would do now; nothing is received. Refused as the
    /// receipt would be: 24, 22, 23, 31, 28.
    pub fn decide(&self, parcel: usize) -> Result<Decision, Refused> {
        let d = self.ask(native::looking_decision, parcel)?;
        let outcome = Outcome::of(d.outcome).unwrap_or_else(|| another_version("decision", d.outcome));
        Ok(Decision { outcome, take: d.take as u8 })
    }

    /// Whether these two steps may come in either order here: then both orders leave the same image
    /// and give each step the same reply.
    pub fn independent(&self, first: Step, second: Step) -> bool {
        let (a, b, mut refusal) = (first.bytes(), second.bytes(), 0);
        let (i, n) = (self.image.as_ptr(), self.image.len());
        let yes = unsafe { native::looking_independent(i, n, a.as_ptr(), STEP, b.as_ptr(), STEP, &mut refusal) };
        accepted(refusal).expect("the image is well-formed");
        yes == 1
    }

    /// The steps without those that a run from here refuses, and without the reads that nothing
    /// comes of: run from here they leave the same image. Refused with 17 over 1,024 steps.
    pub fn thin(&self, steps: &[Step]) -> Result<Vec<Step>, Refused> {
        let list = packed(steps);
        let (mut out, mut refusal) = (vec![0; list.len()], 0);
        let (i, n) = (self.image.as_ptr(), self.image.len());
        let (l, m, o) = (list.as_ptr(), list.len(), out.as_mut_ptr());
        let kept = unsafe { native::ledger_thin(i, n, l, m, 0, m, o, m, &mut refusal) };
        accepted(refusal)?;
        Ok(unpacked(&out[..STEP * kept]))
    }
}

pub(crate) fn another_version(what: &str, number: usize) -> ! {
    panic!("the library answers {what} with {number}: it is another version than this crate")
}
