//! An engine without maps, written from document 02's W11 alone, for speed: it holds the step list, its replies and plain tables of takes
//! and parcels, and goes back over steps and replies where a receipt or a signing depends on chains. Names are document 01's.

use crate::ledger::{LONGEST, PARCELS, SIGNINGS, STEP, TAKES};

/// A set of takes.
type Takes = u16;

const DONE: u64 = 0;
const HELD: u64 = 1;
const DROPPED: u64 = 2;
const FALLEN_BACK: u64 = 3;
const VANISHED: u64 = 4;
const NOT_READY: u64 = 5;
const REFUSED: u64 = 20;

#[derive(Clone, Copy, Default)]
struct Take {
    text: u32,
    saved: u32,
    signings: usize,
}

#[derive(Clone, Copy, Default)]
struct Parcel {
    number: u16,
    addressee: usize,
    text: u32,
}

fn reply(outcome: u64, take: usize, parcel: u16, text: u32) -> u64 {
    outcome << 56 | (take as u64) << 48 | (parcel as u64) << 32 | text as u64
}

fn refuse(number: u64) -> u64 {
    number << 56
}

/// The eight bytes of a step or a reply.
#[inline(always)]
fn eight(list: &[u8], i: usize) -> u64 {
    u64::from_be_bytes(list[STEP * i..STEP * i + STEP].try_into().unwrap())
}

// ---- going back

/// The maps that are followed at a place in the list: takes whose state, creation or behaviour map, parcels whose map is wanted.
#[derive(Clone, Copy)]
struct Wanted {
    state: Takes,
    creation: Takes,
    behaviour: Takes,
    parcels: [u64; LONGEST / STEP / 64],
}

impl Wanted {
    fn of_takes(takes: Takes) -> Wanted {
        Wanted { state: takes, creation: takes, behaviour: 0, parcels: [0; LONGEST / STEP / 64] }
    }

    fn of_parcel(number: u16) -> Wanted {
        let mut wanted = Wanted::of_takes(0);
        wanted.follow(number);
        wanted
    }

    #[inline(always)]
    fn nothing(&self) -> bool {
        self.state | self.creation | self.behaviour == 0 && self.parcels.iter().all(|word| *word == 0)
    }

    #[inline(always)]
    fn follow(&mut self, number: u16) {
        self.parcels[number as usize / 64] |= 1 << (number % 64);
    }

    /// Whether the parcel is wanted; it is not from then on.
    #[inline(always)]
    fn made(&mut self, number: u16) -> bool {
        let word = &mut self.parcels[number as usize / 64];
        let bit = 1 << (number % 64);
        let wanted = *word & bit != 0;
        *word &= !bit;
        wanted
    }

    /// These takes have their own mark alone, or nothing: no map of theirs is wanted before.
    #[inline(always)]
    fn forget(&mut self, takes: Takes) {
        self.state &= !takes;
        self.creation &= !takes;
        self.behaviour &= !takes;
    }

    /// Creation, behaviour and own mark of a take, which are in what it made; the take.
    #[inline(always)]
    fn ground(&mut self, take: Takes) -> Takes {
        self.creation |= take;
        self.behaviour |= take;
        take
    }

    /// The maps that these are made of, before a step that was not refused. The takes whose marks of that time are met in them.
    #[inline(always)]
    fn before(&mut self, step: u64, reply: u64) -> Takes {
        let outcome = reply >> 56;
        let number = (reply >> 32) as u16;
        let take = 1 << (reply >> 48 & 15);
        match step >> 60 {
            0 => self.forget(take),
            1 => {
                self.made(number);
            }
            2 if outcome == DONE && self.behaviour & take != 0 => {
                self.behaviour &= !take;
                self.follow(number);
            }
            3 => {
                let opener = 1 << (step >> 56 & 15);
                let mut met = if self.behaviour & opener != 0 { take } else { 0 };
                if self.creation & take != 0 {
                    met |= self.ground(opener);
                }
                self.forget(take);
                return met;
            }
            4 => {
                if self.made(number) {
                    return self.ground(take);
                }
            }
            5 => {
                let met = self.behaviour & take;
                self.state |= met;
                return met;
            }
            6 if outcome == DONE => self.behaviour |= self.state & take,
            8 => self.behaviour &= !take,
            9 if outcome == HELD => self.behaviour &= !take,
            2 | 9 | 10 if outcome == FALLEN_BACK || outcome == VANISHED => self.forget(take),
            12 if outcome == DONE => self.forget((step >> 32) as u16),
            _ => {}
        }
        0
    }
}

/// What became of the life that each take has at a place in the list; neither: it is signed.
struct Fates {
    present: Takes,
    withdrawn: Takes,
}

impl Fates {
    const NOW: Fates = Fates { present: !0, withdrawn: 0 };

    /// Before a step that was not refused: the takes whose life it ended.
    #[inline(always)]
    fn before(&mut self, step: u64, reply: u64) -> Takes {
        let outcome = reply >> 56;
        let ended = if outcome == FALLEN_BACK || outcome == VANISHED {
            let take = 1 << (reply >> 48 & 15);
            self.withdrawn |= take;
            take
        } else if step >> 60 == 12 && outcome == DONE {
            let volume = (step >> 32) as u16;
            self.withdrawn &= !volume;
            volume
        } else {
            return 0;
        };
        self.present &= !ended;
        ended
    }
}

enum Compared {
    Dropped,
    Fallen,
    Fit,
}

/// A parcel's map and the state and creation maps of a take, compared after the steps that have replies: of each other take the newest
/// mark in either is the first that is met going back, and of two lives of one take the earlier is stale if it was withdrawn. A walk stops
/// where nothing that is still wanted can change the answer.
fn compare<const STOPS: bool>(list: &[u8], replies: &[u8], number: u16, take: Takes) -> Compared {
    let (mut parcel, mut taker) = (Wanted::of_parcel(number), Wanted::of_takes(take));
    let (mut in_parcel, mut in_taker) = (0, take);
    let mut fates = Fates::NOW;
    let mut earlier: Takes = 0; // a later life of the take was met
    let (mut dropped, mut fallen) = (false, false);
    for i in (0..replies.len() / STEP).rev() {
        let (step, reply) = (eight(list, i), eight(replies, i));
        if reply >> 56 >= REFUSED {
            continue;
        }
        earlier |= fates.before(step, reply) & (in_parcel | in_taker);
        let met = parcel.before(step, reply) & !in_parcel;
        in_parcel |= met;
        dropped |= met & in_taker & earlier & fates.withdrawn != 0;
        let met = taker.before(step, reply) & !in_taker;
        in_taker |= met;
        fallen |= met & in_parcel & earlier & fates.withdrawn != 0;
        let parcel_alone = taker.nothing() && in_taker & !in_parcel == 0;
        let taker_alone = parcel.nothing() && in_parcel & !in_taker == 0;
        if STOPS && (dropped || parcel_alone || taker_alone) {
            break;
        }
    }
    match (dropped, fallen) {
        (true, _) => Compared::Dropped,
        (false, true) => Compared::Fallen,
        _ => Compared::Fit,
    }
}

/// Every life that the takes of the volume rest on is signed, or present and of a named take.
fn ready<const STOPS: bool>(list: &[u8], replies: &[u8], volume: Takes) -> bool {
    let mut wanted = Wanted::of_takes(volume);
    let mut fates = Fates::NOW;
    let mut good = true;
    for i in (0..replies.len() / STEP).rev() {
        let (step, reply) = (eight(list, i), eight(replies, i));
        if reply >> 56 >= REFUSED {
            continue;
        }
        fates.before(step, reply);
        let met = wanted.before(step, reply);
        good &= met & (fates.withdrawn | fates.present & !volume) == 0;
        if STOPS && (!good || wanted.nothing()) {
            break;
        }
    }
    good
}

// ---- a session

struct Engine<const STOPS: bool> {
    limits: [usize; 3], // takes, parcels, signings
    opened: usize,
    next: u16,
    idle: Takes,
    at_work: Takes,
    frozen: Takes,
    takes: [Take; TAKES],
    waiting: usize,
    parcels: [Parcel; PARCELS], // the waiting ones first, in rising number
}

impl<const STOPS: bool> Engine<STOPS> {
    fn open(&mut self, text: u32) -> u64 {
        let t = self.opened;
        if t >= self.limits[0] {
            return refuse(25);
        }
        self.opened += 1;
        self.idle |= 1 << t;
        self.takes[t].text = text;
        reply(DONE, t, 0, 0)
    }

    fn post(&mut self, from: usize, addressee: usize, text: u32) -> u64 {
        if self.waiting >= self.limits[1] {
            return refuse(26);
        }
        let number = self.next;
        self.next += 1; // a list has 1,024 steps, so numbers do not run out
        self.parcels[self.waiting] = Parcel { number, addressee, text };
        self.waiting += 1;
        reply(DONE, from, number, 0)
    }

    fn find(&self, number: u16) -> Option<usize> {
        self.parcels[..self.waiting].iter().position(|p| p.number == number)
    }

    fn remove(&mut self, place: usize) {
        self.parcels.copy_within(place + 1..self.waiting, place);
        self.waiting -= 1;
    }

    /// The outcome of a fall.
    fn fall(&mut self, t: usize) -> u64 {
        let (bit, take) = (1 << t, &mut self.takes[t]);
        self.at_work &= !bit;
        self.frozen &= !bit;
        if take.signings == 0 {
            self.idle &= !bit;
            return VANISHED;
        }
        take.text = take.saved;
        self.idle |= bit;
        FALLEN_BACK
    }

    fn rest(&mut self, t: usize) {
        self.at_work &= !(1 << t);
        self.idle |= 1 << t;
    }

    /// A receipt or a signing may look at the list as far as it has replies.
    fn receive(&mut self, number: u16, list: &[u8], replies: &[u8]) -> u64 {
        let Some(place) = self.find(number) else {
            return refuse(24);
        };
        let Parcel { addressee: t, text, .. } = self.parcels[place];
        let bit = 1 << t;
        if (self.idle | self.at_work) & bit == 0 {
            return refuse(22);
        }
        if self.idle & bit == 0 {
            return refuse(23);
        }
        self.remove(place);
        match compare::<STOPS>(list, replies, number, bit) {
            Compared::Dropped => reply(DROPPED, t, number, 0),
            Compared::Fallen => reply(self.fall(t), t, number, 0),
            Compared::Fit => {
                self.idle &= !bit;
                self.at_work |= bit;
                reply(DONE, t, number, text)
            }
        }
    }

    fn sign(&mut self, volume: Takes, list: &[u8], replies: &[u8]) -> u64 {
        if volume == 0 {
            return refuse(29);
        }
        if volume as usize >> self.opened != 0 {
            return refuse(21);
        }
        if volume & !(self.idle | self.at_work) != 0 {
            return refuse(22);
        }
        let named = || (0..TAKES).filter(|t| volume >> t & 1 == 1);
        if named().any(|t| self.takes[t].signings >= self.limits[2]) {
            return refuse(30);
        }
        if volume & !self.frozen != 0 || !ready::<STOPS>(list, replies, volume) {
            return reply(NOT_READY, 0, 0, 0);
        }
        for t in named() {
            let take = &mut self.takes[t];
            take.saved = take.text;
            take.signings += 1;
        }
        self.frozen &= !volume;
        self.at_work &= !volume;
        self.idle |= volume;
        reply(DONE, 0, 0, 0)
    }

    /// Kinds 3 to 10.
    fn act(&mut self, kind: u64, t: usize, other: usize, text: u32) -> u64 {
        let bit = 1 << t;
        if t >= self.opened || other >= self.opened {
            return refuse(21);
        }
        if (self.idle | self.at_work) & bit == 0 {
            return refuse(22);
        }
        if kind != 10 && self.at_work & bit == 0 {
            return refuse(23);
        }
        let frozen = self.frozen & bit != 0;
        match kind {
            3 => return self.open(text),
            4 => return self.post(t, other, text),
            5 => return reply(DONE, t, 0, self.takes[t].text),
            6 if !frozen => self.takes[t].text = text,
            7 => self.frozen |= bit,
            8 => self.rest(t),
            9 | 10 if !frozen => return reply(self.fall(t), t, 0, 0),
            9 => {
                self.rest(t);
                return reply(HELD, t, 0, 0);
            }
            _ => return reply(HELD, t, 0, 0),
        }
        reply(DONE, t, 0, 0)
    }

    fn step(&mut self, step: u64, list: &[u8], replies: &[u8]) -> u64 {
        let kind = step >> 60;
        if malformed(step) {
            return refuse(20);
        }
        let take = (step >> 56 & 15) as usize;
        let other = (step >> 52 & 15) as usize;
        let number = (step >> 32) as u16;
        let text = step as u32;
        match kind {
            0 => self.open(text),
            1 if take >= self.opened => refuse(21),
            1 => self.post(take, take, text),
            2 => self.receive(number, list, replies),
            11 => match self.find(number) {
                Some(place) => {
                    self.remove(place);
                    reply(DONE, 0, number, 0)
                }
                None => refuse(24),
            },
            12 => self.sign(number, list, replies),
            _ => self.act(kind, take, other, text),
        }
    }
}

/// Kind 13 to 15, or an unused field or the zero bits not zero.
fn malformed(step: u64) -> bool {
    let kind = step >> 60;
    let unused = |used: bool, mask: u64| !used && step & mask != 0;
    kind > 12
        || step & 15 << 48 != 0
        || unused(matches!(kind, 1 | 3..=10), 15 << 56)
        || unused(kind == 4, 15 << 52)
        || unused(matches!(kind, 2 | 11 | 12), 0xffff << 32)
        || unused(matches!(kind, 0 | 1 | 3 | 4 | 6), 0xffff_ffff)
}

/// The replies to a whole list, of a session begun with these limits: 0, or 17, 18, 33 with no byte changed.
pub fn play(list: &[u8], takes: usize, parcels: usize, signings: usize, replies: &mut [u8]) -> u8 {
    played::<true>(list, [takes, parcels, signings], replies)
}

/// The same, where each walk goes back to the first step, whether or not anything is still wanted.
pub fn play_through(list: &[u8], takes: usize, parcels: usize, signings: usize, replies: &mut [u8]) -> u8 {
    played::<false>(list, [takes, parcels, signings], replies)
}

fn played<const STOPS: bool>(list: &[u8], limits: [usize; 3], replies: &mut [u8]) -> u8 {
    if list.len() % STEP != 0 || list.len() > LONGEST {
        return 17;
    }
    if replies.len() != list.len() {
        return 18;
    }
    if limits.iter().zip([TAKES, PARCELS, SIGNINGS]).any(|(n, most)| !(1..=most).contains(n)) {
        return 33;
    }
    let mut engine = Engine::<STOPS> {
        limits,
        opened: 0,
        next: 0,
        idle: 0,
        at_work: 0,
        frozen: 0,
        takes: [Take::default(); TAKES],
        waiting: 0,
        parcels: [Parcel::default(); PARCELS],
    };
    for i in 0..list.len() / STEP {
        let (past, rest) = replies.split_at_mut(STEP * i);
        let answer = engine.step(eight(list, i), list, past);
        rest[..STEP].copy_from_slice(&answer.to_be_bytes());
    }
    0
}
