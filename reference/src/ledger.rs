//! A ledger written from documents 01 and 02 alone, for speed: the yardstick of the differential test and of the benchmark.
//! Names are document 01's. It works in place on the caller's bytes.

#[path = "plan.rs"]
mod plan;
pub use plan::{plan, PLAN};

pub const IMAGE: usize = 42_616;
pub const TAKES: usize = 16;
pub const PARCELS: usize = 32;
pub const SIGNINGS: usize = 15;
pub const STEP: usize = 8;
pub const LONGEST: usize = 8_192;
pub const MAP: usize = 528;

// The packed forms as structs of bytes: each has alignment 1, so that an image is a cast away.
#[derive(Clone, Copy)]
#[repr(C)]
struct Mark {
    head: u8,            // present 1, frozen 1, zero 2, count of L 4
    rest: [[u8; 2]; 16], // n, then L, oldest first, each most significant byte first
}

type Map = [Mark; TAKES];

#[derive(Clone, Copy)]
#[repr(C)]
struct Take {
    status: u8,
    text: [u8; 4],
    saved: [u8; 4],
    state: Map,
    creation: Map,
    behaviour: Map,
}

#[derive(Clone, Copy)]
#[repr(C)]
struct Parcel {
    head: u8, // waiting 1, zero 3, addressee 4
    number: [u8; 2],
    text: [u8; 4],
    map: Map,
}

#[derive(Clone, Copy)]
#[repr(C)]
struct Limits {
    takes: u8,
    parcels: u8,
    signings: u8,
    zero: u8,
}

#[repr(C)]
struct Image {
    opened: u8,
    next: [u8; 2],
    zero: u8,
    limits: Limits,
    takes: [Take; TAKES],
    parcels: [Parcel; PARCELS],
}

const _: () = assert!(size_of::<Mark>() == 33 && size_of::<Map>() == MAP);
const _: () = assert!(size_of::<Image>() == IMAGE && align_of::<Image>() == 1);

const PRESENT: u8 = 0x80;
const FROZEN: u8 = 0x40;
const COUNT: u8 = 0x0f;
const WAITING: u8 = 0x80;

const IDLE: u8 = 1 << 6;
const AT_WORK: u8 = 2 << 6;
const VANISHED: u8 = 3 << 6;

const ABSENT: Mark = Mark { head: 0, rest: [[0; 2]; 16] };
const OPENING: Mark = Mark { head: PRESENT, rest: [[0; 2]; 16] };
const EMPTY: Map = [ABSENT; TAKES];
const UNUSED: Take = Take { status: 0, text: [0; 4], saved: [0; 4], state: EMPTY, creation: EMPTY, behaviour: EMPTY };
const FREE: Parcel = Parcel { head: 0, number: [0; 2], text: [0; 4], map: EMPTY };

const DONE: u64 = 0;
const HELD: u64 = 1;
const DROPPED: u64 = 2;
const FALLEN_BACK: u64 = 3;
const OUTCOME_VANISHED: u64 = 4;
const NOT_READY: u64 = 5;

/// The numbers of a mark as they stand, n in the lowest bytes of the first half.
type Rest = [u128; 2];

const N: u128 = 0xffff;

// What must be zero past n and so many entries of L.
const PAST: [Rest; 16] = {
    let mut past = [[0; 2]; 16];
    let mut count = 0;
    while count < 15 {
        past[count] = match count {
            0..=6 => [u128::MAX << (16 * count + 16), u128::MAX],
            _ => [0, u128::MAX << (16 * (count - 7))],
        };
        count += 1;
    }
    past
};

impl Mark {
    /// Orders marks: the newer has the greater key, and an absent one has 0.
    #[inline(always)]
    fn key(&self) -> u32 {
        let head = self.head as u32;
        (head & 0x8f) << 17 | (self.n() as u32) << 1 | (head >> 6 & 1)
    }

    #[inline(always)]
    fn count(&self) -> usize {
        (self.head & COUNT) as usize
    }

    #[inline(always)]
    fn n(&self) -> u16 {
        u16::from_be_bytes(self.rest[0])
    }

    /// Entry `at` of L.
    #[inline(always)]
    fn entry(&self, at: usize) -> u16 {
        u16::from_be_bytes(self.rest[1 + at])
    }

    #[inline(always)]
    fn rest(&self) -> Rest {
        let (halves, _) = self.rest.as_flattened().as_chunks();
        [u128::from_le_bytes(halves[0]), u128::from_le_bytes(halves[1])]
    }

    /// Whether the first `count` entries of both lists are the same.
    #[inline(always)]
    fn agrees(&self, other: &Mark, count: usize) -> bool {
        let (a, b, past) = (self.rest(), other.rest(), PAST[count]);
        (a[0] ^ b[0]) & !past[0] & !N | (a[1] ^ b[1]) & !past[1] == 0
    }

    /// The life of this mark is signed, where the take's present mark is `present`.
    #[inline(always)]
    fn signed(&self, present: &Mark) -> bool {
        let (a, b) = (self.count(), present.count());
        a < b && present.rest[1 + a] == self.rest[0] && self.agrees(present, a)
    }

    #[inline(always)]
    fn same_life(&self, present: &Mark) -> bool {
        self.count() == present.count() && self.rest() == present.rest()
    }

    /// Both are present, and of one life.
    #[inline(always)]
    fn is_of(&self, present: &Mark) -> bool {
        (self.head ^ present.head) & !FROZEN == 0 && self.head != 0 && self.rest() == present.rest()
    }

    fn next(&self) -> Mark {
        let mut rest = self.rest;
        rest[0] = (self.n() + 1).to_be_bytes();
        Mark { head: self.head & !FROZEN, rest }
    }

    fn signed_now(&self) -> Mark {
        let mut rest = self.rest;
        rest[1 + self.count()] = rest[0];
        rest[0] = [0; 2];
        Mark { head: (self.head & !FROZEN) + 1, rest }
    }

    /// No zero bit set, a count within the limit, nothing past the count; absent: nothing at all.
    #[inline(always)]
    fn formed(&self, signings: u8) -> bool {
        if self.head & PRESENT == 0 {
            return self.head == 0 && self.rest() == [0; 2];
        }
        let (rest, past) = (self.rest(), PAST[self.count()]);
        self.head & 0x30 == 0 && self.head & COUNT <= signings && rest[0] & past[0] | rest[1] & past[1] == 0
    }
}

fn bytes<T>(part: &[T]) -> &[u8] {
    // Only the structs above are passed: bytes without padding.
    unsafe { std::slice::from_raw_parts(part.as_ptr().cast(), size_of_val(part)) }
}

fn zero(part: &[u8]) -> bool {
    part.iter().fold(0, |a, b| a | b) == 0
}

// Not inlined, as measured: the test of a full image takes a sixth longer where it is.
#[inline(never)]
fn map_formed(map: &Map, opened: usize, signings: u8) -> bool {
    let (named, unnamed) = map.split_at(opened);
    zero(bytes(unnamed)) && named.iter().all(|m| m.formed(signings))
}

fn take_formed(take: &Take, own: usize, opened: usize, signings: u8) -> bool {
    if take.status == VANISHED {
        return zero(&bytes(std::slice::from_ref(take))[1..]);
    }
    if take.status != IDLE && take.status != AT_WORK {
        return false;
    }
    let mark = &take.state[own];
    if mark.head & PRESENT == 0 || (mark.count() == 0 && take.saved != [0; 4]) {
        return false;
    }
    if take.status == IDLE {
        if !zero(bytes(&take.behaviour)) {
            return false;
        }
    } else if !map_formed(&take.behaviour, opened, signings) {
        return false;
    }
    map_formed(&take.state, opened, signings) && map_formed(&take.creation, opened, signings)
}

impl Image {
    fn of(image: &[u8]) -> &Image {
        assert!(image.len() == IMAGE);
        unsafe { &*image.as_ptr().cast() }
    }

    fn of_mut(image: &mut [u8]) -> &mut Image {
        assert!(image.len() == IMAGE);
        unsafe { &mut *image.as_mut_ptr().cast() }
    }

    #[inline(always)]
    fn opened(&self) -> usize {
        (self.opened as usize).min(TAKES)
    }

    fn waiting(&self) -> usize {
        self.parcels.partition_point(|p| p.head & WAITING != 0)
    }

    fn formed(&self) -> bool {
        let Limits { takes, parcels, signings, zero: fourth } = self.limits;
        if self.zero != 0 || fourth != 0 || !in_range(takes as usize, parcels as usize, signings as usize) {
            return false;
        }
        let opened = self.opened as usize;
        if opened > takes as usize || !zero(bytes(&self.takes[opened..])) {
            return false;
        }
        for (t, take) in self.takes[..opened].iter().enumerate() {
            if !take_formed(take, t, opened, signings) {
                return false;
            }
        }
        let next = u16::from_be_bytes(self.next) as u32;
        let mut least = 0;
        for (k, p) in self.parcels.iter().enumerate() {
            if p.head == 0 {
                return zero(bytes(&self.parcels[k..]));
            }
            let number = u16::from_be_bytes(p.number) as u32;
            if k >= parcels as usize
                || p.head & 0xf0 != WAITING
                || (p.head & 15) as usize >= opened
                || number < least
                || number >= next
            {
                return false;
            }
            least = number + 1;
            if !map_formed(&p.map, opened, signings) {
                return false;
            }
        }
        true
    }
}

/// into: the newer of each of its marks and the right ones.
#[inline(always)]
fn join_right(into: &mut [Mark], right: &[Mark]) {
    for (m, r) in into.iter_mut().zip(right) {
        if r.key() > m.key() {
            *m = *r;
        }
    }
}

/// into: the newer of the left marks and each of its own.
#[inline(always)]
fn join_left(into: &mut [Mark], left: &[Mark]) {
    for (m, l) in into.iter_mut().zip(left) {
        if l.head != 0 && l.key() >= m.key() {
            *m = *l;
        }
    }
}

/// News of a freeze: an unfrozen mark, but the receiver's own, becomes frozen where the parcel shows that its life was.
fn hear(map: &mut Map, parcel: &Map, own: usize) {
    for (u, (m, p)) in map.iter_mut().zip(parcel).enumerate() {
        let news = m.head & (PRESENT | FROZEN) == PRESENT && (p.head & FROZEN != 0 && m.same_life(p) || m.signed(p));
        if news && u != own {
            m.head |= FROZEN;
        }
    }
}

impl Take {
    /// Its own mark alone in state, the other maps empty, idle.
    fn bare(&mut self, own: usize, mark: Mark) {
        self.status = IDLE;
        self.state = EMPTY;
        self.state[own] = mark;
        self.creation = EMPTY;
        self.behaviour = EMPTY;
    }

    /// The outcome of a fall, or nothing from life 65,535.
    fn fall(&mut self, own: usize) -> Option<u64> {
        let mark = self.state[own];
        if mark.count() == 0 {
            *self = UNUSED;
            self.status = VANISHED;
            return Some(OUTCOME_VANISHED);
        }
        if mark.n() == 65_535 {
            return None;
        }
        self.text = self.saved;
        self.bare(own, mark.next());
        Some(FALLEN_BACK)
    }

    fn idle(&mut self) {
        self.status = IDLE;
        self.behaviour = EMPTY;
    }

    /// Creation, behaviour and own mark joined.
    fn ground(&self, own: usize, opened: usize) -> Map {
        let mut map = self.creation;
        join_right(&mut map[..opened], &self.behaviour[..opened]);
        join_right(&mut map[own..=own], &self.state[own..=own]);
        map
    }
}

enum Compared {
    Unrelated,
    Dropped,
    Fallen,
    Fit,
}

/// 31 if marks of some take are from two different books; else whether one of the parcel is stale, else whether one of the take's is.
fn compare(parcel: &Map, take: &Take, opened: usize) -> Compared {
    let (mut dropped, mut fallen) = (false, false);
    for u in 0..opened {
        let p = &parcel[u];
        if p.head == 0 {
            continue;
        }
        let (s, c) = (&take.state[u], &take.creation[u]);
        let t = if c.key() > s.key() { c } else { s };
        if t.head == 0 || p.same_life(t) {
            continue;
        }
        let (a, b) = (p.count(), t.count());
        let early = if a < b || a == b && p.n() < t.n() { p } else { t };
        let next = if a == b {
            p.n().max(t.n())
        } else if a < b {
            t.entry(a)
        } else {
            p.entry(b)
        };
        if next < early.n() || !p.agrees(t, a.min(b)) {
            return Compared::Unrelated;
        }
        let stale = early.n() < next;
        dropped |= stale && std::ptr::eq(early, p);
        fallen |= stale && std::ptr::eq(early, t);
    }
    match (dropped, fallen) {
        (true, _) => Compared::Dropped,
        (false, true) => Compared::Fallen,
        _ => Compared::Fit,
    }
}

// The fields that a step of each kind may use.
const fn used(take: bool, other: bool, parcel: bool, text: bool) -> u64 {
    15 << 60
        | (take as u64 * 15) << 56
        | (other as u64 * 15) << 52
        | (parcel as u64 * 0xffff) << 32
        | text as u64 * 0xffff_ffff
}

const USED: [u64; 16] = [
    used(false, false, false, true),
    used(true, false, false, true),
    used(false, false, true, false),
    used(true, false, false, true),
    used(true, true, false, true),
    used(true, false, false, false),
    used(true, false, false, true),
    used(true, false, false, false),
    used(true, false, false, false),
    used(true, false, false, false),
    used(true, false, false, false),
    used(false, false, true, false),
    used(false, false, true, false),
    0,
    0,
    0,
];

fn reply(outcome: u64, take: usize, parcel: u16, text: u32) -> u64 {
    outcome << 56 | (take as u64) << 48 | (parcel as u64) << 32 | text as u64
}

fn refuse(number: u64) -> u64 {
    number << 56
}

/// A well-formed image and the number of its waiting parcels.
struct Session<'a> {
    image: &'a mut Image,
    waiting: usize,
}

impl Session<'_> {
    #[inline(always)]
    fn opened(&self) -> usize {
        self.image.opened()
    }

    fn open(&mut self, text: u32) -> Option<usize> {
        let t = self.opened();
        if t >= self.image.limits.takes as usize {
            return None;
        }
        self.image.opened += 1;
        let take = &mut self.image.takes[t];
        take.status = IDLE;
        take.text = text.to_be_bytes();
        take.state[t] = OPENING;
        Some(t)
    }

    /// The refusal of a new parcel, if any.
    fn full(&self) -> Option<u64> {
        if self.waiting >= self.image.limits.parcels as usize {
            return Some(26);
        }
        (self.image.next == [255; 2]).then_some(27)
    }

    fn post(&mut self, addressee: usize, text: u32, map: Map) -> u16 {
        let number = u16::from_be_bytes(self.image.next);
        self.image.next = (number + 1).to_be_bytes();
        self.image.parcels[self.waiting] =
            Parcel { head: WAITING | addressee as u8, number: number.to_be_bytes(), text: text.to_be_bytes(), map };
        self.waiting += 1;
        number
    }

    fn find(&self, number: u16) -> Option<usize> {
        let waiting = &self.image.parcels[..self.waiting];
        waiting.binary_search_by_key(&number, |p| u16::from_be_bytes(p.number)).ok()
    }

    fn remove(&mut self, place: usize) {
        self.image.parcels.copy_within(place + 1..self.waiting, place);
        self.waiting -= 1;
        self.image.parcels[self.waiting] = FREE;
    }

    fn receive(&mut self, number: u16) -> u64 {
        let Some(place) = self.find(number) else {
            return refuse(24);
        };
        let opened = self.opened();
        let parcel = &self.image.parcels[place];
        let t = (parcel.head & 15) as usize;
        let take = &mut self.image.takes[t];
        if take.status == VANISHED {
            return refuse(22);
        }
        if take.status != IDLE {
            return refuse(23);
        }
        // a letter's map: nothing to compare and no news
        let empty = parcel.map.iter().all(|m| m.head == 0);
        let compared = if empty { Compared::Fit } else { compare(&parcel.map, take, opened) };
        let answer = match compared {
            Compared::Unrelated => return refuse(31),
            Compared::Dropped => reply(DROPPED, t, number, 0),
            Compared::Fallen => match take.fall(t) {
                Some(outcome) => reply(outcome, t, number, 0),
                None => return refuse(28),
            },
            Compared::Fit => {
                if !empty {
                    hear(&mut take.state, &parcel.map, t);
                    hear(&mut take.creation, &parcel.map, t);
                }
                take.status = AT_WORK;
                take.behaviour = parcel.map;
                reply(DONE, t, number, u32::from_be_bytes(parcel.text))
            }
        };
        self.remove(place);
        answer
    }

    fn sign(&mut self, volume: usize) -> u64 {
        let opened = self.opened();
        if volume == 0 {
            return refuse(29);
        }
        if volume >> opened != 0 {
            return refuse(21);
        }
        let named = |t: usize| volume >> t & 1 == 1;
        let (mut vanished, mut full, mut frozen) = (false, false, true);
        for (t, take) in self.image.takes[..opened].iter().enumerate() {
            let head = take.state[t].head;
            vanished |= named(t) && take.status == VANISHED;
            full |= named(t) && head & COUNT >= self.image.limits.signings;
            frozen &= !named(t) || head & FROZEN != 0;
        }
        if vanished {
            return refuse(22);
        }
        if full {
            return refuse(30);
        }
        if !frozen || !self.grounded(volume, opened) {
            return reply(NOT_READY, 0, 0, 0);
        }
        for (t, take) in self.image.takes[..opened].iter_mut().enumerate() {
            if named(t) {
                take.saved = take.text;
                take.bare(t, take.state[t].signed_now());
            }
        }
        reply(DONE, 0, 0, 0)
    }

    /// Every mark that the named takes rest on is of a signed life or of the present life of a named take.
    fn grounded(&self, volume: usize, opened: usize) -> bool {
        let takes = &self.image.takes[..opened];
        for (t, take) in takes.iter().enumerate() {
            if volume >> t & 1 == 0 {
                continue;
            }
            for (u, other) in takes.iter().enumerate() {
                let present = &other.state[u];
                for m in [&take.state[u], &take.creation[u]] {
                    let good = m.head == 0 || volume >> u & 1 == 1 && m.same_life(present) || m.signed(present);
                    if !good {
                        return false;
                    }
                }
            }
        }
        true
    }

    fn letter(&mut self, t: usize, text: u32) -> u64 {
        if t >= self.opened() {
            return refuse(21);
        }
        if let Some(number) = self.full() {
            return refuse(number);
        }
        let parcel = self.post(t, text, EMPTY);
        reply(DONE, t, parcel, 0)
    }

    fn send(&mut self, t: usize, other: usize, text: u32) -> u64 {
        let opened = self.opened();
        if t >= opened || other >= opened {
            return refuse(21);
        }
        let take = &self.image.takes[t];
        if take.status == VANISHED {
            return refuse(22);
        }
        if take.status != AT_WORK {
            return refuse(23);
        }
        if let Some(number) = self.full() {
            return refuse(number);
        }
        let map = take.ground(t, opened);
        let parcel = self.post(other, text, map);
        reply(DONE, t, parcel, 0)
    }

    fn new(&mut self, t: usize, text: u32) -> u64 {
        let opened = self.opened();
        let Some(child) = self.open(text) else {
            return refuse(25);
        };
        let opener = &mut self.image.takes[t];
        let creation = opener.ground(t, opened);
        join_left(&mut opener.behaviour[child..=child], &[OPENING]);
        self.image.takes[child].creation = creation;
        reply(DONE, child, 0, 0)
    }

    /// Kinds 3 and 5 to 10: what one take does.
    fn act(&mut self, kind: u64, t: usize, text: u32) -> u64 {
        let opened = self.opened();
        if t >= opened {
            return refuse(21);
        }
        let take = &mut self.image.takes[t];
        if take.status == VANISHED {
            return refuse(22);
        }
        if kind != 10 && take.status != AT_WORK {
            return refuse(23);
        }
        let frozen = take.state[t].head & FROZEN != 0;
        match kind {
            3 => return self.new(t, text),
            5 => {
                join_left(&mut take.behaviour[..opened], &take.state[..opened]);
                return reply(DONE, t, 0, u32::from_be_bytes(take.text));
            }
            6 if !frozen => {
                take.text = text.to_be_bytes();
                join_left(&mut take.state[..opened], &take.behaviour[..opened]);
            }
            7 => take.state[t].head |= FROZEN,
            8 => take.idle(),
            9 if frozen => {
                take.idle();
                return reply(HELD, t, 0, 0);
            }
            9 | 10 if !frozen => {
                return match take.fall(t) {
                    Some(outcome) => reply(outcome, t, 0, 0),
                    None => refuse(28),
                }
            }
            _ => return reply(HELD, t, 0, 0),
        }
        reply(DONE, t, 0, 0)
    }

    fn step(&mut self, step: u64) -> u64 {
        let kind = step >> 60;
        if step & !USED[kind as usize] != 0 {
            return refuse(20);
        }
        let take = (step >> 56 & 15) as usize;
        let other = (step >> 52 & 15) as usize;
        let parcel = (step >> 32) as u16;
        let text = step as u32;
        match kind {
            0 => match self.open(text) {
                Some(t) => reply(DONE, t, 0, 0),
                None => refuse(25),
            },
            1 => self.letter(take, text),
            2 => self.receive(parcel),
            4 => self.send(take, other, text),
            11 => match self.find(parcel) {
                Some(place) => {
                    self.remove(place);
                    reply(DONE, 0, parcel, 0)
                }
                None => refuse(24),
            },
            12 => self.sign(parcel as usize),
            _ => self.act(kind, take, text),
        }
    }
}

// ---- the calls

fn in_range(takes: usize, parcels: usize, signings: usize) -> bool {
    (1..=TAKES).contains(&takes) && (1..=PARCELS).contains(&parcels) && (1..=SIGNINGS).contains(&signings)
}

pub fn begin(image: &mut [u8], takes: usize, parcels: usize, signings: usize) -> u8 {
    if image.len() != IMAGE {
        return 16;
    }
    if !in_range(takes, parcels, signings) {
        return 33;
    }
    image.fill(0);
    image[4..7].copy_from_slice(&[takes as u8, parcels as u8, signings as u8]);
    0
}

pub fn run(image: &mut [u8], list: &[u8], start: usize, end: usize, replies: &mut [u8]) -> u8 {
    if image.len() != IMAGE {
        return 16;
    }
    let Some(part) = list.get(start..end) else {
        return 17;
    };
    if part.len() % STEP != 0 || part.len() > LONGEST {
        return 17;
    }
    if replies.len() != part.len() {
        return 18;
    }
    let image = Image::of_mut(image);
    if !image.formed() {
        return 19;
    }
    let waiting = image.waiting();
    let mut session = Session { image, waiting };
    for (step, reply) in part.chunks_exact(STEP).zip(replies.chunks_exact_mut(STEP)) {
        let step = u64::from_be_bytes(step.try_into().unwrap());
        reply.copy_from_slice(&session.step(step).to_be_bytes());
    }
    0
}

/// The part without its refused steps and without the reads whose map is emptied unused: how many steps are left. Of each take, the
/// place of a read that no step has used yet.
pub fn thin(image: &[u8], list: &[u8], start: usize, end: usize, out: &mut [u8]) -> Result<usize, u8> {
    if image.len() != IMAGE {
        return Err(16);
    }
    let mut copy = [0; IMAGE];
    copy.copy_from_slice(image);
    let answer = run(&mut copy, list, start, end, out);
    if answer != 0 {
        return Err(answer);
    }
    let part = &list[start..end];
    let mut kept = [true; LONGEST / STEP];
    let mut unused = [None; TAKES];
    for (i, (step, reply)) in part.chunks_exact(STEP).zip(out.chunks_exact(STEP)).enumerate() {
        let (kind, take, outcome) = (step[0] >> 4, (step[0] & 15) as usize, reply[0]);
        match kind {
            _ if outcome >= 20 => kept[i] = false,
            5 => unused[take] = Some(i),
            3 | 4 | 6 | 7 => unused[take] = None,
            8 | 9 => unused[take].take().into_iter().for_each(|read: usize| kept[read] = false),
            10 => unused[take].take().into_iter().for_each(|read| kept[read] = outcome as u64 == HELD),
            12 if outcome == 0 => {
                let volume = u16::from_be_bytes([step[2], step[3]]);
                let named = (0..TAKES).filter(|t| volume >> t & 1 == 1);
                named.filter_map(|t| unused[t].take()).for_each(|read| kept[read] = false);
            }
            _ => {}
        }
    }
    let mut n = 0;
    for (step, _) in part.chunks_exact(STEP).zip(kept).filter(|(_, kept)| *kept) {
        out[STEP * n..STEP * (n + 1)].copy_from_slice(step);
        n += 1;
    }
    out[STEP * n..].fill(0);
    Ok(n)
}

/// The image of a query about one take.
fn asked(image: &[u8], take: usize) -> Result<&Image, u8> {
    if image.len() != IMAGE {
        return Err(16);
    }
    let image = Image::of(image);
    if !image.formed() {
        return Err(19);
    }
    if take >= image.opened as usize {
        return Err(21);
    }
    if image.takes[take].status == VANISHED {
        return Err(22);
    }
    Ok(image)
}

pub fn offer(image: &[u8], take: usize) -> Result<Option<u16>, u8> {
    let image = asked(image, take)?;
    let head = WAITING | take as u8;
    Ok(image.parcels.iter().find(|p| p.head == head).map(|p| u16::from_be_bytes(p.number)))
}

/// The smallest volume with the take that could be signed now: each take that is added is looked at once.
pub fn smallest(image: &[u8], take: usize) -> Result<Option<u16>, u8> {
    let Image { takes, limits, .. } = asked(image, take)?;
    let mut volume = 1u16 << take;
    let mut added = volume;
    while added != 0 {
        let t = added.trailing_zeros() as usize;
        added &= added - 1;
        let own = &takes[t].state[t];
        if own.head & FROZEN == 0 || own.head & COUNT >= limits.signings {
            return Ok(None);
        }
        for (u, other) in takes.iter().enumerate() {
            let present = &other.state[u];
            for m in [&takes[t].state[u], &takes[t].creation[u]] {
                if m.head == 0 || m.signed(present) {
                    continue;
                }
                if !m.same_life(present) {
                    return Ok(None);
                }
                added |= !volume & 1 << u;
                volume |= 1 << u;
            }
        }
    }
    Ok(Some(volume))
}

/// What a take needs: the takes whose present lives, unsigned, its two maps hold; or none if no volume with it can be signed.
fn need(image: &Image, t: usize) -> Option<u16> {
    let own = &image.takes[t].state[t];
    if own.head & FROZEN == 0 || own.head & COUNT >= image.limits.signings {
        return None;
    }
    let mut need = 0;
    for (u, other) in image.takes.iter().enumerate() {
        let present = &other.state[u];
        for m in [&image.takes[t].state[u], &image.takes[t].creation[u]] {
            if m.head == 0 || m.signed(present) {
                continue;
            }
            if !m.same_life(present) {
                return None;
            }
            need |= 1 << u;
        }
    }
    Some(need)
}

/// How many volumes of that many takes could be signed now.
pub fn ready_count(image: &[u8], size: usize) -> Result<usize, u8> {
    if image.len() != IMAGE {
        return Err(16);
    }
    let image = Image::of(image);
    if !image.formed() {
        return Err(19);
    }
    if !(1..=TAKES).contains(&size) {
        return Err(34);
    }
    // Of a take that cannot be signed, more than a volume can name.
    let needs: [u32; TAKES] = std::array::from_fn(|t| need(image, t).map_or(1 << 16, u32::from));
    let ready = |v: u32| (0..TAKES).all(|t| v >> t & 1 == 0 || needs[t] & !v == 0);
    Ok((1..1u32 << TAKES).filter(|v| v.count_ones() as usize == size && ready(*v)).count())
}

/// All heard frozen: every mark of the take's two maps but its own.
pub fn all_heard(image: &[u8], take: usize) -> Result<bool, u8> {
    let x = &asked(image, take)?.takes[take];
    let frozen = |map: &Map| map.iter().enumerate().all(|(u, m)| u == take || m.head & (PRESENT | FROZEN) != PRESENT);
    Ok(frozen(&x.state) && frozen(&x.creation))
}

/// What rests on a take's present life: volumes, and how many parcels.
#[derive(Clone, Copy, Debug, Default, PartialEq)]
#[repr(C)]
pub struct Dependents {
    /// The live takes with that life in state or creation.
    pub resting: u16,
    /// The take, with each take those that rest on its present life, and so on.
    pub through: u16,
    /// The takes at work with it in behaviour.
    pub unfinished: u16,
    /// How many waiting parcels have it.
    pub carried: u16,
}

impl Image {
    fn present(&self, t: usize) -> &Mark {
        &self.takes[t].state[t]
    }

    /// The live takes that have this mark of take t in state or creation: a take that vanished, or is not opened, has none.
    fn resting(&self, t: usize, present: &Mark) -> u16 {
        let holds = |x: &Take| x.state[t].is_of(present) || x.creation[t].is_of(present);
        self.takes.iter().enumerate().fold(0, |v, (u, x)| v | (holds(x) as u16) << u)
    }
}

pub fn dependents(image: &[u8], take: usize) -> Result<Dependents, u8> {
    let image = asked(image, take)?;
    let present = image.present(take);
    let resting = image.resting(take, present);
    let live = image.takes.iter().enumerate().fold(0, |v, (u, x)| v | ((x.state[u].head != 0) as u16) << u);
    let (mut through, mut added) = (resting, resting & !(1 << take));
    while added != 0 && through != live {
        let u = added.trailing_zeros() as usize;
        added &= added - 1;
        let more = image.resting(u, image.present(u)) & !through;
        through |= more;
        added |= more;
    }
    let works = |x: &Take| x.behaviour[take].is_of(present);
    let unfinished = image.takes.iter().enumerate().fold(0, |v, (u, x)| v | (works(x) as u16) << u);
    let carried = image.parcels[..image.waiting()].iter().filter(|p| p.map[take].is_of(present)).count() as u16;
    Ok(Dependents { resting, through, unfinished, carried })
}

/// Why a volume is not ready, by a named take and the take on which it rests.
#[derive(Clone, Copy, Debug, PartialEq)]
pub enum Obstacle {
    Nothing,
    NotFrozen(u8),
    Outside(u8, u8),
    Withdrawn(u8, u8),
}

pub fn obstacle(image: &[u8], volume: usize) -> Result<Obstacle, u8> {
    if image.len() != IMAGE {
        return Err(16);
    }
    let image = Image::of(image);
    if !image.formed() {
        return Err(19);
    }
    if volume == 0 {
        return Err(29);
    }
    if volume >> image.opened != 0 {
        return Err(21);
    }
    let volume = volume as u16;
    let (mut vanished, mut full, mut unfrozen) = (0, 0, 0);
    for t in 0..image.opened as usize {
        let head = image.present(t).head;
        vanished |= ((head == 0) as u16) << t;
        full |= ((head & COUNT >= image.limits.signings) as u16) << t;
        unfrozen |= ((head & FROZEN == 0) as u16) << t;
    }
    if volume & vanished != 0 {
        return Err(22);
    }
    if volume & full != 0 {
        return Err(30);
    }
    if volume & unfrozen != 0 {
        return Ok(Obstacle::NotFrozen((volume & unfrozen).trailing_zeros() as u8));
    }
    let mut left = volume;
    while left != 0 {
        let t = left.trailing_zeros() as usize;
        left &= left - 1;
        if let Some((u, present)) = image.blocking(volume, t) {
            let (t, u) = (t as u8, u as u8);
            return Ok(if present { Obstacle::Outside(t, u) } else { Obstacle::Withdrawn(t, u) });
        }
    }
    Ok(Obstacle::Nothing)
}

impl Image {
    /// The first mark of take t that is neither of a signed life nor of the present life of a named take: whose it is, and whether it is of
    /// that take's present life.
    #[inline(always)]
    fn blocking(&self, volume: u16, t: usize) -> Option<(usize, bool)> {
        let take = &self.takes[t];
        for u in 0..self.opened() {
            let own = self.present(u);
            for m in [&take.state[u], &take.creation[u]] {
                if m.head == 0 {
                    continue;
                }
                let present = m.is_of(own);
                let good = present && volume >> u & 1 == 1 || m.signed(own);
                if !good {
                    return Some((u, present));
                }
            }
        }
        None
    }
}

/// Why no volume with a take could be signed: the take in the way, for hopeless also the one of which it has a withdrawn life, and the next take
/// on the chain to it.
#[derive(Clone, Copy, Debug, PartialEq)]
pub enum Impediment {
    Nothing,
    Hopeless(u8, u8, u8),
    Exhausted(u8, u8),
    NotFrozen(u8, u8),
}

/// The takes to which chains lead from one: each take of a chain holds the present life of the next.
struct Chains {
    reached: u16,
    /// The next take on the chain to each.
    next: [u8; TAKES],
    /// Those with a mark of a withdrawn life.
    hopeless: u16,
    /// For each of those, the first take of which it has one.
    lost: [u8; TAKES],
}

impl Chains {
    /// Take w is passed: what it holds is reached. Which of that was not before.
    #[inline(always)]
    fn pass(&mut self, image: &Image, w: usize) -> u16 {
        let take = &image.takes[w];
        let (mut held, mut lost) = (0u16, 0u16);
        for u in 0..image.opened() {
            let own = image.present(u);
            for m in [&take.state[u], &take.creation[u]] {
                if m.is_of(own) {
                    held |= 1 << u;
                } else if m.head != 0 && !m.signed(own) {
                    lost |= 1 << u;
                }
            }
        }
        if lost != 0 {
            self.hopeless |= 1 << w;
            self.lost[w] = lost.trailing_zeros() as u8;
        }
        let new = held & !self.reached;
        self.reached |= new;
        new
    }

    /// From take t, with one take more to pass at a time: a take is reached where the greatest that must be passed on the way is take m, and the next on the
    /// way to it is the next on the way to m.
    fn from(image: &Image, t: usize) -> Chains {
        let next = std::array::from_fn(|c| c as u8);
        let mut chains = Chains { reached: 1 << t, next, hopeless: 0, lost: [0; TAKES] };
        chains.pass(image, t);
        let mut passed = 1 << t;
        for m in 0..image.opened() {
            let mut open = chains.reached & !passed & 1 << m;
            while open != 0 {
                let w = open.trailing_zeros() as usize;
                passed |= 1 << w;
                let new = chains.pass(image, w);
                for c in (0..TAKES).filter(|c| new >> c & 1 == 1) {
                    chains.next[c] = chains.next[m];
                }
                open = (open | new) & !passed & ((2u32 << m) - 1) as u16;
            }
        }
        chains
    }
}

pub fn impediment(image: &[u8], take: usize) -> Result<Impediment, u8> {
    let image = asked(image, take)?;
    let chains = Chains::from(image, take);
    let (mut exhausted, mut unfrozen) = (0, 0);
    for t in 0..image.opened() {
        let head = image.present(t).head;
        exhausted |= ((head & COUNT >= image.limits.signings) as u16) << t;
        unfrozen |= ((head & FROZEN == 0) as u16) << t;
    }
    let lowest = |set: u16| (set & chains.reached != 0).then(|| (set & chains.reached).trailing_zeros() as usize);
    Ok(if let Some(c) = lowest(chains.hopeless) {
        Impediment::Hopeless(c as u8, chains.lost[c], chains.next[c])
    } else if let Some(c) = lowest(exhausted) {
        Impediment::Exhausted(c as u8, chains.next[c])
    } else if let Some(c) = lowest(unfrozen) {
        Impediment::NotFrozen(c as u8, chains.next[c])
    } else {
        Impediment::Nothing
    })
}

/// The greatest number of outcomes 3 and 4 in a window, and the first place that has it.
pub fn worst_window(replies: &[u8], width: usize) -> Result<(usize, usize), u8> {
    if replies.len() % STEP != 0 || replies.len() > LONGEST {
        return Err(17);
    }
    if !(1..=256).contains(&width) {
        return Err(35);
    }
    let trouble = |r: &[u8]| matches!(r[0], 3 | 4) as usize;
    let replies = replies.chunks_exact(STEP);
    let mut count: usize = replies.clone().take(width).map(trouble).sum();
    let mut worst = (count, 0);
    for (k, (left, met)) in replies.clone().zip(replies.skip(width)).enumerate() {
        count = count + trouble(met) - trouble(left);
        if count > worst.0 {
            worst = (count, k + 1);
        }
    }
    Ok(worst)
}

pub fn show(image: &[u8], number: u16) -> Result<&[u8], u8> {
    if image.len() != IMAGE {
        return Err(16);
    }
    let image = Image::of(image);
    if !image.formed() {
        return Err(19);
    }
    let number = number.to_be_bytes();
    let found = image.parcels.iter().find(|p| p.head != 0 && p.number == number);
    found.map(|p| bytes(&p.map)).ok_or(24)
}

/// Whether an image of the right length is well-formed.
pub fn formed(image: &[u8]) -> bool {
    Image::of(image).formed()
}

/// One step on an image known to be well-formed: for the generator of step lists.
pub fn step_unchecked(image: &mut [u8], step: u64) -> u64 {
    let image = Image::of_mut(image);
    let waiting = image.waiting();
    Session { image, waiting }.step(step)
}
