//! Seeded inputs: step lists that follow the image they run on, and images that no session grows.

use crate::ledger::{self, IMAGE, PARCELS, SIGNINGS, TAKES};

/// splitmix64
pub struct Random(pub u64);

impl Random {
    pub fn next(&mut self) -> u64 {
        self.0 = self.0.wrapping_add(0x9e37_79b9_7f4a_7c15);
        let mut z = self.0;
        z = (z ^ z >> 30).wrapping_mul(0xbf58_476d_1ce4_e5b9);
        z = (z ^ z >> 27).wrapping_mul(0x94d0_49bb_1331_11eb);
        z ^ z >> 31
    }

    pub fn below(&mut self, n: usize) -> usize {
        ((self.next() >> 32) * n as u64 >> 32) as usize
    }

    /// True with one chance in n.
    pub fn one_in(&mut self, n: usize) -> bool {
        self.below(n) == 0
    }

    pub fn pick<T: Copy>(&mut self, of: &[T]) -> Option<T> {
        (!of.is_empty()).then(|| of[self.below(of.len())])
    }

    pub fn fill(&mut self, bytes: &mut [u8]) {
        bytes.fill_with(|| self.next() as u8);
    }
}

// ---- where things stand in an image

pub const TAKE: usize = 1593;
pub const FIRST_TAKE: usize = 8;
pub const FIRST_PARCEL: usize = FIRST_TAKE + TAKE * TAKES;
pub const PARCEL: usize = 535;
pub const MARK: usize = 33;
pub const STATE: usize = 9;
pub const MAP: usize = ledger::MAP;

pub fn take_at(t: usize) -> usize {
    FIRST_TAKE + TAKE * t
}

pub fn parcel_at(k: usize) -> usize {
    FIRST_PARCEL + PARCEL * k
}

/// Where the marks stand: of the takes, then of the parcels.
pub fn marks() -> impl Iterator<Item = usize> {
    let takes = (0..TAKES).flat_map(|t| (0..3 * TAKES).map(move |i| take_at(t) + STATE + MARK * i));
    let parcels = (0..PARCELS).flat_map(|k| (0..TAKES).map(move |i| parcel_at(k) + PARCEL - MAP + MARK * i));
    takes.chain(parcels)
}

pub fn opened(image: &[u8]) -> usize {
    (image[0] as usize).min(TAKES)
}

/// Takes, parcels waiting and signings that the session allows.
pub fn limits(image: &[u8]) -> [usize; 3] {
    [4, 5, 6].map(|at| image[at] as usize)
}

pub fn status(image: &[u8], t: usize) -> u8 {
    image[take_at(t)] >> 6
}

pub fn frozen(image: &[u8], t: usize) -> bool {
    image[take_at(t) + STATE + MARK * t] & 0x40 != 0
}

pub fn waiting(image: &[u8]) -> usize {
    (0..PARCELS).find(|k| image[parcel_at(*k)] >> 7 == 0).unwrap_or(PARCELS)
}

pub fn addressee(image: &[u8], k: usize) -> usize {
    (image[parcel_at(k)] & 15) as usize
}

pub fn number(image: &[u8], k: usize) -> u16 {
    u16::from_be_bytes([image[parcel_at(k) + 1], image[parcel_at(k) + 2]])
}

pub fn packed(kind: usize, take: usize, other: usize, parcel: usize, text: u32) -> u64 {
    (kind as u64) << 60 | (take as u64) << 56 | (other as u64) << 52 | (parcel as u64) << 32 | text as u64
}

// ---- steps

/// How often each kind is drawn, and how many steps of a thousand are spoilt.
#[derive(Clone, Copy)]
pub struct Mix {
    pub kinds: [usize; 13],
    pub spoilt: usize,
}

/// root, letter, receive, new, send, read, write, freeze, done, fall, fail, lose, sign
pub const MIXED: Mix = Mix { kinds: [1, 8, 22, 1, 14, 12, 12, 2, 10, 1, 1, 2, 4], spoilt: 10 };
pub const SIGNING: Mix = Mix { kinds: [2, 10, 16, 1, 4, 3, 4, 16, 2, 1, 1, 1, 16], spoilt: 10 };
pub const FALLING: Mix = Mix { kinds: [1, 6, 24, 2, 24, 8, 20, 1, 6, 3, 6, 1, 3], spoilt: 5 };
pub const CROWDED: Mix = Mix { kinds: [8, 24, 8, 4, 24, 4, 4, 1, 1, 1, 1, 2, 1], spoilt: 10 };
pub const SPOILT: Mix = Mix { kinds: [4, 8, 8, 4, 8, 8, 8, 8, 8, 8, 8, 8, 8], spoilt: 500 };
/// Signed takes that fail again and again.
pub const FAILING: Mix = Mix { kinds: [1, 4, 6, 0, 1, 0, 1, 6, 0, 0, 80, 1, 6], spoilt: 2 };
pub const MIXES: [Mix; 6] = [MIXED, SIGNING, FALLING, CROWDED, SPOILT, FAILING];

fn takes(image: &[u8], want: impl Fn(usize) -> bool) -> ([usize; TAKES], usize) {
    let (mut found, mut n) = ([0; TAKES], 0);
    for t in 0..opened(image) {
        if want(t) {
            found[n] = t;
            n += 1;
        }
    }
    (found, n)
}

fn number_of(r: &mut Random, image: &[u8], receivable: bool) -> usize {
    let n = waiting(image);
    let (mut places, mut found) = ([0; PARCELS], 0);
    for k in 0..n {
        if !receivable || status(image, addressee(image, k)) == 1 {
            places[found] = k;
            found += 1;
        }
    }
    if let (Some(k), false) = (r.pick(&places[..found]), r.one_in(40)) {
        return number(image, k) as usize;
    }
    if n > 0 && !r.one_in(3) {
        let k = r.below(n);
        return number(image, k) as usize;
    }
    r.below(65_536)
}

/// A volume: mostly of frozen takes.
pub fn volume(r: &mut Random, image: &[u8]) -> usize {
    let mut set = 0;
    for t in 0..opened(image) {
        set |= (frozen(image, t) as usize) << t;
    }
    match r.below(12) {
        0 => 0,
        1 => r.below(65_536),
        2 => (1 << opened(image)) - 1,
        3 | 4 => set & r.next() as usize,
        5 | 6 => match set {
            0 => 1 << r.below(TAKES),
            _ => set & set.wrapping_neg(),
        },
        _ => set,
    }
}

/// The kind, or another where the image would refuse it: no take at work, none idle with a parcel, no place free.
fn possible(kind: usize, image: &[u8], working: usize, live: usize) -> usize {
    let receivable = (0..waiting(image)).any(|k| status(image, addressee(image, k)) == 1);
    let [most, crowd, _] = limits(image);
    let (takes, parcels) = (opened(image) < most, waiting(image) < crowd && image[1..3] != [255; 2]);
    let kind = match kind {
        _ if live == 0 && takes => 0,
        0 | 3 if !takes => 5,
        kind => kind,
    };
    let kind = match kind {
        3..=9 if working == 0 => 2,
        4 if !parcels => 8,
        1 if !parcels => 2,
        kind => kind,
    };
    match (kind, receivable, parcels) {
        (2, false, _) if working > 0 => 8,
        (2, false, true) => 1,
        (2, false, false) => 11,
        _ => kind,
    }
}

/// A step that the image makes likely to be accepted, or now and then a spoilt one.
pub fn step(r: &mut Random, mix: &Mix, image: &[u8]) -> u64 {
    let mut at = r.below(mix.kinds.iter().sum());
    let mut kind = 0;
    while at >= mix.kinds[kind] {
        at -= mix.kinds[kind];
        kind += 1;
    }
    let working = takes(image, |t| status(image, t) == 2);
    let live = takes(image, |t| status(image, t) != 3);
    if !r.one_in(20) {
        kind = possible(kind, image, working.1, live.1);
    }
    let wanted = if (3..=9).contains(&kind) { working } else { live };
    let take = match r.pick(&wanted.0[..wanted.1]) {
        Some(t) if !r.one_in(40) => t,
        _ => r.below(TAKES),
    };
    let other = match r.pick(&live.0[..live.1]) {
        Some(t) if !r.one_in(20) => t,
        _ => r.below(TAKES),
    };
    let text = match r.below(4) {
        0 => 0,
        1 => r.below(10) as u32,
        _ => r.next() as u32,
    };
    let good = match kind {
        0 => packed(0, 0, 0, 0, text),
        1 | 3 | 6 => packed(kind, take, 0, 0, text),
        2 => packed(2, 0, 0, number_of(r, image, true), 0),
        4 => packed(4, take, other, 0, text),
        11 => packed(11, 0, 0, number_of(r, image, false), 0),
        12 => packed(12, 0, 0, volume(r, image), 0),
        _ => packed(kind, take, 0, 0, 0),
    };
    if r.below(1000) >= mix.spoilt {
        return good;
    }
    match r.below(4) {
        0 => r.next(),
        1 => good ^ 1 << r.below(64),
        2 => packed(kind, r.below(16), r.below(16), r.below(65_536), text),
        _ => packed(r.below(16), r.below(16), 0, 0, 0),
    }
}

/// Kinds 5 to 10 alone.
const EDITS: Mix = Mix { kinds: [0, 0, 0, 0, 0, 4, 4, 2, 2, 2, 2, 0, 0], spoilt: 100 };

/// A step of kind 5 to 10, refused or not.
fn edit(r: &mut Random, image: &[u8]) -> u64 {
    loop {
        let s = step(r, &EDITS, image);
        if (5..=10).contains(&(s >> 60)) {
            return s;
        }
    }
}

/// Two steps of kinds 5 to 10 on different takes.
pub fn edits_apart(r: &mut Random, image: &[u8]) -> [u64; 2] {
    let p = edit(r, image);
    for _ in 0..8 {
        let q = edit(r, image);
        if (p ^ q) >> 56 & 15 != 0 {
            return [p, q];
        }
    }
    [p, p ^ (1 + r.below(15) as u64) << 56]
}

/// Opens some takes and signs each of them up to twice, so that a fall leaves them live; the first is withdrawn `falls` times between
/// its signings.
pub fn prelude(r: &mut Random, image: &mut [u8], falls: usize) -> Vec<u8> {
    let mut list = Vec::new();
    let most = limits(image)[0];
    let mut add = |s: u64| {
        ledger::step_unchecked(image, s);
        list.extend(s.to_be_bytes());
        image[1..3].try_into().map(u16::from_be_bytes).unwrap() as usize
    };
    for t in 0..1 + r.below(most) {
        add(packed(0, 0, 0, 0, r.next() as u32));
        for signed in 0..r.below(3) {
            for _ in 0..if (t, signed) == (0, 1) { falls } else { 0 } {
                add(packed(10, t, 0, 0, 0));
            }
            let next = add(packed(1, t, 0, 0, 5));
            add(packed(2, 0, 0, next - 1, 0));
            add(packed(7, t, 0, 0, 0));
            add(packed(12, 0, 0, 1 << t, 0));
        }
    }
    list
}

/// A list of n steps, each drawn for the image that the ones before it leave; `image` ends as they leave it.
pub fn steps(r: &mut Random, mix: &Mix, image: &mut [u8], n: usize) -> Vec<u8> {
    let mut list = Vec::with_capacity(8 * n);
    for _ in 0..n {
        let s = step(r, mix, image);
        ledger::step_unchecked(image, s);
        list.extend(s.to_be_bytes());
    }
    list
}

// ---- images that no session grows

// Small ones, around the low byte's end, with a low byte of zero, and the last two.
const LIVES: [u16; 16] = [0, 0, 0, 0, 1, 1, 1, 2, 254, 255, 256, 257, 512, 65_280, 65_534, 65_535];

type Mark = [u8; MARK];

fn life(r: &mut Random) -> [u8; 2] {
    r.pick(&LIVES).unwrap().to_be_bytes()
}

/// Where the number i of a mark stands: n, then the list.
fn number_at(i: usize) -> usize {
    1 + 2 * i
}

/// Puts some life for the number i of a mark.
fn put_life(r: &mut Random, mark: &mut [u8], i: usize) {
    mark[number_at(i)..number_at(i + 1)].copy_from_slice(&life(r));
}

/// A present mark whose list, of at most `most` entries, is mostly a beginning of `base`, so that lists often agree.
fn mark(r: &mut Random, base: &[[u8; 2]; 15], most: usize) -> Mark {
    let mut m = [0; MARK];
    let count = match r.below(4) {
        0 => r.below(most + 1),
        1 => most - r.below(2),
        _ => r.below(4).min(most),
    };
    m[0] = 0x80 | (r.one_in(3) as u8) << 6 | count as u8;
    put_life(r, &mut m, 0);
    m[number_at(1)..number_at(1 + count)].copy_from_slice(base[..count].as_flattened());
    if count > 0 && r.one_in(4) {
        let at = r.below(count);
        put_life(r, &mut m, 1 + at);
    }
    m
}

/// Whether some mark of the image has a life number over 255, and whether one has such an entry in its list.
pub fn long_lives(image: &[u8]) -> [bool; 2] {
    let maps = (0..TAKES).flat_map(|t| (0..3).map(move |m| take_at(t) + STATE + MAP * m));
    let maps = maps.chain((0..PARCELS).map(|k| parcel_at(k) + 7));
    let mut seen = [false; 2];
    for map in maps {
        for mark in image[map..map + MAP].chunks(MARK) {
            seen[0] |= mark[1] != 0;
            seen[1] |= mark[number_at(1)..].iter().step_by(2).any(|high| *high != 0);
        }
    }
    seen
}

/// A mark of the life of `own`, of one signed before it, or of one that is almost either.
fn related(r: &mut Random, own: &Mark, most: usize) -> Mark {
    let mut m = *own;
    let count = (own[0] & 15) as usize;
    if count > 0 && r.one_in(3) {
        let at = r.below(count);
        m[0] = 0x80 | at as u8;
        m.copy_within(number_at(1 + at)..number_at(2 + at), number_at(0));
        m[number_at(1 + at)..].fill(0);
    }
    if r.one_in(40) {
        let count = (m[0] & 15) as usize;
        match r.below(4) {
            0 => put_life(r, &mut m, 0),
            1 if count > 0 => {
                let at = r.below(count);
                put_life(r, &mut m, at);
            }
            2 if count > 0 => {
                m[0] -= 1;
                m[number_at(count)..number_at(count + 1)].fill(0);
            }
            _ if count < most => m[0] += 1,
            _ => {}
        }
    }
    m
}

/// What maps are drawn from: for each opened take a list and its own mark.
struct Ground {
    lists: Vec<[[u8; 2]; 15]>,
    own: Vec<Mark>,
    related: bool,
    percent: usize,
    signings: usize,
}

fn map(r: &mut Random, into: &mut [u8], g: &Ground) {
    for (u, list) in g.lists.iter().enumerate() {
        if r.below(100) < g.percent {
            let m = if g.related { related(r, &g.own[u], g.signings) } else { mark(r, list, g.signings) };
            into[MARK * u..MARK * (u + 1)].copy_from_slice(&m);
        }
    }
}

/// A limit that can be begun with: the greatest, 1, or any.
pub fn limit(r: &mut Random, greatest: usize) -> usize {
    match r.below(5) {
        0 | 1 => greatest,
        2 => 1,
        _ => 1 + r.below(greatest),
    }
}

/// Takes, parcels waiting and signings of a session.
pub fn any_limits(r: &mut Random) -> [usize; 3] {
    [TAKES, PARCELS, SIGNINGS].map(|greatest| limit(r, greatest))
}

/// A fresh image with the greatest limits.
pub fn fresh() -> Vec<u8> {
    let mut image = vec![0; IMAGE];
    ledger::begin(&mut image, TAKES, PARCELS, SIGNINGS);
    image
}

/// A well-formed image.
pub fn image(r: &mut Random) -> Vec<u8> {
    let limits = any_limits(r);
    let opened = if r.one_in(3) { limits[0] } else { r.below(limits[0] + 1) };
    let percent = r.pick(&[0, 5, 30, 70, 100]).unwrap();
    let parcels = if opened == 0 { 0 } else { r.pick(&[0, 1, 5, 31, 32, 32]).unwrap().min(limits[1]) };
    image_of(r, limits, opened, percent, parcels, &[1, 1, 1, 2, 2, 2, 2, 3])
}

/// A well-formed image in which every place is taken: every take at work, every map full.
pub fn full_image(r: &mut Random) -> Vec<u8> {
    image_of(r, [TAKES, PARCELS, SIGNINGS], TAKES, 100, PARCELS, &[2])
}

fn image_of(
    r: &mut Random,
    limits: [usize; 3],
    opened: usize,
    percent: usize,
    parcels: usize,
    statuses: &[u8],
) -> Vec<u8> {
    let mut image = vec![0; IMAGE];
    image[4..7].copy_from_slice(&limits.map(|n| n as u8));
    let mut g = Ground { lists: Vec::new(), own: Vec::new(), related: r.one_in(3), percent, signings: limits[2] };
    for _ in 0..opened {
        let list = std::array::from_fn(|_| life(r));
        let mut own = mark(r, &list, g.signings);
        if g.related && !r.one_in(10) {
            own[0] |= 0x40;
        }
        g.lists.push(list);
        g.own.push(own);
    }
    image[0] = opened as u8;
    for t in 0..opened {
        let take = &mut image[take_at(t)..take_at(t + 1)];
        let status = r.pick(statuses).unwrap();
        take[0] = status << 6;
        if status == 3 {
            continue;
        }
        r.fill(&mut take[1..9]);
        map(r, &mut take[STATE..], &g);
        map(r, &mut take[STATE + MAP..], &g);
        if status == 2 {
            map(r, &mut take[STATE + 2 * MAP..], &g);
        }
        take[STATE + MARK * t..STATE + MARK * (t + 1)].copy_from_slice(&g.own[t]);
        if g.own[t][0] & 15 == 0 {
            take[5..9].fill(0);
        }
    }
    let mut next = match r.below(3) {
        0 => 65_535 - PARCELS * 3 - r.below(50),
        _ => r.below(60_000),
    };
    for k in 0..parcels {
        let at = parcel_at(k);
        image[at] = 0x80 | r.below(opened) as u8;
        image[at + 1..at + 3].copy_from_slice(&(next as u16).to_be_bytes());
        r.fill(&mut image[at + 3..at + 7]);
        map(r, &mut image[at + 7..at + PARCEL], &g);
        next += 1 + if r.one_in(3) { r.below(3) } else { 0 };
    }
    let next = if r.one_in(10) { 65_535 - r.below(3) } else { next };
    image[1..3].copy_from_slice(&(next as u16).to_be_bytes());
    image
}

/// Marks of another hearing pasted over some of those that stand in maps, a take's own apart: the image stays well-formed.
pub fn paste(r: &mut Random, image: &mut [u8]) {
    let list: [[u8; 2]; 15] = std::array::from_fn(|_| life(r));
    let most = limits(image)[2];
    for _ in 0..1 + r.below(12) {
        let u = r.below(TAKES);
        let t = r.below(TAKES);
        let map = match r.below(2) {
            0 => take_at(t) + STATE + MAP * r.below(3),
            _ => parcel_at(r.below(PARCELS)) + 7,
        };
        let own = take_at(u) + STATE + MARK * u;
        let at = map + MARK * u;
        if at != own && image[at] & 0x80 != 0 {
            image[at..at + MARK].copy_from_slice(&mark(r, &list, most));
        }
    }
}

// ---- damaged images

/// A change of at most two bytes beside a rule of the form: as often kept as broken.
fn edge(r: &mut Random, image: &mut [u8]) {
    let (t, k) = (r.below(TAKES), r.below(PARCELS));
    let (take, parcel) = (take_at(t), parcel_at(k));
    let mut maps = take + STATE + MARK * r.below(3 * TAKES);
    if r.one_in(2) {
        maps = parcel + 7 + MARK * r.below(TAKES);
    }
    let past = maps + number_at(1 + (image[maps] & 15) as usize) + r.below(2);
    let n = waiting(image);
    match r.below(14) {
        0 if n > 0 => {
            let next = number(image, n - 1).wrapping_add(r.below(2) as u16);
            image[1..3].copy_from_slice(&next.to_be_bytes());
        }
        1 if n > 0 => {
            let k = r.below(n);
            image[parcel_at(k)] = 0x80 | (opened(image) - r.below(2)).min(15) as u8;
        }
        2 if n > 1 => {
            let k = r.below(n - 1);
            let later = number(image, k + 1).wrapping_sub(r.below(2) as u16);
            image[parcel_at(k) + 1..parcel_at(k) + 3].copy_from_slice(&later.to_be_bytes());
        }
        3 => image[0] = (opened(image) + 1 - r.below(3).min(opened(image))) as u8,
        4 => image[parcel] ^= 0x80,
        5 => image[take] = (r.below(4) as u8) << 6,
        6 => image[take + STATE + MARK * t] ^= 0x80,
        7 if past < maps + MARK => image[past] = r.below(3) as u8,
        8 => image[take + 5 + r.below(4)] = r.below(3) as u8,
        9 => image[maps] ^= 1 << r.below(8),
        10 => image[maps] = image[maps].wrapping_sub(1),
        11 => image[4] = (opened(image) + 1 - r.below(3).min(opened(image))) as u8,
        12 => match r.below(3) {
            0 => image[5] = (n + 1 - r.below(3).min(n)) as u8,
            1 => image[6] = image[maps] & 15,
            _ => image[4 + r.below(4)] = r.pick(&[0, 1, 15, 16, 17, 31, 32, 33]).unwrap(),
        },
        _ => put_life(r, &mut image[maps..], 0),
    }
}

/// Changes one to five bytes, most of them where something is written or next to it.
pub fn damage(r: &mut Random, image: &mut [u8]) {
    if r.one_in(2) {
        edge(r, image);
        if r.one_in(3) {
            edge(r, image);
        }
        return;
    }
    for _ in 0..1 + r.below(5) {
        let at = match r.below(6) {
            0 => r.below(FIRST_TAKE),
            1 => take_at(r.below(TAKES)) + r.below(9),
            2 => take_at(r.below(TAKES)) + STATE + MARK * r.below(3 * TAKES) + r.below(4),
            3 => parcel_at(r.below(PARCELS)) + r.below(8),
            4 => parcel_at(r.below(PARCELS)) + 7 + MARK * r.below(TAKES) + r.below(4),
            _ => r.below(image.len()),
        };
        image[at] = match r.below(4) {
            0 => image[at] ^ 1 << r.below(8),
            1 => image[at].wrapping_add(1),
            2 => 0,
            _ => r.next() as u8,
        };
    }
}
