//! Conversions between the old form of an image, 22,132 bytes, and the ledger's, written from documents 01 and 02 alone. The old form
//! is tested where it stands.

use crate::ledger::{self, IMAGE, MAP, PARCELS, SIGNINGS, TAKES};

pub const OLD_IMAGE: usize = 22_132;

const HEAD: usize = 4;
/// What follows the head in the new form, and in every new image that has an old form.
const LIMITS: [u8; 4] = [TAKES as u8, PARCELS as u8, SIGNINGS as u8, 0];
const START: usize = HEAD + LIMITS.len();
/// The fields in front of a take's maps, and of a parcel's.
const TAKE_FRONT: usize = 9;
const PARCEL_FRONT: usize = 7;

const OLD_MARK: usize = 17;
const MARK: usize = 33;
const OLD_MAP: usize = TAKES * OLD_MARK;
const OLD_TAKE: usize = TAKE_FRONT + 3 * OLD_MAP;
const TAKE: usize = TAKE_FRONT + 3 * MAP;
const OLD_PARCEL: usize = PARCEL_FRONT + OLD_MAP;
const PARCEL: usize = PARCEL_FRONT + MAP;

const _: () = assert!(HEAD + TAKES * OLD_TAKE + PARCELS * OLD_PARCEL == OLD_IMAGE);
const _: () = assert!(START + TAKES * TAKE + PARCELS * PARCEL == IMAGE && TAKES * MARK == MAP);

fn zero(part: &[u8]) -> bool {
    part.iter().fold(0, |a, b| a | b) == 0
}

/// An old mark: absent and all zero; or present, no zero bit set, nothing past the count.
fn mark_formed(mark: &[u8; OLD_MARK]) -> bool {
    let head = mark[0];
    let rest = u128::from_le_bytes(mark[1..].try_into().unwrap());
    let count = (head & 15) as u32;
    match head >> 4 {
        0 => head == 0 && rest == 0,
        8 | 12 => count == 15 || rest >> (8 * count + 8) == 0,
        _ => false,
    }
}

fn map_formed(map: &[u8], opened: usize) -> bool {
    let (marks, _) = map.as_chunks::<OLD_MARK>();
    zero(&map[OLD_MARK * opened..]) && marks[..opened].iter().all(mark_formed)
}

fn take_formed(take: &[u8], own: usize, opened: usize) -> bool {
    let (front, maps) = take.split_at(TAKE_FRONT);
    let (state, rest) = maps.split_at(OLD_MAP);
    let (creation, behaviour) = rest.split_at(OLD_MAP);
    let mark = state[OLD_MARK * own];
    match front[0] {
        0xc0 => zero(&take[1..]),
        status @ (0x40 | 0x80) => {
            mark >= 0x80
                && (mark & 15 != 0 || zero(&front[5..]))
                && map_formed(state, opened)
                && map_formed(creation, opened)
                && (if status == 0x40 { zero(behaviour) } else { map_formed(behaviour, opened) })
        }
        _ => false,
    }
}

pub fn old_formed(old: &[u8]) -> bool {
    let opened = old[0] as usize;
    if opened > TAKES || old[3] != 0 {
        return false;
    }
    let (takes, parcels) = old[HEAD..].split_at(TAKES * OLD_TAKE);
    if !zero(&takes[opened * OLD_TAKE..]) {
        return false;
    }
    if !takes.chunks_exact(OLD_TAKE).take(opened).enumerate().all(|(t, take)| take_formed(take, t, opened)) {
        return false;
    }
    let next = u16::from_be_bytes([old[1], old[2]]) as i32;
    let mut last = -1;
    for (k, parcel) in parcels.chunks_exact(OLD_PARCEL).enumerate() {
        if parcel[0] == 0 {
            return zero(&parcels[k * OLD_PARCEL..]);
        }
        let number = u16::from_be_bytes([parcel[1], parcel[2]]) as i32;
        if parcel[0] >> 4 != 8 || (parcel[0] & 15) as usize >= opened || number <= last || number >= next {
            return false;
        }
        if !map_formed(&parcel[PARCEL_FRONT..], opened) {
            return false;
        }
        last = number;
    }
    true
}

fn widen(old: &[u8], new: &mut [u8], front: usize) {
    new[..front].copy_from_slice(&old[..front]);
    let (marks, _) = old[front..].as_chunks::<OLD_MARK>();
    let (wide, _) = new[front..].as_chunks_mut::<MARK>();
    for (w, m) in wide.iter_mut().zip(marks) {
        // Numbers by value first, so that they are widened and written as one.
        let numbers: [[u8; 2]; 16] = std::array::from_fn(|i| (m[1 + i] as u16).to_be_bytes());
        w[0] = m[0];
        w[1..].copy_from_slice(numbers.as_flattened());
    }
}

fn narrow(new: &[u8], old: &mut [u8], front: usize) {
    old[..front].copy_from_slice(&new[..front]);
    let (marks, _) = new[front..].as_chunks::<MARK>();
    let (small, _) = old[front..].as_chunks_mut::<OLD_MARK>();
    for (s, m) in small.iter_mut().zip(marks) {
        let (pairs, _) = m[1..].as_chunks::<2>();
        let numbers: [u8; 16] = std::array::from_fn(|i| u16::from_be_bytes(pairs[i]) as u8);
        s[0] = m[0];
        s[1..].copy_from_slice(&numbers);
    }
}

/// Some life number or list entry is over 255: its first byte is not zero.
fn over(new: &[u8], front: usize) -> bool {
    let (marks, _) = new[front..].as_chunks::<MARK>();
    marks.iter().any(|m| m[0] != 0 && (0..16).fold(0, |a, i| a | m[1 + 2 * i]) != 0)
}

pub fn forward(old: &[u8], new: &mut [u8]) -> u8 {
    if old.len() != OLD_IMAGE || new.len() != IMAGE {
        return 16;
    }
    if !old_formed(old) {
        return 19;
    }
    new[..HEAD].copy_from_slice(&old[..HEAD]);
    new[HEAD..START].copy_from_slice(&LIMITS);
    let (old_takes, old_parcels) = old[HEAD..].split_at(TAKES * OLD_TAKE);
    let (takes, parcels) = new[START..].split_at_mut(TAKES * TAKE);
    for (a, b) in old_takes.chunks_exact(OLD_TAKE).zip(takes.chunks_exact_mut(TAKE)) {
        widen(a, b, TAKE_FRONT);
    }
    for (a, b) in old_parcels.chunks_exact(OLD_PARCEL).zip(parcels.chunks_exact_mut(PARCEL)) {
        widen(a, b, PARCEL_FRONT);
    }
    0
}

pub fn back(new: &[u8], old: &mut [u8]) -> u8 {
    if new.len() != IMAGE || old.len() != OLD_IMAGE {
        return 16;
    }
    if !ledger::formed(new) {
        return 19;
    }
    let (takes, parcels) = new[START..].split_at(TAKES * TAKE);
    if new[HEAD..START] != LIMITS
        || takes.chunks_exact(TAKE).any(|t| over(t, TAKE_FRONT))
        || parcels.chunks_exact(PARCEL).any(|p| over(p, PARCEL_FRONT))
    {
        return 32;
    }
    old[..HEAD].copy_from_slice(&new[..HEAD]);
    let (old_takes, old_parcels) = old[HEAD..].split_at_mut(TAKES * OLD_TAKE);
    for (a, b) in takes.chunks_exact(TAKE).zip(old_takes.chunks_exact_mut(OLD_TAKE)) {
        narrow(a, b, TAKE_FRONT);
    }
    for (a, b) in parcels.chunks_exact(PARCEL).zip(old_parcels.chunks_exact_mut(OLD_PARCEL)) {
        narrow(a, b, PARCEL_FRONT);
    }
    0
}
