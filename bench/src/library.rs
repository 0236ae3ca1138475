//! The proved library, as include/ledger.h, include/engine.h and include/looking.h declare it, behind safe functions. No call of it has a precondition besides
//! valid slices, so nothing is tested here before a call.

use crate::ledger::{Dependents, Impediment, Obstacle};

/// The number that stands for "no parcel": a parcel's is at most 65,534.
const NONE: u16 = 65_535;

#[repr(C)]
struct Part {
    offset: usize,
    length: usize,
}

#[repr(C)]
struct Worst {
    count: usize,
    place: usize,
}

#[repr(C)]
struct Reason {
    kind: u8,
    take: u8,
    ground: u8,
}

#[repr(C)]
struct Cause {
    kind: u8,
    take: u8,
    ground: u8,
    next: u8,
}

#[repr(C)]
struct Acting {
    kind: usize,
    takes: usize,
}

extern "C" {
    fn ledger_begin(image: *mut u8, image_length: usize, takes: usize, parcels: usize, signings: usize) -> u8;
    fn ledger_run(
        image: *mut u8,
        image_length: usize,
        list: *const u8,
        list_length: usize,
        start: usize,
        end: usize,
        replies: *mut u8,
        replies_length: usize,
    ) -> u8;
    fn ledger_offer(image: *const u8, image_length: usize, take: usize, refusal: *mut u8) -> u16;
    fn ledger_smallest_group(image: *const u8, image_length: usize, take: usize, refusal: *mut u8) -> u16;
    fn ledger_all_heard_stable(image: *const u8, image_length: usize, take: usize, refusal: *mut u8) -> u8;
    fn ledger_dependents(image: *const u8, image_length: usize, take: usize, refusal: *mut u8) -> Dependents;
    fn ledger_obstacle(image: *const u8, image_length: usize, volume: usize, refusal: *mut u8) -> Reason;
    fn ledger_impediment(image: *const u8, image_length: usize, take: usize, refusal: *mut u8) -> Cause;
    fn ledger_actor(
        image: *const u8,
        image_length: usize,
        step: *const u8,
        step_length: usize,
        refusal: *mut u8,
    ) -> Acting;
    fn ledger_fault(image: *const u8, image_length: usize, at: *mut usize, clause: *mut u8) -> u8;
    fn ledger_plan(
        image: *const u8,
        image_length: usize,
        take: usize,
        out: *mut u8,
        out_length: usize,
        refusal: *mut u8,
    ) -> usize;
    fn ledger_ready_count(image: *const u8, image_length: usize, size: usize, refusal: *mut u8) -> usize;
    fn ledger_thin(
        image: *const u8,
        image_length: usize,
        list: *const u8,
        list_length: usize,
        start: usize,
        end: usize,
        out: *mut u8,
        out_length: usize,
        refusal: *mut u8,
    ) -> usize;
    fn ledger_forward(source: *const u8, source_length: usize, target: *mut u8, target_length: usize) -> u8;
    fn ledger_back(source: *const u8, source_length: usize, target: *mut u8, target_length: usize) -> u8;
    fn ledger_show(image: *const u8, image_length: usize, number: usize, refusal: *mut u8) -> Part;
    fn ledger_worst_window(replies: *const u8, replies_length: usize, width: usize, refusal: *mut u8) -> Worst;
}

#[cfg(feature = "engine")]
extern "C" {
    fn engine_play(
        list: *const u8,
        list_length: usize,
        replies: *mut u8,
        replies_length: usize,
        takes: usize,
        parcels: usize,
        signings: usize,
    ) -> u8;
}

#[cfg(feature = "looking")]
extern "C" {
    fn looking_independent(
        image: *const u8,
        image_length: usize,
        first: *const u8,
        first_length: usize,
        second: *const u8,
        second_length: usize,
        refusal: *mut u8,
    ) -> u8;
}

pub fn begin(image: &mut [u8], takes: usize, parcels: usize, signings: usize) -> u8 {
    unsafe { ledger_begin(image.as_mut_ptr(), image.len(), takes, parcels, signings) }
}

pub fn run(image: &mut [u8], list: &[u8], start: usize, end: usize, replies: &mut [u8]) -> u8 {
    let (i, n) = (image.as_mut_ptr(), image.len());
    let (r, m) = (replies.as_mut_ptr(), replies.len());
    unsafe { ledger_run(i, n, list.as_ptr(), list.len(), start, end, r, m) }
}

pub fn offer(image: &[u8], take: usize) -> Result<Option<u16>, u8> {
    let mut refusal = 255;
    let number = unsafe { ledger_offer(image.as_ptr(), image.len(), take, &mut refusal) };
    if refusal != 0 {
        assert_eq!(number, NONE, "a refused offer gives a parcel");
        return Err(refusal);
    }
    Ok((number != NONE).then_some(number))
}

pub fn smallest(image: &[u8], take: usize) -> Result<Option<u16>, u8> {
    let mut refusal = 255;
    let volume = unsafe { ledger_smallest_group(image.as_ptr(), image.len(), take, &mut refusal) };
    if refusal != 0 {
        assert_eq!(volume, 0, "a refused query gives a volume");
        return Err(refusal);
    }
    Ok((volume != 0).then_some(volume))
}

pub fn all_heard(image: &[u8], take: usize) -> Result<bool, u8> {
    let mut refusal = 255;
    let yes = unsafe { ledger_all_heard_stable(image.as_ptr(), image.len(), take, &mut refusal) };
    assert!(yes <= 1, "a query says {yes}");
    if refusal != 0 {
        assert_eq!(yes, 0, "a refused query says yes");
        return Err(refusal);
    }
    Ok(yes == 1)
}

pub fn dependents(image: &[u8], take: usize) -> Result<Dependents, u8> {
    let mut refusal = 255;
    let answer = unsafe { ledger_dependents(image.as_ptr(), image.len(), take, &mut refusal) };
    if refusal != 0 {
        assert_eq!(answer, Dependents::default(), "a refused query gives dependents");
        return Err(refusal);
    }
    Ok(answer)
}

pub fn obstacle(image: &[u8], volume: usize) -> Result<Obstacle, u8> {
    let mut refusal = 255;
    let Reason { kind, take, ground } = unsafe { ledger_obstacle(image.as_ptr(), image.len(), volume, &mut refusal) };
    if refusal != 0 {
        assert_eq!((kind, take, ground), (0, 0, 0), "a refused query gives an obstacle");
        return Err(refusal);
    }
    match (kind, take, ground) {
        (0, 0, 0) => Ok(Obstacle::Nothing),
        (1, t, 0) => Ok(Obstacle::NotFrozen(t)),
        (2, t, u) => Ok(Obstacle::Outside(t, u)),
        (3, t, u) => Ok(Obstacle::Withdrawn(t, u)),
        other => panic!("no obstacle has the numbers {other:?}"),
    }
}

pub fn impediment(image: &[u8], take: usize) -> Result<Impediment, u8> {
    let mut refusal = 255;
    let Cause { kind, take, ground, next } =
        unsafe { ledger_impediment(image.as_ptr(), image.len(), take, &mut refusal) };
    if refusal != 0 {
        assert_eq!((kind, take, ground, next), (0, 0, 0, 0), "a refused query gives an impediment");
        return Err(refusal);
    }
    match (kind, take, ground, next) {
        (0, 0, 0, 0) => Ok(Impediment::Nothing),
        (1, c, u, x) => Ok(Impediment::Hopeless(c, u, x)),
        (2, c, 0, x) => Ok(Impediment::Exhausted(c, x)),
        (3, c, 0, x) => Ok(Impediment::NotFrozen(c, x)),
        other => panic!("no impediment has the numbers {other:?}"),
    }
}

/// Kind and takes.
pub fn actor(image: &[u8], step: &[u8]) -> Result<[usize; 2], u8> {
    let mut refusal = 255;
    let Acting { kind, takes } =
        unsafe { ledger_actor(image.as_ptr(), image.len(), step.as_ptr(), step.len(), &mut refusal) };
    if refusal != 0 {
        assert_eq!((kind, takes), (0, 0), "a refused query gives an actor");
        return Err(refusal);
    }
    Ok([kind, takes])
}

/// The answer, then byte and clause.
pub fn fault(image: &[u8]) -> (u8, [usize; 2]) {
    let (mut at, mut clause) = (usize::MAX, 255);
    let answer = unsafe { ledger_fault(image.as_ptr(), image.len(), &mut at, &mut clause) };
    (answer, [at, usize::from(clause)])
}

pub fn plan(image: &[u8], take: usize, out: &mut [u8]) -> Result<usize, u8> {
    let mut refusal = 255;
    let (o, m) = (out.as_mut_ptr(), out.len());
    let steps = unsafe { ledger_plan(image.as_ptr(), image.len(), take, o, m, &mut refusal) };
    if refusal != 0 {
        assert_eq!(steps, 0, "a refused query gives steps");
        return Err(refusal);
    }
    Ok(steps)
}

pub fn ready_count(image: &[u8], size: usize) -> Result<usize, u8> {
    let mut refusal = 255;
    let count = unsafe { ledger_ready_count(image.as_ptr(), image.len(), size, &mut refusal) };
    if refusal != 0 {
        assert_eq!(count, 0, "a refused query counts volumes");
        return Err(refusal);
    }
    Ok(count)
}

pub fn thin(image: &[u8], list: &[u8], start: usize, end: usize, out: &mut [u8]) -> Result<usize, u8> {
    let mut refusal = 255;
    let (o, m) = (out.as_mut_ptr(), out.len());
    let kept =
        unsafe { ledger_thin(image.as_ptr(), image.len(), list.as_ptr(), list.len(), start, end, o, m, &mut refusal) };
    if refusal != 0 {
        assert_eq!(kept, 0, "a refused pass keeps steps");
        return Err(refusal);
    }
    Ok(kept)
}

pub fn show(image: &[u8], number: u16) -> Result<&[u8], u8> {
    let mut refusal = 255;
    let part = unsafe { ledger_show(image.as_ptr(), image.len(), usize::from(number), &mut refusal) };
    if refusal != 0 {
        assert_eq!((part.offset, part.length), (0, 0), "a refused show gives a part that is not empty");
        return Err(refusal);
    }
    Ok(&image[part.offset..part.offset + part.length])
}

pub fn forward(source: &[u8], target: &mut [u8]) -> u8 {
    unsafe { ledger_forward(source.as_ptr(), source.len(), target.as_mut_ptr(), target.len()) }
}

pub fn back(source: &[u8], target: &mut [u8]) -> u8 {
    unsafe { ledger_back(source.as_ptr(), source.len(), target.as_mut_ptr(), target.len()) }
}

pub fn worst_window(replies: &[u8], width: usize) -> Result<(usize, usize), u8> {
    let mut refusal = 255;
    let worst = unsafe { ledger_worst_window(replies.as_ptr(), replies.len(), width, &mut refusal) };
    if refusal != 0 {
        assert_eq!((worst.count, worst.place), (0, 0), "a refused call gives a window");
        return Err(refusal);
    }
    Ok((worst.count, worst.place))
}

#[cfg(feature = "engine")]
pub fn play(list: &[u8], takes: usize, parcels: usize, signings: usize, replies: &mut [u8]) -> u8 {
    let (r, m) = (replies.as_mut_ptr(), replies.len());
    unsafe { engine_play(list.as_ptr(), list.len(), r, m, takes, parcels, signings) }
}

#[cfg(feature = "looking")]
pub fn independent(image: &[u8], first: &[u8], second: &[u8]) -> Result<bool, u8> {
    let mut refusal = 255;
    let (f, n, s, m) = (first.as_ptr(), first.len(), second.as_ptr(), second.len());
    let yes = unsafe { looking_independent(image.as_ptr(), image.len(), f, n, s, m, &mut refusal) };
    assert!(yes <= 1, "a query says {yes}");
    if refusal != 0 {
        assert_eq!(yes, 0, "a refused query says yes");
        return Err(refusal);
    }
    Ok(yes == 1)
}
