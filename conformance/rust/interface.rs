//! The C interface of include/ledger.h and include/engine.h, and looking_independent of include/looking.h, over the Rust ledger of reference/, so
//! that the kit's runners can be run on it. The folder that has ledger.rs, plan.rs, order.rs, actor.rs, defect.rs, generate.rs, convert.rs and
//! engine.rs is beside this file, as `source`; so is impediment.rs.

#[path = "source/actor.rs"]
mod actor;
#[path = "source/convert.rs"]
mod convert;
#[path = "source/defect.rs"]
mod defect;
#[path = "source/engine.rs"]
mod engine;
mod impediment;
#[path = "source/generate.rs"]
mod generate;
#[path = "source/ledger.rs"]
mod ledger;
#[path = "source/order.rs"]
mod order;

use ledger::{Dependents, Obstacle};
use std::slice::{from_raw_parts, from_raw_parts_mut};

type Bytes = *const u8;
type Room = *mut u8;

/// Two numbers: offset and length, or count and place.
#[repr(C)]
pub struct Pair(usize, usize);

#[repr(C)]
pub struct Reason(u8, u8, u8);

unsafe fn lent<'a>(bytes: Bytes, length: usize) -> &'a [u8] {
    from_raw_parts(bytes, length)
}

unsafe fn room<'a>(bytes: Room, length: usize) -> &'a mut [u8] {
    from_raw_parts_mut(bytes, length)
}

/// The answer, or what a refused call gives; the lent number takes the refusal, or 0.
unsafe fn answered<T>(answer: Result<T, u8>, refused: T, refusal: Room) -> T {
    *refusal = *answer.as_ref().err().unwrap_or(&0);
    answer.unwrap_or(refused)
}

#[no_mangle]
unsafe extern "C" fn ledger_begin(i: Room, n: usize, takes: usize, parcels: usize, signings: usize) -> u8 {
    ledger::begin(room(i, n), takes, parcels, signings)
}

#[no_mangle]
unsafe extern "C" fn ledger_run(i: Room, n: usize, l: Bytes, m: usize, start: usize, end: usize, r: Room, k: usize) -> u8 {
    ledger::run(room(i, n), lent(l, m), start, end, room(r, k))
}

#[no_mangle]
unsafe extern "C" fn ledger_offer(i: Bytes, n: usize, take: usize, refusal: Room) -> u16 {
    answered(ledger::offer(lent(i, n), take), None, refusal).unwrap_or(65_535)
}

#[no_mangle]
unsafe extern "C" fn ledger_smallest_group(i: Bytes, n: usize, take: usize, refusal: Room) -> u16 {
    answered(ledger::smallest(lent(i, n), take), None, refusal).unwrap_or(0)
}

#[no_mangle]
unsafe extern "C" fn ledger_ready_count(i: Bytes, n: usize, size: usize, refusal: Room) -> usize {
    answered(ledger::ready_count(lent(i, n), size), 0, refusal)
}

#[no_mangle]
unsafe extern "C" fn ledger_all_heard_stable(i: Bytes, n: usize, take: usize, refusal: Room) -> u8 {
    answered(ledger::all_heard(lent(i, n), take), false, refusal) as u8
}

#[no_mangle]
unsafe extern "C" fn ledger_dependents(i: Bytes, n: usize, take: usize, refusal: Room) -> Dependents {
    answered(ledger::dependents(lent(i, n), take), Dependents::default(), refusal)
}

#[no_mangle]
unsafe extern "C" fn ledger_obstacle(i: Bytes, n: usize, members: usize, refusal: Room) -> Reason {
    match answered(ledger::obstacle(lent(i, n), members), Obstacle::Nothing, refusal) {
        Obstacle::Nothing => Reason(0, 0, 0),
        Obstacle::NotFrozen(t) => Reason(1, t, 0),
        Obstacle::Outside(t, u) => Reason(2, t, u),
        Obstacle::Withdrawn(t, u) => Reason(3, t, u),
    }
}

#[repr(C)]
pub struct Way([u8; 4]);

#[no_mangle]
unsafe extern "C" fn ledger_impediment(i: Bytes, n: usize, take: usize, refusal: Room) -> Way {
    let image = lent(i, n);
    Way(answered(ledger::offer(image, take).map(|_| impediment::impediment(image, take)), [0; 4], refusal))
}

#[no_mangle]
unsafe extern "C" fn ledger_plan(i: Bytes, n: usize, take: usize, o: Room, k: usize, refusal: Room) -> usize {
    answered(ledger::plan(lent(i, n), take, room(o, k)), 0, refusal)
}

#[no_mangle]
unsafe extern "C" fn looking_independent(i: Bytes, n: usize, p: Bytes, k: usize, q: Bytes, m: usize, refusal: Room) -> u8 {
    answered(order::independent(lent(i, n), lent(p, k), lent(q, m)), false, refusal) as u8
}

#[no_mangle]
unsafe extern "C" fn ledger_actor(i: Bytes, n: usize, s: Bytes, k: usize, refusal: Room) -> Pair {
    let [kind, takes] = answered(actor::actor(lent(i, n), lent(s, k)), [0, 0], refusal);
    Pair(kind, takes)
}

#[no_mangle]
unsafe extern "C" fn ledger_fault(i: Bytes, n: usize, at: *mut usize, clause: Room) -> u8 {
    let (refusal, [byte, number]) = defect::defect(lent(i, n));
    (*at, *clause) = (byte, number as u8);
    refusal
}

#[no_mangle]
unsafe extern "C" fn ledger_show(i: Bytes, n: usize, number: usize, refusal: Room) -> Pair {
    // No parcel has the number 65,535.
    let number = u16::try_from(number).unwrap_or(65_535);
    let shown = ledger::show(lent(i, n), number).map(|part| Pair(part.as_ptr() as usize - i as usize, part.len()));
    answered(shown, Pair(0, 0), refusal)
}

#[no_mangle]
unsafe extern "C" fn ledger_thin(
    i: Bytes,
    n: usize,
    l: Bytes,
    m: usize,
    start: usize,
    end: usize,
    o: Room,
    k: usize,
    refusal: Room,
) -> usize {
    answered(ledger::thin(lent(i, n), lent(l, m), start, end, room(o, k)), 0, refusal)
}

#[no_mangle]
unsafe extern "C" fn ledger_forward(s: Bytes, n: usize, t: Room, m: usize) -> u8 {
    convert::forward(lent(s, n), room(t, m))
}

#[no_mangle]
unsafe extern "C" fn ledger_back(s: Bytes, n: usize, t: Room, m: usize) -> u8 {
    convert::back(lent(s, n), room(t, m))
}

#[no_mangle]
unsafe extern "C" fn ledger_worst_window(r: Bytes, n: usize, width: usize, refusal: Room) -> Pair {
    let worst = ledger::worst_window(lent(r, n), width).map(|(count, place)| Pair(count, place));
    answered(worst, Pair(0, 0), refusal)
}

#[no_mangle]
unsafe extern "C" fn engine_play(
    l: Bytes,
    n: usize,
    r: Room,
    m: usize,
    takes: usize,
    parcels: usize,
    signings: usize,
) -> u8 {
    engine::play(lent(l, n), takes, parcels, signings, room(r, m))
}
