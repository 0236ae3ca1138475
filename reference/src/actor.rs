//! For whom a step acts, from docs/RULES.md, sections 5, 6 and 9.12.

use crate::generate::{addressee, number, waiting};
use crate::ledger::{self, IMAGE, STEP};

/// Whether each kind uses the fields take, other, parcel and text (section 5).
const USED: [[bool; 4]; 13] = [
    [false, false, false, true], // root
    [true, false, false, true],  // letter
    [false, false, true, false], // receive
    [true, false, false, true],  // new
    [true, true, false, true],   // send
    [true, false, false, false], // read
    [true, false, false, true],  // write
    [true, false, false, false], // freeze
    [true, false, false, false], // done
    [true, false, false, false], // fall
    [true, false, false, false], // fail
    [false, false, true, false], // lose
    [false, false, true, false], // sign
];

/// What is refused with 20.
fn malformed(step: u64) -> bool {
    let fields = [step >> 56 & 15, step >> 52 & 15, step >> 32 & 0xffff, step & 0xffff_ffff];
    match USED.get((step >> 60) as usize) {
        Some(used) => step >> 48 & 15 != 0 || fields.iter().zip(used).any(|(field, used)| *field != 0 && !used),
        None => true,
    }
}

/// 0 nobody, 1 the house, 2 a take, 3 a volume; and the takes, take t counting 2^t.
pub fn actor(image: &[u8], step: &[u8]) -> Result<[usize; 2], u8> {
    if image.len() != IMAGE {
        return Err(16);
    }
    let Ok(step) = <[u8; STEP]>::try_from(step) else { return Err(17) };
    if !ledger::formed(image) {
        return Err(19);
    }
    let step = u64::from_be_bytes(step);
    let (take, parcel) = ((step >> 56 & 15) as usize, (step >> 32) as u16);
    if malformed(step) {
        return Ok([0, 0]);
    }
    Ok(match step >> 60 {
        0 | 1 | 11 => [1, 0],
        2 => match (0..waiting(image)).find(|k| number(image, *k) == parcel) {
            Some(place) => [2, 1 << addressee(image, place)],
            None => [0, 0],
        },
        12 => [3, parcel as usize],
        _ => [2, 1 << take],
    })
}
