//! What is left to do so that a take is signed (docs/RULES.md, 9.10), in the Rust ledger.

use super::{asked, Image, COUNT, FROZEN, IDLE, STEP, TAKES};

/// Bytes of a plan: at most three steps for each take, and the signing.
pub const PLAN: usize = STEP * (3 * TAKES + 1);

impl Image {
    /// The takes that a take rests on through present lives, itself among them; none if one of them has a mark of a withdrawn
    /// life, or all its signings.
    fn mendable(&self, take: usize) -> Option<u16> {
        let (mut volume, mut added) = (1u16 << take, 1u16 << take);
        while added != 0 {
            let t = added.trailing_zeros() as usize;
            added &= added - 1;
            let x = &self.takes[t];
            if x.state[t].head & COUNT >= self.limits.signings {
                return None;
            }
            for u in 0..self.opened() {
                let own = self.present(u);
                for m in [&x.state[u], &x.creation[u]] {
                    if m.is_of(own) {
                        added |= !volume & 1 << u;
                        volume |= 1 << u;
                    } else if m.head != 0 && !m.signed(own) {
                        return None;
                    }
                }
            }
        }
        Some(volume)
    }
}

/// What is left to do so that the take is signed: the steps, with zeros after them, and how many.
pub fn plan(image: &[u8], take: usize, out: &mut [u8]) -> Result<usize, u8> {
    let image = asked(image, take)?;
    if out.len() != PLAN {
        return Err(18);
    }
    out.fill(0);
    let Some(volume) = image.mendable(take) else {
        return Ok(0);
    };
    let to_freeze = |t: &usize| volume >> t & 1 == 1 && image.present(*t).head & FROZEN == 0;
    let idle = |t: &usize| image.takes[*t].status == IDLE;
    let letters = (0..TAKES).filter(|t| to_freeze(t) && idle(t)).count();
    let mut next = u16::from_be_bytes(image.next) as usize;
    let room = image.waiting() < image.limits.parcels as usize && next + letters <= 65_535;
    if letters > 0 && !room {
        return Ok(0);
    }
    let mut n = 0;
    let mut put = |kind: u64, take: usize, parcel: usize| {
        let step = kind << 60 | (take as u64) << 56 | (parcel as u64) << 32;
        out[STEP * n..STEP * (n + 1)].copy_from_slice(&step.to_be_bytes());
        n += 1;
    };
    for t in (0..TAKES).filter(to_freeze) {
        if idle(&t) {
            put(1, t, 0);
            put(2, 0, next);
            next += 1;
        }
        put(7, t, 0);
    }
    put(12, 0, volume as usize);
    Ok(n)
}
