//! The take ledger for Rust: the proved library, and no rule of its own.
//!
//! A session is a [`Session`]; its steps are [`Step`], its replies [`Reply`]. The words are those of
//! docs/RULES.md: take, parcel, text, mark, life, volume, frozen, signed, withdrawn. A refused call
//! is an error, [`Refused`], and changes nothing; a refused step is a reply, and the list goes on.
//!
//! ```
//! use take_ledger::{Outcome, Session, Step};
//!
//! let mut hearing = Session::new();
//! let replies = hearing.run(&[Step::root(7), Step::letter(0, 5)?]);
//! assert!(replies.iter().all(|reply| reply.outcome() == Ok(Outcome::Done)));
//! assert_eq!(hearing.offer(0)?, Some(0));
//! # Ok::<(), Box<dyn std::error::Error>>(())
//! ```
//!
//! The library is found by pkg-config when this crate is built (see the README). A `Session` is
//! `Send` and `Sync`: it is bytes, and the library keeps nothing between calls.

#![warn(missing_debug_implementations)]

mod calls;
pub mod native;
mod packed;
mod session;
mod text;

pub use calls::{
    back, compare, defect, field, forward, play, version, worst_window, Comparison, Defect, Field, Map, Relation,
    Window,
};
pub use packed::{packed, replies_of, unpacked, Kind, Outcome, Reply, Step, Unfit, Volume, STEP, TAKES};
pub use session::{Actor, Decision, Dependents, Impediment, Limits, Obstacle, Session};
pub use text::{image_text, parse, refusal_text, reply_text, text_length, text_of, Fault, Refused};

/// Bytes of an image.
pub const IMAGE: usize = 42_616;

/// Bytes of an image of the old form.
pub const OLD_IMAGE: usize = 22_132;

/// Bytes of a map.
pub const MAP: usize = 528;

/// Bytes of a mark.
pub const MARK: usize = 33;

/// Bytes of the longest list that is run at once.
pub const LONGEST: usize = 8_192;

/// Bytes of the longest plan.
const PLAN: usize = 392;

/// The README's example is compiled and run with those of the documentation.
#[cfg(doctest)]
#[doc = include_str!("../README.md")]
pub struct Readme;
