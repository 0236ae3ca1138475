//! Differential test and benchmark of the proved ledger against the one of reference/.

pub mod library;

pub use reference::{actor, convert, defect, engine, generate, ledger, notation, order, parser, reading};
