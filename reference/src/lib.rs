//! The take ledger and its texts once more, in plain Rust: written from docs/RULES.md and docs/NOTATION.md,
//! not from the proved code. The differential tests and the benchmark (bench/) and the conformance kit
//! (conformance/) hold the two against each other; reference/test makes from it what the programs of
//! crates/ must print.

pub mod actor;
pub mod convert;
pub mod defect;
pub mod engine;
pub mod generate;
pub mod ledger;
pub mod marks;
pub mod notation;
pub mod order;
pub mod parser;
pub mod reading;
