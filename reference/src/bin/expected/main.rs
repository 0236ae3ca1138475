//! expected PROGRAM: what the program of that name in crates/ must print, where standard input is its file stdin.
//! It comes from the ledger, the engine, the marks and the texts of this crate, which are written from docs/RULES.md
//! and docs/NOTATION.md; neither the proved library nor any stored output is looked at.

mod asked;
mod lists;
mod marked;
mod script;
mod texts;

use std::io::{Read, Write};

fn main() {
    let program = std::env::args().nth(1).unwrap_or_default();
    let mut input = Vec::new();
    std::io::stdin().read_to_end(&mut input).expect("standard input can't be read");
    let printed = match program.as_str() {
        "replay" | "test_replay_parts" => lists::replay(&input),
        "listing" => lists::listing(&input),
        "test_mixed" => lists::mixed(&input),
        "test_engine" => lists::engine(&input),
        "assemble" => texts::assemble(&input),
        "inspect" => texts::inspect(&input),
        "test_notation" => texts::cases(&input),
        "test_vectors" => script::play(&input),
        _ => {
            eprintln!("expected: nothing is known of a program {program:?}");
            std::process::exit(1);
        }
    };
    std::io::stdout().write_all(&printed).expect("standard output can't be written");
}
