//! Writes the conformance kit's files: expected values come from the proved library, and are written only where the Rust ledger agrees, and
//! the oracle where one is named.
//!
//!     generate FOLDER [ORACLE]
//!
//! FOLDER has cases.txt and sessions.txt; the files go to FOLDER/vectors, or to the folder that VECTORS names.

mod actors;
mod asked;
mod calls;
mod coverage;
mod faults;
mod flags;
mod house;
mod image;
mod images;
#[path = "../../rust/impediment.rs"]
mod impediment;
mod json;
mod kit;
mod marks;
mod notation;
mod order;
mod passes;
mod plan;
mod queries;
mod runs;
mod sha256;
mod steps;
mod strange;

use kit::{Kit, Suite};
use std::path::{Path, PathBuf};
use std::{env, fs, process};

/// The most that all files may take together.
const MOST: usize = 2_400_000;

fn suites(kit: &mut Kit, folder: &Path) -> Vec<Suite> {
    let read = |name: &str| fs::read_to_string(folder.join(name)).unwrap_or_else(|e| panic!("{name}: {e}"));
    let (images, changed) = images::suite(kit);
    vec![
        runs::edges(kit, &read("cases.txt")),
        runs::sessions(kit, &read("sessions.txt")),
        runs::mixed_lists(kit),
        marks::suite(kit),
        steps::suite(kit),
        images,
        calls::suite(kit),
        queries::suite(kit),
        plan::suite(kit),
        order::suite(kit),
        actors::suite(kit),
        faults::suite(kit, &changed),
        strange::suite(kit),
        passes::thin(kit),
        passes::window(kit),
        passes::convert(kit),
    ]
}

fn main() {
    let mut arguments = env::args_os().skip(1).map(PathBuf::from);
    let Some(folder) = arguments.next() else {
        eprintln!("generate FOLDER [ORACLE]");
        process::exit(2);
    };
    assert!(sha256::hex_digest(b"abc").starts_with("ba7816bf8f01cfea"), "SHA-256");
    let out = env::var_os("VECTORS").map_or(folder.join("vectors"), PathBuf::from);
    let mut kit = Kit { seen: Default::default(), oracle: arguments.next() };
    let suites = suites(&mut kit, &folder);
    let (mut tests, mut size) = (0, 0);
    for suite in suites {
        tests += suite.tests.len();
        let path = out.join(format!("{}.json", suite.subject));
        let text = suite.print(flags::FLAGS);
        size += text.len();
        fs::write(&path, text).unwrap_or_else(|e| panic!("{}: {e}", path.display()));
    }
    let missing = kit.seen.missing(&images::CLAUSES);
    for what in &missing {
        eprintln!("missing: {what}");
    }
    assert!(size < MOST, "{size} bytes: too many");
    println!("{tests} tests, {size} bytes; {}", kit.seen.counts());
    if !missing.is_empty() {
        process::exit(1);
    }
}
