//! Links the static library of crate ledger_c, and with the features `engine`, `text` and `looking` those of engine_c, notation_c
//! and looking_c, from target/staticlib or from the folder that LEDGER_LIBRARY names.

use std::env;

fn main() {
    let here = env::var("CARGO_MANIFEST_DIR").unwrap();
    let folder = env::var("LEDGER_LIBRARY").unwrap_or(format!("{here}/../target/staticlib"));
    println!("cargo:rustc-link-search=native={folder}");
    println!("cargo:rerun-if-env-changed=LEDGER_LIBRARY");
    let with = |feature: &str| env::var(feature).is_ok();
    let libraries = [
        ("ledger_c", true),
        ("engine_c", with("CARGO_FEATURE_ENGINE")),
        ("notation_c", with("CARGO_FEATURE_TEXT")),
        ("looking_c", with("CARGO_FEATURE_LOOKING")),
    ];
    for (name, _) in libraries.iter().filter(|l| l.1) {
        println!("cargo:rustc-link-lib=static={name}");
        println!("cargo:rerun-if-changed={folder}/lib{name}.a");
    }
}
