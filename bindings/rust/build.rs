//! Finds the take ledger's library by pkg-config, and tells cargo where it is.
//!
//! PKG_CONFIG names another program than pkg-config; PKG_CONFIG_PATH, PKG_CONFIG_LIBDIR and
//! PKG_CONFIG_SYSROOT_DIR mean what they mean to it.

use std::env;
use std::process::{exit, Command};

const NAME: &str = "take-ledger";
const ASKED: [&str; 4] = ["PKG_CONFIG", "PKG_CONFIG_PATH", "PKG_CONFIG_LIBDIR", "PKG_CONFIG_SYSROOT_DIR"];

fn main() {
    for name in ASKED {
        println!("cargo:rerun-if-env-changed={name}");
    }
    println!("cargo:rerun-if-changed=build.rs");
    if env::var_os("DOCS_RS").is_some() {
        return; // documentation needs no library
    }
    let major = env::var("CARGO_PKG_VERSION_MAJOR").unwrap();
    let least = format!("{NAME} >= {major}");
    asked(&["--print-errors", "--exists", &least]);
    let flags = asked(&["--cflags", "--libs", NAME]);
    let kind = if env::var_os("CARGO_FEATURE_STATIC").is_some() { "static=" } else { "" };
    for flag in words(&flags) {
        if let Some(folder) = flag.strip_prefix("-L") {
            println!("cargo:rustc-link-search=native={folder}");
        } else if let Some(name) = flag.strip_prefix("-l") {
            println!("cargo:rustc-link-lib={kind}{name}");
        } else if let Some(folder) = flag.strip_prefix("-I") {
            println!("cargo:include={folder}");
        }
    }
    if !kind.is_empty() {
        // pkg-config leaves -L out where the library is in a folder of the system
        let folder = asked(&["--variable=libdir", NAME]);
        println!("cargo:rustc-link-search=native={}", folder.trim());
    }
}

/// What pkg-config prints; where there is none, or it does not know the library, this says so.
fn asked(arguments: &[&str]) -> String {
    let program = env::var("PKG_CONFIG").unwrap_or_else(|_| "pkg-config".to_string());
    match Command::new(&program).args(arguments).output() {
        Err(error) => missing(&format!("{program} can't be run: {error}")),
        Ok(told) if !told.status.success() => missing(&String::from_utf8_lossy(&told.stderr)),
        Ok(told) => String::from_utf8_lossy(&told.stdout).into_owned(),
    }
}

fn missing(reason: &str) -> ! {
    eprintln!(
        "\nThe take ledger's library was not found by pkg-config. Install the packages\n\
         libtake-ledger4 and libtake-ledger-dev, or let PKG_CONFIG_PATH name the folder that has\n\
         take-ledger.pc: of a copy that was installed under PREFIX it is PREFIX/lib/pkgconfig.\n\
         {}\n",
        reason.trim()
    );
    exit(1)
}

/// The words of what pkg-config prints, in which a space of a path has a backslash before it.
fn words(line: &str) -> Vec<String> {
    let (mut all, mut word, mut escaped) = (Vec::new(), String::new(), false);
    for c in line.chars() {
        if escaped || !(c == '\\' || c.is_whitespace()) {
            word.push(c);
            escaped = false;
        } else if c == '\\' {
            escaped = true;
        } else if !word.is_empty() {
            all.push(std::mem::take(&mut word));
        }
    }
    if !word.is_empty() {
        all.push(word);
    }
    all
}
