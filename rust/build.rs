//! Links the static libraries and makes constants of the numbers in their headers. `tools/build_library` makes all of them.

use std::path::Path;
use std::{env, fs};

/// Both have lines `#define NAME VALUE`; the second's values are made of the first's names.
const HEADERS: [&str; 2] = ["shinepod_numbers.h", "shinepod.h"];

/// The names of the header begin with it; the constants' names have the crate's name before them anyway.
const PREFIX: &str = "SHINEPOD_";

/// The archives, by their names for the linker: the calls, and the status board.
const LIBRARIES: [&str; 2] = ["shinepod_c", "board"];

/// What a function of the library gives, as `TTS_..` are: C has these without a sign.
const GIVEN: [&str; 8] =
    ["ANSWERED", "WAITS", "EXITED", "UNKNOWN_KIND", "OVER", "NOWHERE", "IN_STORE", "IN_OUTBOX"];

/// What a field of a call may be or is held against, as `E_..`, `TA_..` and `TMO_..` are: a signed number.
const FIELDS: [&str; 13] = [
    "TASKS", "MUTEXES", "BUFFERS", "POOLS", "PRIORITIES", "BLOCKS", "BY_ARRIVAL", "BY_PRIORITY",
    "INHERITS", "CEILINGED", "PROTECTION", "TSK_SELF", "TPRI_INI",
];

/// A name that is new in the headers has to be put where it belongs: no type fits whatever may come.
fn type_of(name: &str) -> &'static str {
    let begins = |prefixes: &[&str]| prefixes.iter().any(|prefix| name.starts_with(prefix));
    if name.ends_with("_BYTES") || name.ends_with("_WORDS") {
        "usize"
    } else if begins(&["TK_", "LOG_"]) {
        "u8"
    } else if begins(&["TTS_"]) || GIVEN.contains(&name) {
        "u32"
    } else if begins(&["E_", "TA_", "TMO_"]) || FIELDS.contains(&name) {
        "i32"
    } else {
        panic!("{name} is new in the headers: rust/build.rs has to say which type it has")
    }
}

/// A constant for a line that defines a number, nothing for any other line.
fn constant(line: &str) -> Option<String> {
    let (name, value) = line.strip_prefix("#define ")?.split_once(' ')?;
    let c_name = name;
    let name = name.strip_prefix(PREFIX).unwrap_or(name);
    let value = value.trim_matches(['(', ')']).replace(PREFIX, "");
    let type_name = type_of(name);
    Some(format!("/// `{c_name}` in C.\npub const {name}: {type_name} = {value};\n"))
}

fn main() {
    let folder = |name: &str| env::var(name).unwrap_or_else(|_| panic!("cargo sets {name}"));
    let here = folder("CARGO_MANIFEST_DIR");
    let made = Path::new(&here).parent().expect("the repository").join("target");
    let mut constants = String::new();
    for header in HEADERS {
        let path = made.join("include").join(header);
        let text = fs::read_to_string(&path)
            .unwrap_or_else(|error| panic!("{}: {error}: run tools/build_library", path.display()));
        constants.extend(text.lines().filter_map(constant));
        println!("cargo:rerun-if-changed={}", path.display());
    }
    fs::write(Path::new(&folder("OUT_DIR")).join("numbers.rs"), constants)
        .unwrap_or_else(|error| panic!("numbers.rs: {error}"));
    let libraries = made.join("staticlib");
    println!("cargo:rustc-link-search=native={}", libraries.display());
    for library in LIBRARIES {
        println!("cargo:rustc-link-lib=static={library}");
        println!("cargo:rerun-if-changed={}", libraries.join(format!("lib{library}.a")).display());
    }
}
