//! Links the proved library: the archive that `BEAD_INDEX_LIB` names, else the one that `tests/staticlib` builds.

use std::env;
use std::path::PathBuf;
use std::process::exit;

/// The environment variable with the archive's path.
const VARIABLE: &str = "BEAD_INDEX_LIB";

fn main() {
    println!("cargo:rerun-if-env-changed={VARIABLE}");
    let archive = archive();
    println!("cargo:rerun-if-changed={}", archive.display());
    if !archive.is_file() {
        fail(&format!("there is no library {}", archive.display()));
    }
    let stem = archive.file_stem().and_then(|stem| stem.to_str());
    let is_archive = archive.extension().map_or(false, |ending| ending == "a");
    match (
        stem.and_then(|stem| stem.strip_prefix("lib")),
        is_archive,
        archive.parent(),
    ) {
        (Some(name), true, Some(folder)) => {
            println!("cargo:rustc-link-search=native={}", folder.display());
            println!("cargo:rustc-link-lib=static={name}");
        }
        _ => fail(&format!(
            "{} has not the name of a static library, libNAME.a",
            archive.display()
        )),
    }
}

/// Where the archive is looked for.
fn archive() -> PathBuf {
    match env::var_os(VARIABLE) {
        Some(path) => PathBuf::from(path),
        None => {
            let here = env::var_os("CARGO_MANIFEST_DIR").expect("cargo sets CARGO_MANIFEST_DIR");
            PathBuf::from(here).join("../crates/bead/out/libbead.a")
        }
    }
}

/// Ends the build with a message that says what to do.
fn fail(what: &str) -> ! {
    eprintln!("bead-index: {what}");
    eprintln!("Build the library with the command tests/staticlib, or set {VARIABLE} to the full path of libbead.a.");
    exit(1)
}
