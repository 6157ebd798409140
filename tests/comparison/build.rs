//! Links the static library that BEAD_LIBRARY names: it is copied beside the build under the name that the linker looks for. And the C port of the benchmark, whose
//! calls get names of their own.

use std::path::Path;
use std::process::Command;
use std::{env, fs};

/// The calls; the C port's are c_port_format and so on.
const CALLS: [&str; 5] = ["format", "begin", "step", "withdraw", "take_up"];
const BENCH: &str = "../../bench";

fn main() {
    let room = env::var("OUT_DIR").expect("OUT_DIR of cargo");
    link_library(&room);
    link_c_port(&room);
}

fn link_library(room: &str) {
    println!("cargo:rerun-if-env-changed=BEAD_LIBRARY");
    let library =
        env::var("BEAD_LIBRARY").expect("BEAD_LIBRARY names the static library to compare");
    println!("cargo:rerun-if-changed={library}");
    fs::copy(&library, Path::new(room).join("libbead.a")).expect("the library can be copied");
    println!("cargo:rustc-link-search=native={room}");
    println!("cargo:rustc-link-lib=static=bead");
}

/// Compiled as bench/contenders.py does.
fn link_c_port(room: &str) {
    println!("cargo:rerun-if-changed={BENCH}/port.c");
    println!("cargo:rerun-if-changed={BENCH}/port");
    let object = format!("{room}/c_port.o");
    let compiled = Command::new("cc")
        .args(["-std=c11", "-O3", "-Wall", "-Wextra", "-Werror", "-fPIE"])
        .args(CALLS.map(|call| format!("-Dbead_{call}=c_port_{call}")))
        .args(["-I../../include", "-c", "-o", &object])
        .arg(format!("{BENCH}/port.c"))
        .status();
    assert!(
        compiled.expect("a C compiler").success(),
        "the C port is compiled"
    );
    println!("cargo:rustc-link-arg={object}");
}
