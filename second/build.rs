//! Says where the archive is: in `MONITOR_LIB_DIR`, or where `./archive` writes it. For the
//! program `table` alone it compiles the C by hand, hand/hand.c, with gcc.

use std::env;
use std::path::{Path, PathBuf};
use std::process::Command;

fn main() {
    println!("cargo:rerun-if-changed=build.rs");
    println!("cargo:rerun-if-env-changed=MONITOR_LIB_DIR");
    let package = PathBuf::from(env::var_os("CARGO_MANIFEST_DIR").expect("set by cargo"));
    let dir = match env::var_os("MONITOR_LIB_DIR") {
        Some(dir) => PathBuf::from(dir),
        None => package.join("../target/staticlib"),
    };
    let archive = dir.join("libmonitor.a");
    println!("cargo:rerun-if-changed={}", archive.display());
    assert!(archive.is_file(), "no archive at {}: `./archive` writes it", archive.display());
    println!("cargo:rustc-link-search=native={}", dir.display());
    println!("cargo:rustc-link-lib=static=monitor");
    let object = by_hand(&package);
    println!("cargo:rustc-link-arg-bin=table={}", object.display());
}

/// The object file of the C by hand.
fn by_hand(package: &Path) -> PathBuf {
    let (hand, include) = (package.join("hand"), package.join("../include"));
    for file in [hand.join("hand.c"), hand.join("hand.h"), include.join("monitor.h")] {
        println!("cargo:rerun-if-changed={}", file.display());
    }
    let object = PathBuf::from(env::var_os("OUT_DIR").expect("set by cargo")).join("hand.o");
    let status = Command::new("gcc")
        .args(["-std=c11", "-O2", "-fPIE", "-Wall", "-Wextra", "-Werror", "-c", "-I"])
        .args([&include, &hand.join("hand.c"), &PathBuf::from("-o"), &object])
        .status();
    assert!(status.expect("gcc runs").success(), "gcc does not compile hand/hand.c");
    object
}
