//! Finds the proved library's archive: in `RINKOLZA_LIB_DIR`, else where `tests/archive.sh` leaves it.

use std::env;
use std::path::PathBuf;
use std::process::exit;

fn main() {
    println!("cargo:rerun-if-env-changed=RINKOLZA_LIB_DIR");
    let dir = match env::var_os("RINKOLZA_LIB_DIR") {
        Some(dir) => PathBuf::from(dir),
        None => beside(),
    };
    let archive = dir.join("librinkolza.a");
    println!("cargo:rerun-if-changed={}", archive.display());
    if !archive.is_file() {
        eprintln!("The proved library is not there: {}", archive.display());
        eprintln!("Run `sh tests/archive.sh` at the root of the repository (it writes target/staticlib/librinkolza.a),");
        eprintln!("or set RINKOLZA_LIB_DIR to the folder that holds librinkolza.a.");
        exit(1);
    }
    println!("cargo:rustc-link-search=native={}", dir.display());
    println!("cargo:rustc-link-lib=static=rinkolza");
}

/// `target/staticlib` at the root of the repository.
fn beside() -> PathBuf {
    let here = PathBuf::from(env::var_os("CARGO_MANIFEST_DIR").unwrap_or_default());
    here.join("..").join("target").join("staticlib")
}
