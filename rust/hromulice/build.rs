//! Links libhromulice.a from HROMULICE_LIB_DIR, or from the repository's own target/staticlib. A relative directory is taken
//! from this crate's.

use std::env;
use std::path::PathBuf;

fn main() {
    println!("cargo::rerun-if-env-changed=HROMULICE_LIB_DIR");
    let manifest = PathBuf::from(env::var_os("CARGO_MANIFEST_DIR").unwrap());
    let dir = match env::var_os("HROMULICE_LIB_DIR") {
        Some(dir) => manifest.join(dir),
        None => manifest.join("../../target/staticlib"),
    };
    let dir = dir.canonicalize().unwrap_or(dir);
    let archive = dir.join("libhromulice.a");
    println!("cargo::rerun-if-changed={}", archive.display());
    if archive.is_file() {
        println!("cargo::rustc-link-search=native={}", dir.display());
        println!("cargo::rustc-link-lib=static=hromulice");
    } else {
        println!(
            "cargo::error=there is no {}: build it by `tests/build library` at the root of the repository, or name the \
             directory that holds libhromulice.a in HROMULICE_LIB_DIR",
            archive.display()
        );
    }
}
