//! Compiles what is in C, tests/benchmark/c, to an archive and links it. There is no crate for it: gcc and ar are called.

use std::env;
use std::path::{Path, PathBuf};
use std::process::Command;

const FLAGS: [&str; 6] = ["-std=gnu11", "-O3", "-fPIC", "-Wall", "-Wextra", "-Werror"];

fn run(command: &mut Command) {
    let ended = command.status().unwrap_or_else(|e| panic!("{command:?}: {e}"));
    assert!(ended.success(), "{command:?} failed");
}

fn files_in(dir: &Path) -> Vec<PathBuf> {
    let mut files: Vec<PathBuf> = dir.read_dir().unwrap().map(|entry| entry.unwrap().path()).collect();
    files.sort();
    files
}

fn main() {
    let sources = PathBuf::from(env::var_os("CARGO_MANIFEST_DIR").unwrap()).join("../../tests/benchmark/c");
    let out = PathBuf::from(env::var_os("OUT_DIR").unwrap());
    println!("cargo::rerun-if-changed={}", sources.display());
    let mut archive = Command::new("ar");
    archive.arg("crs").arg(out.join("libbenchmark_c.a"));
    for source in files_in(&sources).iter().filter(|file| file.extension().is_some_and(|extension| extension == "c")) {
        let object = out.join(source.file_name().unwrap()).with_extension("o");
        run(Command::new("gcc").args(FLAGS).arg("-c").arg(source).arg("-o").arg(&object));
        archive.arg(object);
    }
    let _ = std::fs::remove_file(out.join("libbenchmark_c.a"));
    run(&mut archive);
    println!("cargo::rustc-link-search=native={}", out.display());
    println!("cargo::rustc-link-lib=static=benchmark_c");
}
