//! Writes the second program's stored cases and samples.
//!
//!     reference leaf DIR      writes DIR/stdin and DIR/stdout, the cases of crates/leaf_cases
//!     reference command DIR   the same for headers, commands read alone and records written alone
//!     reference batch DIR     the same for whole batches beside their buffers' lengths, checked and decoded
//!     reference samples DIR   small batches for the program, each with its line
//!     reference interface DIR batches for the example in C, each with its line and its log
//!     reference mounts DIR SEED COUNT   so many generated files of mount sheets, each with questions and their answers

use reference::{batch_cases, cases, interface_cases, leaf_cases, mounts_files, samples};
use std::path::Path;
use std::process::ExitCode;

fn usage() -> ExitCode {
    eprintln!("usage: reference leaf|command|batch|samples|interface DIR, or reference mounts DIR SEED COUNT");
    ExitCode::from(2)
}

fn main() -> ExitCode {
    let words: Vec<String> = std::env::args().skip(1).collect();
    let done = match words.iter().map(String::as_str).collect::<Vec<_>>()[..] {
        ["leaf", dir] => leaf_cases::write(Path::new(dir)),
        ["command", dir] => cases::write(Path::new(dir)),
        ["batch", dir] => batch_cases::write(Path::new(dir)),
        ["samples", dir] => samples::write(Path::new(dir)),
        ["interface", dir] => interface_cases::write(Path::new(dir)),
        ["mounts", dir, seed, count] => match (seed.parse(), count.parse()) {
            (Ok(seed), Ok(count)) => mounts_files::write(Path::new(dir), seed, count),
            _ => return usage(),
        },
        _ => return usage(),
    };
    match done {
        Ok(()) => ExitCode::SUCCESS,
        Err(e) => {
            eprintln!("reference: {e}");
            ExitCode::FAILURE
        }
    }
}
