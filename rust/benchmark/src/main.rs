//! tests/benchmark/run builds and starts this.
//!
//!     benchmark tables                 speed on twelve pictures, growth, with cleared caches, on low pictures and far vectors
//!     benchmark fields                 field prediction beside frame prediction, by vector
//!     benchmark details                NOOPs, carried commands, small parts
//!     benchmark mounts                 mount sheets, and the vector of a shift
//!     benchmark program CHECKER DIR    the program CHECKER, with inputs stored in DIR
//!     benchmark repeat NAME BATCH N    N calls of one contender on a batch, for counting instructions
//!     benchmark agree                  nothing, and fails unless all contenders answer each BATCH alike
//!
//! BATCH is a picture of 256 by 175 macroblocks: I, P or B, or a P picture of `forward` or of `field` macroblocks alone; or
//! `picture`, a P picture of 120 by 68, alone or with 10000 commands added: `noops` or `carried` before it, `grouped` NOOPs in a
//! group.

use benchmark::commands::{carried_before, noops_before, noops_within, CARRIED, PICTURE};
use benchmark::contenders::{Work, CONTENDERS};
use benchmark::pictures::Picture;
use benchmark::{details, fields, mounts, program, tables};
use std::path::Path;
use std::process::ExitCode;

const ADDED: usize = 10_000;

const BATCHES: [&str; 9] = ["I", "P", "B", "forward", "field", "picture", "noops", "grouped", "carried"];

fn batch(name: &str) -> Option<Work> {
    let large = |coding| Some(Picture::new(coding, 256, 175).several());
    let added = |words| Work::one(words, PICTURE.macroblocks());
    match name {
        "I" => large(1),
        "P" => large(2),
        "B" => large(3),
        "forward" => Some(Picture::forward(256, 175).several()),
        "field" => Some(Picture::field(256, 175).several()),
        "picture" => Some(added(PICTURE.words(0))),
        "noops" => Some(added(noops_before(ADDED))),
        "grouped" => Some(added(noops_within(ADDED))),
        "carried" => Some(added(carried_before(CARRIED.into_iter().cycle().take(ADDED)))),
        _ => None,
    }
}

fn repeat(name: &str, of: &str, count: &str) -> Option<()> {
    let contender = CONTENDERS.into_iter().find(|contender| contender.name == name)?;
    let mut work = batch(of)?;
    for _ in 0..count.parse().ok()? {
        work.run(&contender);
    }
    Some(())
}

fn main() -> ExitCode {
    let arguments: Vec<String> = std::env::args().skip(1).collect();
    match arguments.iter().map(String::as_str).collect::<Vec<_>>()[..] {
        ["tables"] => tables::print(),
        ["fields"] => fields::print(),
        ["details"] => details::print(),
        ["mounts"] => mounts::print(),
        ["program", checker, dir] => {
            if let Err(e) = program::measure(Path::new(checker), Path::new(dir)) {
                eprintln!("benchmark: {e}");
                return ExitCode::FAILURE;
            }
        }
        ["repeat", name, of, count] if repeat(name, of, count).is_some() => {}
        ["agree"] => BATCHES.iter().filter_map(|name| batch(name)).for_each(|mut work| work.agree(&[])),
        _ => {
            eprintln!("usage: benchmark tables | fields | details | mounts | program CHECKER DIR | repeat NAME BATCH N | agree");
            return ExitCode::from(2);
        }
    }
    ExitCode::SUCCESS
}
