//! Wrong answers about mount sheets are seen: whoever answers as the second program does but for one thing is found out by what
//! is generated.

mod adding;
mod asking;
mod other;
mod vectors;

use other::{found_by_books, found_by_vectors, Other, RIGHT};
use std::process::Command;

#[test]
fn right_answers() {
    assert!(!found_by_books(RIGHT, 300) && !found_by_vectors(RIGHT));
    assert!(found_by_books(Other { what: "bytes written in front", fences_stand: false, ..RIGHT }, 1));
}

fn differential(words: &[&str]) -> Option<i32> {
    Command::new(env!("CARGO_BIN_EXE_differential")).args(words).output().unwrap().status.code()
}

/// A few books leave something out, which fails unless one book is asked about again.
#[test]
fn things_left_out() {
    assert_eq!(differential(&["--seed", "1", "--books", "3"]), Some(1));
    assert_eq!(differential(&["--seed", "1", "--first", "7", "--books", "3"]), Some(0));
    assert_eq!(differential(&["--seed", "1", "--books", "3000"]), Some(0));
    assert_eq!(differential(&["--seed", "1", "--books", "3000", "--count", "3"]), Some(1));
    assert_eq!(differential(&["--books"]), Some(2));
}
