//! Wrong answers are seen: with another answer due, and with a program that prints something else.

use differential::compare::Compare;
use reference::batch::small_p;
use reference::batch_cases::needed;
use reference::check::{check, Report};
use std::process::{Command, Output};

/// Answers that differ from the one due in one thing.
fn others(due: Report) -> Vec<Report> {
    let mut others = vec![Report { number: 12, ..due }, Report { place: 1, ..due }];
    others.extend([Report { lengths: [0; 4], ..due }, Report { firsts: [0; 4], ..due }]);
    for n in 0..4 {
        let (mut lengths, mut firsts) = (due.lengths, due.firsts);
        lengths[n] += 1;
        firsts[n] += 1;
        others.extend([Report { lengths, ..due }, Report { firsts, ..due }]);
    }
    others
}

#[test]
fn another_answer_due() {
    let (mut compare, words) = (Compare::default(), small_p().words());
    let enough = needed(&words);
    let due = check(&words, enough);
    let parts = [(0, true), (20, true), (0, false), (words.len() - 20, true), (0, false)];
    compare.whole(&words, enough, due).unwrap();
    compare.parts(&words, enough, &parts, u64::MAX, due).unwrap();
    for other in others(due) {
        assert!(compare.whole(&words, enough, other).is_err());
        assert!(compare.parts(&words, enough, &parts, 0, other).is_err());
        assert!(compare.decoded(&words, enough, 72, other).is_err());
    }
    for room in [0, 71, 72, 73, 100] {
        compare.decoded(&words, enough, room, due).unwrap();
        assert!(compare.decoded(&words, [0; 4], room, due).is_err());
        assert!(compare.decoded(&words, enough, room, Report { firsts: [0; 4], ..due }).is_err());
    }
    compare.command(&words[27..], 24).unwrap();
    compare.record(&[0; 24], 9).unwrap();
}

/// The words, or bytes, that are lent last lie before a closed page, with a fence in front.
#[test]
fn lent_memory() {
    let mut lent = differential::lent::Lent::new();
    assert!(lent.fence_stands());
    for count in [0, 1, 99, 100_000, 7] {
        let values: Vec<u32> = (0..count).collect();
        let at = lent.lend(&values);
        assert_eq!((at as usize + 4 * values.len()) % 4096, 0);
        assert_eq!(lent.now::<u32>(), values);
        assert!(lent.fence_stands());
        // SAFETY: the fence belongs to the region.
        unsafe { *at.sub(1) = 0 };
        assert!(!lent.fence_stands());
    }
}

fn differential(words: &[&str]) -> Output {
    Command::new(env!("CARGO_BIN_EXE_differential")).args(words).output().unwrap()
}

#[test]
fn a_program_that_prints_nothing() {
    let file = std::env::temp_dir().join(format!("reproducer-{}", std::process::id()));
    let name = file.to_str().unwrap();
    let output = differential(&["--seed", "5", "--program", "true", "--runs", "3", "--reproducer", name]);
    let text = String::from_utf8(output.stdout).unwrap();
    assert!(
        !output.status.success() && text.contains("again: differential --seed 5 --first 0 --program true --runs 1"),
        "{text}"
    );
    let bytes = std::fs::read(&file).unwrap();
    std::fs::remove_file(&file).unwrap();
    assert!(text.contains(&format!("due:   {}", reference::program::line_of(&bytes))), "{text}");
}

/// A few batches leave numbers out, which fails unless one batch is asked again.
#[test]
fn numbers_left_out() {
    assert_eq!(differential(&["--seed", "1", "--count", "3"]).status.code(), Some(1));
    assert_eq!(differential(&["--seed", "1", "--first", "7", "--count", "3"]).status.code(), Some(0));
    assert_eq!(differential(&["--count"]).status.code(), Some(2));
    assert_eq!(differential(&["--runs", "1"]).status.code(), Some(2));
}

#[test]
fn every_number() {
    assert!(differential(&["--seed", "2", "--count", "3000"]).status.success());
}
