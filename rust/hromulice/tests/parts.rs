//! The check in parts as a type.

mod common;

use common::{p1_with, told, P1, P1_ACCEPTED, P1_LENGTHS};
use hromulice::{check, state_words, Check, Lengths, Reason};

fn refusal(check: &Check) -> Option<(Reason, u64)> {
    check.report().refusal().map(|refusal| (refusal.reason, refusal.place))
}

#[test]
fn no_part() {
    assert_eq!(refusal(&Check::new(P1_LENGTHS)), Some((Reason::WordsRunOut, 0)));
}

/// A clone goes on by itself, also from within a command.
#[test]
fn clones() {
    let mut one = Check::new(P1_LENGTHS);
    one.hand_over(&P1[..30]);
    let mut other = one.clone();
    one.hand_over(&P1[30..]);
    other.hand_over(&[1, 0xc500_0001, 0, 0, 0, 0]);
    assert_eq!(told(one.report()), P1_ACCEPTED);
    assert_eq!(refusal(&other), Some((Reason::FixedBit, 30)));
}

/// "Also after a fault is found": the first fault stays the answer.
#[test]
fn after_a_fault() {
    let mut check = Check::new(P1_LENGTHS);
    check.hand_over(&p1_with(31, 0xc500_0000));
    for _ in 0..3 {
        assert_eq!(refusal(&check), Some((Reason::FieldNotPermitted, 31)));
        check.hand_over(&P1);
    }
}

/// The longest command, 61 words, word by word and with each way to cut it.
#[test]
fn longest_command() {
    let mut words = vec![0x7002_003b];
    words.extend(1..61);
    words.extend(P1);
    assert_eq!(told(check(&words, P1_LENGTHS)), P1_ACCEPTED);
    for length in 1..=words.len() {
        let mut check = Check::new(P1_LENGTHS);
        words.chunks(length).for_each(|part| check.hand_over(part));
        assert_eq!(told(check.report()), P1_ACCEPTED, "parts of {length}");
    }
}

/// The lengths are those that the check began with.
#[test]
fn lengths_of_its_own() {
    let mut short = Check::new(Lengths { source: 383, ..P1_LENGTHS });
    short.hand_over(&P1);
    assert_eq!(refusal(&short), Some((Reason::BufferTooShort, 0)));
    assert_eq!(short.report().needed(), Some(P1_LENGTHS));
}

#[test]
fn may_be_sent_to_another_thread() {
    let mut check = Check::new(P1_LENGTHS);
    check.hand_over(&P1[..20]);
    let report = std::thread::spawn(move || {
        check.hand_over(&P1[20..]);
        check.report()
    });
    assert_eq!(told(report.join().unwrap()), P1_ACCEPTED);
}

/// A check has the words that the library takes, and nothing else.
#[test]
fn words_of_a_check() {
    assert_eq!(8 * state_words(), size_of::<Check>() as u64);
}

#[test]
fn shown() {
    let mut check = Check::new(P1_LENGTHS);
    check.hand_over(&P1[..5]);
    let shown = format!("{check:?}");
    assert!(shown.contains("WordsRunOut") && shown.contains("place: 5"), "{shown}");
    assert_eq!(size_of::<Check>(), 1024);
}
