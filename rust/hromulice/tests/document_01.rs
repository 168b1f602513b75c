//! Document 01's cases P1 to P13 through the crate: whole, decoded, and in parts.

mod common;

use common::{document_01, told, two_columns, P1, P1_LENGTHS};
use hromulice::{check, decode, Buffer, Check, Lengths, Reason, Report};

#[test]
fn whole() {
    let cases = document_01();
    assert_eq!(cases.len(), 7 + 10 + 4);
    for case in cases {
        let report = check(&case.words, case.lengths.into());
        assert_eq!(told(report), case.due, "{}", case.name);
        assert_eq!(report.needed().map(<[u64; 4]>::from), case.due.2.map(|[lengths, _]| lengths), "{}", case.name);
        assert_eq!(report.is_accepted(), case.due.0 == 0, "{}", case.name);
    }
}

/// The same as cases of the report.
#[test]
fn in_its_case() {
    for case in document_01() {
        let (number, place, _) = case.due;
        match check(&case.words, case.lengths.into()) {
            Report::Accepted(_) => assert_eq!((number, place), (0, 0), "{}", case.name),
            Report::ShortBuffer { buffer, .. } => assert_eq!((number, place), (13, buffer.number().into()), "{}", case.name),
            Report::ShortLog { .. } => panic!("{}", case.name),
            Report::Refused(refusal) => {
                assert_eq!((Some(refusal.reason), refusal.place), (Reason::from_number(number), place), "{}", case.name)
            }
        }
    }
}

/// Beside the longest buffers none is too short, and what is reported is the same.
#[test]
fn other_lengths() {
    for case in document_01() {
        let longest = told(check(&case.words, Lengths::LONGEST));
        assert_eq!(longest.2, case.due.2, "{}", case.name);
        assert_eq!(longest.0 == 0, matches!(case.due.0, 0 | 13), "{}", case.name);
    }
}

/// The windows of P11: from the first byte to below the length, and empty where nothing is touched.
#[test]
fn windows() {
    let Report::Accepted(reported) = check(&two_columns(3, 32, 0), Lengths::LONGEST) else { panic!() };
    assert_eq!(Buffer::ALL.map(|buffer| reported.window(buffer)), [0..896, 0..896, 512..896, 0..0]);
    for buffer in Buffer::ALL {
        assert_eq!(reported.window(buffer), reported.firsts.of(buffer)..reported.lengths.of(buffer));
    }
}

/// Decoding gives the check's answer where the log is long enough, and writes only what is accepted.
#[test]
fn decoded() {
    for case in document_01() {
        let mut log = [0xee; 50];
        assert_eq!(told(decode(&case.words, case.lengths.into(), &mut log)), case.due, "{}", case.name);
        let written = log.iter().rposition(|byte| *byte != 0xee).map_or(0, |last| last + 1);
        let macroblocks = if case.words.len() > 40 { 2 } else { 1 };
        assert_eq!(written, if case.due.0 == 0 { 24 * macroblocks } else { 0 }, "{}", case.name);
    }
}

/// "Record: 8 zero bytes, 3F 00 00 01 0F, 11 zero bytes."
#[test]
fn record() {
    let mut log = [0xee; 26];
    assert!(decode(&P1, P1_LENGTHS, &mut log).is_accepted());
    assert_eq!(log[..8], [0; 8]);
    assert_eq!(log[8..13], [0x3f, 0x00, 0x00, 0x01, 0x0f]);
    assert_eq!(log[13..24], [0; 11]);
    assert_eq!(log[24..], [0xee; 2]);
}

/// The halves of a vector: x before y.
#[test]
fn vector_in_the_record() {
    let mut log = [0; 48];
    assert!(decode(&two_columns(3, 31, 0), Lengths::LONGEST, &mut log).is_accepted());
    assert_eq!(log[16..24], [31, 0, 0, 0, 0, 0, 0, 0]);
    assert_eq!(log[24..28], [1, 0, 0, 0]);
}

/// "For every list of parts, empty parts and the empty list included": each case cut at every two places, and word by word.
#[test]
fn in_parts() {
    for case in document_01() {
        let lengths = Lengths::from(case.lengths);
        let n = case.words.len();
        for first in 0..=n {
            for second in first..=n {
                let mut check = Check::new(lengths);
                check.hand_over(&case.words[..first]);
                check.hand_over(&case.words[first..second]);
                check.hand_over(&case.words[second..]);
                assert_eq!(told(check.report()), case.due, "{} cut at {first} and {second}", case.name);
            }
        }
        let mut by_word = Check::new(lengths);
        for (given, word) in case.words.iter().enumerate() {
            assert_eq!(by_word.report(), check(&case.words[..given], lengths), "{} after {given} words", case.name);
            by_word.hand_over(&[*word]);
            by_word.hand_over(&[]);
        }
        assert_eq!(told(by_word.report()), case.due, "{}", case.name);
    }
}
