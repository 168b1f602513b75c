//! Numbers, their reasons, and how answers are shown.

mod common;

use common::two_columns;
use hromulice::{check, decode, Buffer, Lengths, Reason, Refusal, Report};
use std::collections::BTreeSet;

#[test]
fn numbers() {
    let numbers: Vec<u8> = Reason::ALL.iter().map(|reason| reason.number()).collect();
    assert!(numbers.iter().copied().eq((1..=15).chain(19..=23).chain([27])));
    for number in 0..=255 {
        assert_eq!(Reason::from_number(number).map(Reason::number), Some(number).filter(|number| numbers.contains(number)));
    }
    let meanings: BTreeSet<&str> = Reason::ALL.iter().map(|reason| reason.meaning()).collect();
    assert_eq!(meanings.len(), Reason::ALL.len());
    assert!(Reason::ALL.iter().all(|reason| reason.to_string() == reason.meaning()));
}

#[test]
fn buffers() {
    let lengths = Lengths::from([10, 11, 12, 13]);
    for (number, buffer) in (0..).zip(Buffer::ALL) {
        assert_eq!(buffer.number(), number);
        assert_eq!(lengths.of(buffer), 10 + u64::from(number));
    }
    assert_eq!(<[u64; 4]>::from(lengths), [10, 11, 12, 13]);
}

#[test]
fn shown() {
    let p11 = two_columns(3, 32, 0);
    let bytes = "needed: source 896, reconstructed 896, forward 896, backward 0 bytes";
    let windows = "touched: source 0..896, reconstructed 0..896, forward reference 512..896, backward reference none";
    assert_eq!(check(&p11, Lengths::LONGEST).to_string(), format!("accepted; {bytes}; {windows}"));
    let short = check(&p11, Lengths { forward: 895, ..Lengths::LONGEST });
    assert_eq!(short.to_string(), format!("refused 13, buffer 2: a picture buffer is too short; {bytes}; {windows}"));
    let log = decode(&p11, Lengths::LONGEST, &mut []);
    assert_eq!(log.to_string(), format!("refused 14, 48 needed: the lent room is too small; {bytes}; {windows}"));
    let refusal = |reason, place| Refusal { reason, place };
    let refused = Report::Refused(refusal(Reason::WrongPosition, 29));
    assert_eq!(refused.to_string(), "refused 6 at word 29: a macroblock is not at its position");
    let run_out = refusal(Reason::WordsRunOut, 36).to_string();
    assert_eq!(run_out, "refused 1 after 36 words: the words run out in a command or before END");
    let error: &dyn std::error::Error = &refusal(Reason::RecordNotLegal, 7);
    assert_eq!(error.to_string(), "refused 15 at byte 7: a record is not legal");
}
