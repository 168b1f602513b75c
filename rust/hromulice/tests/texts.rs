//! The texts are those of tests/c/texts.txt, to which tests/c/run holds the texts of hromulice_text.h.

use hromulice::{meaning, Buffer, Reason, Side};

#[test]
fn same_as_in_c() {
    let file = concat!(env!("CARGO_MANIFEST_DIR"), "/../../tests/c/texts.txt");
    let mut lines = Vec::new();
    for number in 0..=255 {
        lines.extend(meaning(number).map(|text| format!("{number} {text}")));
    }
    lines.extend(Buffer::ALL.iter().map(|buffer| format!("buffer {} {buffer}", buffer.number())));
    lines.extend(Side::ALL.iter().map(|side| format!("side {} {side}", side.number())));
    let stored = std::fs::read_to_string(file).unwrap();
    assert_eq!(lines, stored.lines().collect::<Vec<_>>());
}

/// 0 and 16 are no reasons; every reason has its text.
#[test]
fn reasons() {
    for number in 0..=255 {
        let reason = Reason::from_number(number);
        assert!(reason.is_none() || meaning(number) == reason.map(Reason::meaning));
        assert_eq!(meaning(number).is_some(), reason.is_some() || [0, 16].contains(&number), "{number}");
    }
}
