//! Cases for the check of a whole batch and for its decoding, one after another:
//!
//!     0..4    how many words
//!     4..36   the four buffers' lengths, 8 bytes each
//!     36..40  0 for the check; one more than how many bytes of log are lent for decoding
//!     40..    the words, 4 bytes each
//!
//! all of it little-endian. The cases for the check come first.

use crate::batch_damage::damage;
use crate::batch_document::document;
use crate::batch_faults::faults;
use crate::batch_rules::rule_table;
use crate::check::{check, line, Report};
use crate::command::header;
use crate::decode_cases;
use crate::field_cases::fields;
use crate::first_cases::firsts;
use crate::tile_cases::tiles;
use crate::valid_cases::valid;
use std::collections::{BTreeSet, HashSet};
use std::path::Path;

pub struct Case {
    pub words: Vec<u32>,
    pub buffers: [u64; 4],
    pub report: Report,
}

impl Case {
    /// The case as it is stored, with what stands in 36..40.
    pub fn bytes(&self, lent: u32) -> Vec<u8> {
        let mut bytes = (self.words.len() as u32).to_le_bytes().to_vec();
        bytes.extend(self.buffers.iter().flat_map(|length| length.to_le_bytes()));
        bytes.extend(lent.to_le_bytes());
        bytes.extend(self.words.iter().flat_map(|word| word.to_le_bytes()));
        bytes
    }
}

/// A list without duplicates.
#[derive(Default)]
pub struct Cases {
    list: Vec<Case>,
    seen: HashSet<(Vec<u32>, [u64; 4])>,
}

impl Cases {
    pub fn push(&mut self, words: Vec<u32>, buffers: [u64; 4]) -> Report {
        let report = check(&words, buffers);
        if self.seen.insert((words.clone(), buffers)) {
            self.list.push(Case { words, buffers, report });
        }
        report
    }
}

/// The lengths that a batch needs.
pub fn needed(words: &[u32]) -> [u64; 4] {
    check(words, [u64::MAX; 4]).lengths
}

/// The cases that these generators make.
pub fn made_by(generators: &[fn(&mut Cases)]) -> Vec<Case> {
    let mut cases = Cases::default();
    generators.iter().for_each(|generator| generator(&mut cases));
    cases.list
}

fn cases() -> Vec<Case> {
    made_by(&[document, rule_table, valid, tiles, firsts, fields, damage, faults])
}

pub fn write(dir: &Path) -> std::io::Result<()> {
    let (checked, decoded) = (cases(), decode_cases::cases());
    let lines = checked.iter().map(|case| line(&case.report) + "\n").chain(decoded.iter().map(decode_cases::Case::line));
    let bytes = checked.iter().map(|case| case.bytes(0)).chain(decoded.iter().map(decode_cases::Case::bytes));
    crate::store(dir, bytes.flatten().collect(), lines.collect())
}

/// The command and the word of it that a place stands in, or none past END.
pub fn command_at(words: &[u32], place: usize) -> Option<(&'static str, usize)> {
    let mut at = 0;
    loop {
        let (name, count) = header(words[at]).unwrap_or(("unknown", 1));
        if place < at + count {
            return Some((name, place - at));
        }
        at += count;
        if name == "END" {
            return None;
        }
    }
}

/// Numbers 2 to 11 at each word where one can stand.
pub fn places_due() -> BTreeSet<(u8, &'static str, usize)> {
    let mut due = BTreeSet::from([(2, "unknown", 0)]);
    due.extend(["SURFACE", "PICTURE", "SLICEGROUP", "MACROBLOCK", "carried", "END"].map(|name| (3, name, 0)));
    due.extend([1, 2, 3, 4].map(|word| (4, "SURFACE", word)));
    due.extend([(4, "PICTURE", 1), (5, "SURFACE", 3), (5, "PICTURE", 2), (5, "PICTURE", 3)]);
    due.extend([1, 3, 4].map(|word| (4, "MACROBLOCK", word)));
    due.extend([1, 3, 4].map(|word| (5, "MACROBLOCK", word)));
    due.extend([(6, 2), (7, 4), (8, 5), (8, 6), (8, 7), (8, 8)].map(|(number, word)| (number, "MACROBLOCK", word)));
    due.extend([(9, 5), (9, 6), (10, 5), (10, 6), (11, 1)].map(|(number, word)| (number, "MACROBLOCK", word)));
    // the bottom field's vector
    due.extend([(9, 7), (10, 7)].map(|(number, word)| (number, "MACROBLOCK", word)));
    due
}

#[cfg(test)]
mod tests {
    use super::*;
    use crate::batch_rules::table;

    #[test]
    fn every_number_at_every_place() {
        let cases = cases();
        let numbers: BTreeSet<u8> = cases.iter().map(|case| case.report.number).collect();
        assert!(numbers.into_iter().eq(0..=13));
        let of = |range: std::ops::RangeInclusive<u8>| cases.iter().filter(move |case| range.contains(&case.report.number));
        let found = of(2..=11).map(|case| {
            let (name, word) = command_at(&case.words, case.report.place as usize).unwrap();
            (case.report.number, name, word)
        });
        assert_eq!(found.collect::<BTreeSet<_>>(), places_due());
        assert!(of(0..=0).all(|case| case.report.place == 0));
        assert!(of(1..=1).all(|case| case.report.place == case.words.len() as u64));
        assert!(of(12..=12).all(|case| command_at(&case.words, case.report.place as usize).is_none()));
        assert!(of(13..=13).map(|case| case.report.place).collect::<BTreeSet<_>>().into_iter().eq(0..4));
    }

    /// Every named rule gives its number and place, and the table alone has each number at each place.
    #[test]
    fn named_rules() {
        let mut places = BTreeSet::new();
        let mut numbers = BTreeSet::new();
        for named in table() {
            let report = check(&named.words, named.buffers);
            assert_eq!((report.number, report.place as usize), named.due, "{}", named.name);
            numbers.insert(report.number);
            if (2..=11).contains(&report.number) {
                let (name, word) = command_at(&named.words, named.due.1).unwrap();
                places.insert((report.number, name, word));
            }
        }
        assert_eq!(places, places_due());
        assert!(numbers.into_iter().eq(0..=13));
    }

    /// Demand 3, and "the four lengths are reported with 0, 13 and 14, else zeros", and the first bytes "whenever the lengths
    /// are". A window has a byte: the first is below the length, unless both are 0.
    #[test]
    fn windows() {
        for case in cases() {
            let Report { number, place, lengths, firsts } = case.report;
            let short = (0..4).find(|n| case.buffers[*n] < lengths[*n]);
            assert_eq!(short, (number == 13).then_some(place as usize));
            assert!(matches!(number, 0 | 13) || case.report.reported() == [0; 8]);
            assert!((0..4).all(|n| firsts[n] < lengths[n] || (firsts[n], lengths[n]) == (0, 0)));
            for buffers in [[0; 4], [u64::MAX; 4]] {
                let other = check(&case.words, buffers);
                assert_eq!(other.reported(), case.report.reported());
                assert!(matches!(number, 0 | 13) || other == case.report);
            }
        }
    }

    #[test]
    fn form_of_the_cases() {
        let cases = cases();
        let bytes: usize = cases.iter().map(|case| case.bytes(0).len()).sum();
        assert!(bytes < 1_010_000, "{bytes}");
        assert!(cases.iter().all(|case| case.words.len() <= 2000));
        let one = &cases[0].bytes(0);
        assert_eq!(one.len(), 40 + 4 * 37);
        assert_eq!(one[..12], [37, 0, 0, 0, 0x80, 0x01, 0, 0, 0, 0, 0, 0]);
        assert_eq!(one[36..44], [0, 0, 0, 0, 0x04, 0, 0x01, 0x70]);
    }
}
