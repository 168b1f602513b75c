//! One record written alone. "A record is legal if such a command gives it": the command is searched for, by reading
//! commands alone, and no rule is stated here on what a record's bytes may hold.

use crate::command::{record_of, Answer, Command, Field, Record, FLAGS, INTRA, MACROBLOCK, PATTERN, QUANTISER, SKIP, TYPE};
use crate::leaf::with_bits;
use std::collections::BTreeMap;
use std::sync::OnceLock;

/// The bytes that hold fields with a rule, vectors apart: kind, skip, pattern, quantiser, flags. Column, row, word 1's
/// upper half and the two sizes are free, and a candidate takes them from the record.
const JUDGED: [usize; 5] = [6, 7, 8, 11, 12];

fn judged(r: &Record) -> [u8; 5] {
    JUDGED.map(|byte| r[byte])
}

/// Every value of a word in which nothing but these fields differs from zero.
fn values(fields: &[Field]) -> Vec<u32> {
    fields.iter().fold(vec![0], |words, f| {
        let all = 0..1u32 << (f.hi - f.lo + 1);
        let one = |word| all.clone().map(move |value| with_bits(word, f.hi, f.lo, value));
        words.into_iter().flat_map(one).collect()
    })
}

/// Words 1, 3 and 4 of each command that is accepted, by the judged bytes of its record. Commands that use bit 15 or type 04h are
/// left out: until R-7 the record of such a one is that of another (`recordable`).
struct Catalogue(BTreeMap<[u8; 5], [u32; 3]>);

impl Catalogue {
    /// Reads every command over intra bit, type, skip, pattern, quantiser and flags, with zeros in the rest.
    fn new() -> Catalogue {
        let mut found = BTreeMap::new();
        let (words_3, words_4) = (values(&[PATTERN]), values(&[&FLAGS[..], &[QUANTISER]].concat()));
        for word_1 in values(&[INTRA, TYPE, SKIP]) {
            for &word_3 in &words_3 {
                for &word_4 in &words_4 {
                    if let Ok(r) = record_of(&[MACROBLOCK, word_1, 0, word_3, word_4, 0, 0, 0, 0]) {
                        let before = found.insert(judged(&r), [word_1, word_3, word_4]);
                        assert_eq!(before, None, "two commands give {r:?}");
                    }
                }
            }
        }
        Catalogue(found)
    }

    fn get() -> &'static Catalogue {
        static ONCE: OnceLock<Catalogue> = OnceLock::new();
        ONCE.get_or_init(Catalogue::new)
    }

    /// The words of a command that agrees with these bytes in as many of them, from the first on, as any command does.
    fn nearest(&self, bytes: [u8; 5]) -> [u32; 3] {
        let agreeing = |n: usize| {
            let mut least = [0; 5];
            least[..n].copy_from_slice(&bytes[..n]);
            self.0.range(least..).next().filter(|(found, _)| found[..n] == bytes[..n]).map(|(_, words)| *words)
        };
        (0..=5).rev().find_map(agreeing).unwrap()
    }
}

/// Commands one of which agrees with the record in as many bytes, from the first on, as any command does. A vector's word
/// is zero or one of the record's two: in each kind of macroblock these are the words that can agree.
fn candidates(r: &Record) -> Vec<Command> {
    let half = |at: usize| u32::from(u16::from_le_bytes([r[at], r[at + 1]]));
    let word = |at: usize| half(at) | half(at + 2) << 16;
    let [mut word_1, mut word_3, word_4] = Catalogue::get().nearest(judged(r));
    word_1 |= half(4) << 16;
    word_3 |= u32::from(r[9]) << 24 | u32::from(r[10]) << 16;
    let vectors = [0, word(16), word(20)];
    let pick = |n: usize| vectors[n % 3];
    (0..81).map(|n| [MACROBLOCK, word_1, word(0), word_3, word_4, pick(n), pick(n / 3), pick(n / 9), pick(n / 27)]).collect()
}

/// The command that gives this record, or the "first bad byte": the lowest with which no command's record agrees so far.
pub fn command_of(r: &Record) -> Result<Command, usize> {
    let mut furthest = 0;
    let mut found = None;
    for c in candidates(r) {
        let Ok(given) = record_of(&c) else { continue };
        let agreement = given.iter().zip(r).take_while(|(a, b)| a == b).count();
        furthest = furthest.max(agreement);
        if agreement == 24 {
            assert!(found.is_none_or(|before| before == c), "two commands give {r:?}");
            found = Some(c);
        }
    }
    found.ok_or(furthest)
}

/// One record written alone, its command put into the lent words. "A length other than 24 gets 15 at byte 0"; "14 follows
/// all these."
pub fn write_alone(bytes: &[u8], lent: &mut [u32]) -> Answer {
    let Ok(r) = Record::try_from(bytes) else { return (15, 0) };
    match command_of(&r) {
        Err(byte) => (15, byte),
        Ok(_) if lent.len() < 9 => (14, 9),
        Ok(c) => {
            assert_eq!(record_of(&c), Ok(r));
            lent[..9].copy_from_slice(&c);
            (0, 0)
        }
    }
}

#[cfg(test)]
mod tests {
    use super::*;
    use crate::command::{kind, recordable, DCT_TYPE};
    use crate::command_cases::{distinct, random_command, skipped};
    use crate::random::Random;

    /// What document 01 says of a record, byte by byte, written out by hand: the first byte that breaks a rule.
    fn first_bad_byte(r: &Record) -> Option<usize> {
        let (intra, skip, forward, backward) = (r[6] == 0, r[7] == 1, r[6] == 1 || r[6] == 3, r[6] == 2 || r[6] == 3);
        let mut rules = vec![
            (6, r[6] <= 3),
            (7, r[7] <= 1),
            (7, !(intra && skip)),
            (8, r[8] <= 63),
            (8, !intra || r[8] == 63),
            (8, !skip || r[8] == 0),
            (11, (1..=31).contains(&r[11])),
            (12, r[12] <= 63),
            (12, !skip || r[12] & 3 == 0),
        ];
        rules.extend((13..16).map(|byte| (byte, r[byte] == 0)));
        rules.extend((16..20).map(|byte| (byte, forward || r[byte] == 0)));
        rules.extend((20..24).map(|byte| (byte, backward || r[byte] == 0)));
        rules.into_iter().filter(|rule| !rule.1).map(|rule| rule.0).min()
    }

    /// Bytes near the ends of what each may hold, so that records are legal up to any byte.
    fn random_record(r: &mut Random) -> Record {
        let mut record = record_of(&random_command(r)).unwrap();
        for _ in 0..r.within(0, 4) {
            let byte = r.within(0, 23) as usize;
            let near = [0, 1, 2, 3, 4, 31, 32, 62, 63, 64, 128, 255, r.next() as u8];
            record[byte] = near[r.within(0, 12) as usize];
        }
        record
    }

    #[test]
    fn document_01() {
        let p1 = [0x7349_0007, 0x0000_3a00, 0, 0xfc0, 0xc500_0001, 0, 0, 0, 0];
        let mut record = [0; 24];
        record[8..13].copy_from_slice(&[0x3f, 0, 0, 1, 0x0f]);
        let mut lent = [0xeeee_eeee; 10];
        assert_eq!(write_alone(&record, &mut lent), (0, 0));
        assert_eq!((&lent[..9], lent[9]), (&p1[..], 0xeeee_eeee));
        assert_eq!(write_alone(&record, &mut lent[..8]), (14, 9));
        assert_eq!(write_alone(&record[..23], &mut []), (15, 0));
    }

    /// "Clashes are placed at byte 7 (skipped intra), 8 (pattern), 12 (skip with a slice end)."
    #[test]
    fn clashes() {
        let with = |c: Command, byte: usize, value: u8| {
            let mut r = record_of(&c).unwrap();
            r[byte] = value;
            command_of(&r)
        };
        assert_eq!(with(distinct(0), 7, 1), Err(7));
        for pattern in 0..63 {
            assert_eq!(with(distinct(0), 8, pattern), Err(8));
        }
        for kind in 1..4 {
            assert_eq!(with(skipped(kind), 6, 0), Err(7));
            for pattern in 1..64 {
                assert_eq!(with(skipped(kind), 8, pattern), Err(8));
            }
            for flags in 0..64 {
                assert_eq!(with(skipped(kind), 12, flags).err(), (flags % 4 != 0).then_some(12));
            }
        }
    }

    #[test]
    fn hand_written_rules_agree() {
        let mut r = Random::new(7);
        let mut seen = std::collections::BTreeSet::new();
        for _ in 0..20_000 {
            let record = random_record(&mut r);
            let bad = first_bad_byte(&record);
            assert_eq!(command_of(&record).err(), bad, "{record:?}");
            seen.insert(bad);
        }
        let free = [0, 1, 2, 3, 4, 5, 9, 10];
        let places = (0..24).filter(|byte| !free.contains(byte)).map(Some);
        assert!(seen.into_iter().eq([None].into_iter().chain(places)));
    }

    /// No command of the whole catalogue agrees further with a record than the first bad byte that the search found.
    #[test]
    fn no_command_agrees_further() {
        let mut r = Random::new(8);
        for _ in 0..4 {
            let record = random_record(&mut r);
            let due = command_of(&record).err().unwrap_or(24);
            let agreement = |given: [u8; 5]| given.iter().zip(judged(&record)).take_while(|(a, b)| **a == *b).count();
            let furthest = Catalogue::get().0.keys().map(|given| agreement(*given)).max().unwrap();
            assert_eq!(furthest, JUDGED.iter().filter(|byte| **byte < due).count(), "{record:?}");
        }
    }

    /// A command that uses bit 15 or type 04h has the record of another, which doesn't: so no record is legal that was not.
    #[test]
    fn round_trips() {
        let mut r = Random::new(9);
        let mut seen = [0; 2];
        for _ in 0..5_000 {
            let c = random_command(&mut r);
            let record = record_of(&c).unwrap();
            assert_eq!(command_of(&record), Ok(recordable(&c)));
            let uses = DCT_TYPE.of(&c) == 1 || kind(&c) == Some(4);
            assert_eq!(uses, recordable(&c) != c);
            seen[usize::from(uses)] += 1;
            let other = random_record(&mut r);
            if let Ok(command) = command_of(&other) {
                assert_eq!(record_of(&command), Ok(other));
                assert_eq!(recordable(&command), command);
            }
        }
        assert!(seen.iter().all(|count| *count > 1000), "{seen:?}");
    }
}
