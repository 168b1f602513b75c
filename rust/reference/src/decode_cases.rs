//! Cases for the decoding of a whole batch, stored behind those for the check. Before decoding, byte i of the lent log is
//! (37·i + 11) mod 256, which is not stored. The line due is the report, for 14 as for 13, a space, and the
//! whole lent log afterwards in hexadecimal, `-` if it has no byte.

use crate::batch_cases::Case as Batch;
use crate::check::{line, Report};
use crate::decode::{decode, log_bytes};
use crate::decode_fields::fields;
use crate::decode_refused::refused;
use crate::decode_valid::{document, valid};
use std::collections::HashSet;

/// The lent log before.
fn lent(room: usize) -> Vec<u8> {
    (0..room).map(|i| ((37 * i + 11) % 256) as u8).collect()
}

pub struct Case {
    /// Words, buffers and the report of decoding.
    batch: Batch,
    /// The lent log afterwards.
    log: Vec<u8>,
}

impl Case {
    pub fn bytes(&self) -> Vec<u8> {
        self.batch.bytes(self.log.len() as u32 + 1)
    }

    pub fn line(&self) -> String {
        let hex: String = self.log.iter().map(|byte| format!("{byte:02x}")).collect();
        format!("{} {}\n", line(&self.batch.report), if hex.is_empty() { "-" } else { &hex })
    }
}

/// A list without duplicates.
#[derive(Default)]
pub struct Cases {
    list: Vec<Case>,
    seen: HashSet<(Vec<u32>, [u64; 4], usize)>,
}

impl Cases {
    pub fn push(&mut self, words: &[u32], buffers: [u64; 4], room: usize) -> Report {
        let mut log = lent(room);
        let report = decode(words, buffers, &mut log);
        if self.seen.insert((words.into(), buffers, room)) {
            self.list.push(Case { batch: Batch { words: words.into(), buffers, report }, log });
        }
        report
    }

    /// A batch that keeps every rule, with room exactly enough, a byte too few, longer, and none.
    pub fn four_rooms(&mut self, words: &[u32], buffers: [u64; 4], more: usize) {
        let due = log_bytes(words).unwrap();
        for (room, number) in [(due, 0), (due - 1, 14), (due + more, 0), (0, 14)] {
            assert_eq!(self.push(words, buffers, room).number, number);
        }
    }
}

pub fn cases() -> Vec<Case> {
    let mut cases = Cases::default();
    document(&mut cases);
    valid(&mut cases);
    fields(&mut cases);
    refused(&mut cases);
    cases.list
}

#[cfg(test)]
mod tests {
    use super::*;
    use crate::check::check;
    use crate::command::{header, recordable, Record, MACROBLOCK};
    use crate::decode::commands;
    use crate::record::command_of;
    use std::collections::BTreeSet;

    fn number(case: &Case) -> u8 {
        case.batch.report.number
    }

    fn accepted(cases: &[Case]) -> impl Iterator<Item = &Case> {
        cases.iter().filter(|case| number(case) == 0)
    }

    fn due(case: &Case) -> usize {
        log_bytes(&case.batch.words).unwrap()
    }

    /// The records of an accepted log.
    fn records(case: &Case) -> Vec<Record> {
        case.log[..due(case)].chunks(24).map(|record| record.try_into().unwrap()).collect()
    }

    /// Whether a whole macroblock comes before the fault and the room is long enough.
    fn tempting(case: &Case) -> bool {
        let before = &case.batch.words[..case.batch.report.place as usize];
        commands(before).iter().any(|command| command.0 == "MACROBLOCK") && due(case) <= case.log.len()
    }

    /// 0 to 14, and each refusal with room enough and without.
    #[test]
    fn every_number() {
        let cases = cases();
        assert!(cases.iter().map(number).collect::<BTreeSet<_>>().into_iter().eq(0..=14));
        let of = |n: u8, test: fn(&Case) -> bool| cases.iter().filter(|case| number(case) == n).any(test);
        for n in 1..=12 {
            assert!(of(n, |case| case.log.is_empty()), "{n}");
            assert!(of(n, tempting), "{n}");
        }
        for n in [13, 14] {
            assert!(of(n, |case| case.log.is_empty()));
            assert!(of(n, |case| case.log.len() + 1 == due(case)));
        }
        assert!([0, 13].iter().all(|n| of(*n, |case| case.log.len() == due(case))));
    }

    /// 14 exactly where the check accepts and the room is too small, with all that the check reports; else the check's
    /// own answer. So 13 comes before 14.
    #[test]
    fn the_check_and_the_room() {
        for case in cases() {
            let Batch { words, buffers, report } = case.batch;
            let checked = check(&words, buffers);
            match log_bytes(&words).filter(|due| checked.number == 0 && case.log.len() < *due) {
                Some(due) => assert_eq!(report, Report { number: 14, place: due as u64, ..checked }),
                None => assert_eq!(report, checked),
            }
        }
    }

    /// "No refusal writes into lent memory", and "bytes beyond stay".
    #[test]
    fn what_stays() {
        assert_eq!(lent(8), [11, 48, 85, 122, 159, 196, 233, 14]);
        let mut longer = 0;
        for case in cases() {
            let from = if number(&case) == 0 { due(&case) } else { 0 };
            assert_eq!(case.log[from..], lent(case.log.len())[from..]);
            longer += u32::from(from != 0 && from < case.log.len());
        }
        assert!(longer > 100);
    }

    /// The k-th record, written alone, gives the k-th MACROBLOCK command, found here by headers alone, or what is recorded in its
    /// place; no two records of a batch are equal, since their positions differ.
    #[test]
    fn records_give_their_commands() {
        for case in accepted(&cases()) {
            let (mut words, mut macroblocks) = (&case.batch.words[..], Vec::new());
            while words[0] != 0x0500_0000 {
                let (command, rest) = words.split_at(header(words[0]).unwrap().1);
                macroblocks.extend((command[0] == MACROBLOCK).then_some(command));
                words = rest;
            }
            let records = records(case);
            assert_eq!(records.len(), macroblocks.len());
            for (record, command) in records.iter().zip(macroblocks) {
                assert_eq!(command_of(record), Ok(recordable(command.try_into().unwrap())));
            }
            assert_eq!(records.iter().collect::<HashSet<_>>().len(), records.len());
        }
    }

    /// Every value of kind, skip, pattern, quantiser and flags comes up, the ends of the free halves and bytes, and vectors of
    /// both signs. First in group needs first in slice, and last in group last in slice.
    #[test]
    fn every_value() {
        let cases = cases();
        let all: Vec<Record> = accepted(&cases).flat_map(records).collect();
        let byte = |at: usize| all.iter().map(|record| record[at]).collect::<BTreeSet<u8>>();
        assert!(byte(6).into_iter().eq(0..=3));
        assert!(byte(7).into_iter().eq(0..=1));
        assert!(byte(8).into_iter().eq(0..=63));
        assert!(byte(11).into_iter().eq(1..=31));
        let flags = (0..64).filter(|flags| (flags & 4 == 0 || flags & 1 != 0) && (flags & 8 == 0 || flags & 2 != 0));
        assert!(byte(12).into_iter().eq(flags));
        assert!([9, 10].iter().all(|at| byte(*at).contains(&0) && byte(*at).contains(&255)));
        let half = |at: usize| all.iter().map(|record| i16::from_le_bytes([record[at], record[at + 1]])).collect::<BTreeSet<_>>();
        assert!(half(4).contains(&-1) && half(4).contains(&0));
        for at in [16, 18, 20, 22] {
            let (least, most) = (*half(at).first().unwrap(), *half(at).last().unwrap());
            assert!(least <= -500 && most >= 500, "{at}: {least} to {most}");
        }
    }

    #[test]
    fn form_of_the_cases() {
        let cases = cases();
        let stdin: usize = cases.iter().map(|case| case.bytes().len()).sum();
        let stdout: usize = cases.iter().map(|case| case.line().len()).sum();
        assert!(stdin < 600_000 && stdout < 700_000, "{stdin} {stdout}");
        assert!((600..=1480).contains(&cases.len()), "{}", cases.len());
        assert!(cases.iter().all(|case| case.batch.words.len() <= 2000 && case.log.len() <= 2000));
        let one = &cases[0].bytes();
        assert_eq!(one.len(), 40 + 4 * 37);
        assert_eq!(one[..12], [37, 0, 0, 0, 0x80, 0x01, 0, 0, 0, 0, 0, 0]);
        assert_eq!(one[36..44], [25, 0, 0, 0, 0x04, 0, 0x01, 0x70]);
        assert_eq!(one[40 + 4 * 36..], [0, 0, 0, 0x05]);
        assert_eq!(cases[0].line(), "accept 384 384 0 0 0 0 0 0 00000000000000003f0000010f0000000000000000000000\n");
        assert_eq!(cases[1].line(), "refuse 14 24 384 384 0 0 0 0 0 0 -\n");
        assert_eq!(cases[2].line(), "refuse 14 24 384 384 0 0 0 0 0 0 0b\n");
    }
}
