//! Decoding of a whole batch to a log of records, as document 01 tells it: the check, then the room, then the records.

use crate::check::{check, Report};
use crate::check_picture::{picture, surface};
use crate::command::{header, record_of};

/// The commands of a batch before END, each with its name; they end sooner at an unknown header or where words run out.
pub fn commands(words: &[u32]) -> Vec<(&'static str, &[u32])> {
    let mut all = Vec::new();
    let mut at = 0;
    while let Some((name, count)) = words.get(at).and_then(|word| header(*word)) {
        let Some(command) = words.get(at..at + count).filter(|_| name != "END") else { break };
        all.push((name, command));
        at += count;
    }
    all
}

/// "Decoding needs 24·W·H bytes". None if the state commands do not come.
pub fn log_bytes(words: &[u32]) -> Option<usize> {
    let all = commands(words);
    let first = |name: &str| all.iter().find(|command| command.0 == name).map(|command| command.1);
    let p = picture(&surface(first("SURFACE")?), first("PICTURE")?);
    Some(24 * (p.columns * p.rows) as usize)
}

/// The log of a batch that keeps every rule: each record "at its own 24-byte place of the lent log, the k-th macroblock's at
/// the k-th place, both from 0".
fn log(words: &[u32], bytes: usize) -> Vec<u8> {
    let mut log = vec![0; bytes];
    let all = commands(words);
    let macroblocks: Vec<&[u32]> = all.iter().filter(|command| command.0 == "MACROBLOCK").map(|command| command.1).collect();
    assert_eq!(24 * macroblocks.len(), bytes);
    for (k, command) in macroblocks.iter().enumerate() {
        log[24 * k..24 * k + 24].copy_from_slice(&record_of(command).unwrap());
    }
    log
}

/// The answer to a batch of words beside buffers of these lengths, its records put into the lent log. "13 comes after the
/// whole batch, 14 last", placed at the "bytes [...] needed"; "the four lengths are reported with 0, 13 and 14", and the first
/// bytes "whenever the lengths are".
pub fn decode(words: &[u32], buffers: [u64; 4], lent: &mut [u8]) -> Report {
    decode_checked(check(words, buffers), words, lent)
}

/// The same for a batch of which the check's answer is known.
pub fn decode_checked(report: Report, words: &[u32], lent: &mut [u8]) -> Report {
    if report.number != 0 {
        return report;
    }
    let bytes = log_bytes(words).unwrap();
    if lent.len() < bytes {
        return Report { number: 14, place: bytes as u64, ..report };
    }
    // "bytes beyond stay"
    lent[..bytes].copy_from_slice(&log(words, bytes));
    report
}

#[cfg(test)]
mod tests {
    use super::*;
    use crate::batch_cases::needed;
    use crate::batch_document::p1;
    use crate::batch_valid::{random_batch, random_frame};
    use crate::check::line;
    use crate::command::{Record, MACROBLOCK};
    use crate::random::Random;

    /// "Record: 8 zero bytes, 3F 00 00 01 0F, 11 zero bytes."
    #[test]
    fn document_01() {
        let mut lent = [0xee; 26];
        assert_eq!(line(&decode(&p1(), [384, 384, 0, 0], &mut lent)), "accept 384 384 0 0 0 0 0 0");
        assert_eq!(lent[..8], [0; 8]);
        assert_eq!(lent[8..13], [0x3f, 0x00, 0x00, 0x01, 0x0f]);
        assert_eq!(lent[13..24], [0; 11]);
        assert_eq!(lent[24..], [0xee; 2]);
    }

    /// Room a byte too small, and a buffer a byte too short as well.
    #[test]
    fn thirteen_before_fourteen() {
        let mut lent = [0xee; 23];
        let mut answer = |buffers: [u64; 4]| line(&decode(&p1(), buffers, &mut lent));
        assert_eq!(answer([384, 384, 0, 0]), "refuse 14 24 384 384 0 0 0 0 0 0");
        assert_eq!(answer([384, 383, 0, 0]), "refuse 13 1 384 384 0 0 0 0 0 0");
        assert_eq!(answer([u64::MAX; 4]), "refuse 14 24 384 384 0 0 0 0 0 0");
        assert_eq!(lent, [0xee; 23]);
    }

    /// Against the commands that a batch was put together from, which no header had to be read for.
    #[test]
    fn records_in_order() {
        let mut r = Random::new(30);
        for n in 0..300 {
            let (sort, columns, rows) = (n % 3 + 1, r.within(1, 6) as u32, r.within(1, 4) as u32);
            let frame = random_frame(&mut r, sort, columns, rows);
            let batch = random_batch(&mut r, &frame, n as usize % 9, n as usize % 7);
            let words = batch.words();
            let mut lent = vec![0xee; 24 * frame.macroblocks() + 5];
            assert_eq!(decode(&words, needed(&words), &mut lent).number, 0);
            let given = batch.0.iter().filter(|command| command[0] == MACROBLOCK).map(|command| record_of(command).unwrap());
            let due: Vec<u8> = given.collect::<Vec<Record>>().concat();
            assert_eq!(lent, [&due[..], &[0xee; 5]].concat());
        }
    }

    #[test]
    fn bytes_needed() {
        assert_eq!(log_bytes(&p1()), Some(24));
        assert_eq!(log_bytes(&p1()[..19]), Some(24));
        assert_eq!(log_bytes(&p1()[..18]), None);
        assert_eq!(log_bytes(&[]), None);
        assert_eq!(log_bytes(&[&[0x0500_0000], &p1()[..]].concat()), None);
    }
}
