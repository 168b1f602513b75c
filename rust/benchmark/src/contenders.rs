//! What is timed, each behind a call that is not inlined, and their answers held against each other.

use crate::batch_check;
use hromulice::{Check, Lengths};
use reference::check::Report;
use reference::plain;
use std::hint::black_box;

/// What the calls work on: batches, one after the other, and a log that is long enough for any one's records.
pub struct Work {
    pub batches: Vec<Vec<u32>>,
    pub log: Vec<u8>,
}

impl Work {
    /// One batch, of a picture of so many macroblocks.
    pub fn one(words: Vec<u32>, macroblocks: u32) -> Work {
        Work { batches: vec![words], log: vec![0; 24 * macroblocks as usize] }
    }

    pub fn words(&self) -> usize {
        self.batches.iter().map(Vec::len).sum()
    }

    /// Has every batch taken by a contender.
    pub fn run(&mut self, contender: &Contender) {
        for words in &self.batches {
            black_box((contender.call)(black_box(words), &mut self.log));
        }
    }

    /// Fails unless every batch is accepted by all of CONTENDERS and by these, with the same lengths and first bytes.
    pub fn agree(&mut self, others: &[Contender]) {
        for words in &self.batches {
            let due = (CONTENDERS[PLAIN].call)(words, &mut self.log);
            assert_eq!(due[0], 0, "the batch is refused");
            for contender in CONTENDERS.iter().chain(others).filter(|contender| contender.name != CONTENDERS[SUM].name) {
                assert_eq!((contender.call)(words, &mut self.log), due, "{} and plain", contender.name);
            }
        }
    }
}

/// Number, place, the four lengths and the four first bytes, or a sum in their place.
pub type Figures = [u64; 10];

#[derive(Clone, Copy)]
pub struct Contender {
    pub name: &'static str,
    pub call: fn(&[u32], &mut [u8]) -> Figures,
}

/// By their place in CONTENDERS.
pub const SUM: usize = 0;
pub const C: usize = 1;
pub const PLAIN: usize = 2;
pub const CHECK: usize = 3;
pub const PARTS: usize = 4;
pub const DECODE: usize = 5;

/// The parts of `parts` have 64 KiB.
pub const CONTENDERS: [Contender; 6] = [
    Contender { name: "sum", call: sum },
    Contender { name: "c", call: c },
    Contender { name: "plain", call: plain_check },
    Contender { name: "check", call: check },
    Contender { name: "parts", call: parts::<16384> },
    Contender { name: "decode", call: decode },
];

fn figures(number: u8, place: u64, [l0, l1, l2, l3]: [u64; 4], [f0, f1, f2, f3]: [u64; 4]) -> Figures {
    [number.into(), place, l0, l1, l2, l3, f0, f1, f2, f3]
}

#[inline(never)]
fn sum(words: &[u32], _: &mut [u8]) -> Figures {
    [words.iter().fold(0, |sum: u64, word| sum.wrapping_add((*word).into())), 0, 0, 0, 0, 0, 0, 0, 0, 0]
}

#[inline(never)]
fn c(words: &[u32], _: &mut [u8]) -> Figures {
    let Report { number, place, lengths, firsts } = batch_check::check(words, [u64::MAX; 4]);
    figures(number, place, lengths, firsts)
}

#[inline(never)]
fn plain_check(words: &[u32], _: &mut [u8]) -> Figures {
    let (number, place, lengths, firsts) = plain::check(words, [u64::MAX; 4]);
    figures(number, place, lengths, firsts)
}

fn proved(report: hromulice::Report) -> Figures {
    let (lengths, firsts) = report.reported().map_or((Lengths::NONE, Lengths::NONE), |all| (all.lengths, all.firsts));
    figures(report.number(), report.place(), lengths.into(), firsts.into())
}

#[inline(never)]
fn check(words: &[u32], _: &mut [u8]) -> Figures {
    proved(hromulice::check(words, Lengths::LONGEST))
}

/// In parts of so many words.
#[inline(never)]
pub fn parts<const WORDS: usize>(words: &[u32], _: &mut [u8]) -> Figures {
    let mut check = Check::new(Lengths::LONGEST);
    for part in words.chunks(WORDS) {
        check.hand_over(part);
    }
    proved(check.report())
}

#[inline(never)]
fn decode(words: &[u32], log: &mut [u8]) -> Figures {
    proved(hromulice::decode(words, Lengths::LONGEST, log))
}
