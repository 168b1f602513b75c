//! Batches for the tests.
#![allow(dead_code)]

use hromulice::{example, Lengths, Report};

/// "P1, whole, 37 words in hex", beside its buffers.
pub const P1: [u32; 37] = example::ONE_MACROBLOCK;
pub const P1_LENGTHS: Lengths = Lengths { source: 384, reconstructed: 384, forward: 0, backward: 0 };
pub const P1_ACCEPTED: Told = (0, 0, Some([[384, 384, 0, 0], [0; 4]]));

/// Number, place and, where they are reported, the four lengths and the four first bytes: all that a report tells.
pub type Told = (u8, u64, Option<[[u64; 4]; 2]>);

pub fn told(report: Report) -> Told {
    let reported = report.reported().map(|reported| [reported.lengths.into(), reported.firsts.into()]);
    (report.number(), report.place(), reported)
}

/// P1 with one word changed.
pub fn p1_with(place: usize, word: u32) -> Vec<u32> {
    let mut words = P1.to_vec();
    words[place] = word;
    words
}

pub fn vector(x: i16, y: i16) -> u32 {
    u32::from(y as u16) << 16 | u32::from(x as u16)
}

/// "W 2, H 1, pitch 128, C 16, P picture, [...] column 0 forward, column 1 intra". The first macroblock begins at word 27.
pub fn two_columns(f_code: u32, x: i16, y: i16) -> Vec<u32> {
    let v = vector(x, y);
    let mut words = vec![0x7001_0004, 0, 15 << 18 | 31 << 4, 0x4800_0003 | 127 << 3, 16, 0];
    words.extend([0x7300_000b, 0xff00_3400 | f_code << 20 | f_code << 16, 2 << 9, 1, 0, 0, 0, 0, 0, 0, 0, 0, 0]);
    words.extend([0x7343_0006, 0, 0, 0, 0, 0, 0, 0]);
    words.extend([0x7349_0007, 0x100, 0, 0, 0x4100_0001, v, v, v, v]);
    words.extend([0x7349_0007, 0x3a00, 1, 0xfc0, 0x8400_0001, 0, 0, 0, 0]);
    words.push(0x0500_0000);
    words
}

/// A batch, its buffers, and what is due.
pub struct Case {
    pub name: &'static str,
    pub words: Vec<u32>,
    pub lengths: [u64; 4],
    pub due: Told,
}

fn case(name: &'static str, words: Vec<u32>, lengths: [u64; 4], due: Told) -> Case {
    Case { name, words, lengths, due }
}

/// "Cases (marked ones P)": P1 to P13 with document 02's lengths and first bytes, those with a length also beside one byte
/// less. The forward reference is touched from column floor(x/2), row 0 on.
pub fn document_01() -> Vec<Case> {
    let one = [384, 384, 0, 0];
    let mut cases = vec![
        case("P1", P1.to_vec(), one, P1_ACCEPTED),
        case("P2", P1.to_vec(), [384, 383, 0, 0], (13, 1, P1_ACCEPTED.2)),
        case("P3", vec![], one, (1, 0, None)),
        case("P4", P1[..36].to_vec(), one, (1, 36, None)),
        case("P5", vec![0x0500_0000], one, (3, 0, None)),
        case("P6", p1_with(32, 1), one, (8, 32, None)),
        case("P7", p1_with(31, 0xc500_0000), one, (5, 31, None)),
    ];
    let accepted =
        [("P8", 3, 0, 384, 0), ("P9", 3, 1, 753, 0), ("P10", 3, 2, 882, 1), ("P11", 3, 32, 896, 512), ("P13", 1, 15, 888, 7)];
    for (name, f_code, x, length, first) in accepted {
        let (words, needed) = (two_columns(f_code, x, 0), [896, 896, length, 0]);
        let reported = Some([needed, [0, 0, first, 0]]);
        cases.push(case(name, words.clone(), needed, (0, 0, reported)));
        cases.push(case(name, words, [896, 896, length - 1, 0], (13, 2, reported)));
    }
    for (name, f_code, x, y, number) in [("P12", 3, 33, 0, 10), ("P12", 3, -1, 0, 10), ("P12", 3, 0, 1, 10), ("P13", 1, 16, 0, 9)]
    {
        cases.push(case(name, two_columns(f_code, x, y), [u64::MAX; 4], (number, 32, None)));
    }
    cases
}
