//! Cases of valid batches in which it matters which byte of a reference is the lowest: where it stands, and which macroblock
//! has it.

use crate::batch::{moved, rows, skip, Batch, Frame};
use crate::batch_cases::{needed, Cases};
use crate::check::check;
use crate::leaf::word_of;
use crate::tile_cases::{predicted, Reference};
use crate::valid_cases::both_ways;

/// One predicted macroblock: its first sample within a strip, at the ends of strips, of tiles and of tile rows.
const ONE_BLOCK: [Reference; 14] = [
    (2, 1, 128, 16, &[(0, 3, 0)]),
    (2, 1, 128, 16, &[(1, -1, 0)]),
    (2, 1, 128, 20, &[(1, 0, 0)]),
    (2, 2, 128, 32, &[(0, 0, 3)]),
    (2, 2, 256, 40, &[(2, 2, -1)]),
    (9, 1, 256, 16, &[(8, -1, 0)]),
    (9, 1, 384, 25, &[(8, 0, 0)]),
    (9, 1, 131072, 24, &[(7, 31, 0)]),
    (17, 1, 384, 16, &[(16, 0, 0)]),
    (1, 3, 128, 48, &[(1, 0, 31)]),
    (1, 3, 128, 48, &[(2, 0, -1)]),
    (1, 3, 256, 64, &[(1, 0, 32)]),
    (2, 3, 131072, 32767, &[(5, -2, 0)]),
    (9, 3, 256, 48, &[(26, 0, 0)]),
];

/// Several predicted macroblocks, of which the first, a later one or the last has the lowest byte, or two of them have it, or
/// each has a lower one than those before.
const SEVERAL_BLOCKS: [Reference; 10] = [
    (3, 1, 128, 16, &[(0, 5, 0), (1, 3, 0), (2, 0, 0)]),
    (3, 1, 128, 16, &[(0, 5, 0), (1, -30, 0), (2, -4, 0)]),
    (3, 1, 128, 25, &[(0, 5, 0), (1, 3, 0), (2, -61, 0)]),
    (2, 3, 256, 48, &[(0, 0, 9), (2, 0, 32), (5, 0, 0)]),
    (2, 3, 256, 48, &[(1, 0, 9), (2, 0, -30), (5, 0, 0)]),
    (2, 3, 128, 56, &[(0, 7, 64), (3, 0, 0), (5, -29, -64)]),
    (2, 2, 128, 32, &[(1, -30, 0), (2, 2, -32)]),
    (9, 1, 256, 16, &[(7, 32, 0), (8, -2, 0)]),
    (6, 1, 128, 16, &[(0, 80, 0), (1, 34, 0), (2, -12, 0), (3, -58, 0), (4, -104, 0), (5, -150, 0)]),
    (1, 6, 128, 96, &[(0, 0, 120), (1, 0, 68), (2, 0, 16), (3, 0, -36), (4, 0, -88), (5, 0, -140)]),
];

/// No macroblock is predicted.
const UNTOUCHED: Reference = (2, 2, 128, 32, &[]);

/// A macroblock of a B picture: 1 forward, 2 backward, 3 both, and its vectors.
type Motion = (u32, (i64, i64), (i64, i64));

/// Pictures of three by two in which the first bytes of the two references differ.
const TWO_REFERENCES: [[Motion; 6]; 3] = [
    [
        (3, (4, 0), (33, 0)),
        (3, (0, 0), (-31, 32)),
        (2, (0, 0), (-1, 0)),
        (1, (9, -9), (0, 0)),
        (3, (0, 0), (-32, -30)),
        (0, (0, 0), (0, 0)),
    ],
    [
        (0, (0, 0), (0, 0)),
        (1, (-2, 6), (0, 0)),
        (2, (0, 0), (-62, 32)),
        (2, (0, 0), (34, 0)),
        (0, (0, 0), (0, 0)),
        (1, (0, -32), (0, 0)),
    ],
    [
        (2, (0, 0), (2, 2)),
        (2, (0, 0), (0, 0)),
        (2, (0, 0), (0, 0)),
        (0, (0, 0), (0, 0)),
        (0, (0, 0), (0, 0)),
        (3, (0, 0), (-62, -32)),
    ],
];

fn two_references(motions: &[Motion]) -> Batch {
    let word = |(x, y): (i64, i64)| word_of(x, y);
    let all: Vec<_> = motions.iter().map(|&(kind, forward, backward)| moved(kind, word(forward), word(backward))).collect();
    rows(&Frame { codes: [5; 4], ..Frame::new(3, 3, 2) }, &all)
}

/// A skipped macroblock has the lowest byte: in P it does not move, and the one before it points further to the right.
fn skipped() -> Batch {
    rows(&Frame::new(2, 3, 1), &[moved(1, word_of(40, 0), 0), skip(1, 0, 0), moved(0, 0, 0)])
}

/// "Demand 3's length, still counted from byte 0": a buffer that is as long as the window alone is too short.
fn as_long_as_the_window(cases: &mut Cases, batch: &Batch, buffer: usize) {
    let words = batch.words();
    let mut buffers = needed(&words);
    buffers[buffer] -= check(&words, buffers).firsts[buffer];
    cases.push(words, buffers);
}

pub fn firsts(cases: &mut Cases) {
    for (n, reference) in ONE_BLOCK.iter().chain(&SEVERAL_BLOCKS).enumerate() {
        for sort in [2, 3] {
            let batch = predicted(sort, reference);
            both_ways(cases, &batch, Some(if n % 4 == 0 { 0 } else { sort as usize }));
            as_long_as_the_window(cases, &batch, sort as usize);
        }
    }
    [2, 3].into_iter().for_each(|sort| both_ways(cases, &predicted(sort, &UNTOUCHED), Some(1)));
    for batch in TWO_REFERENCES.iter().map(|motions| two_references(motions)).chain([skipped()]) {
        (0..4).for_each(|buffer| both_ways(cases, &batch, Some(buffer)));
    }
}

#[cfg(test)]
mod tests {
    use super::*;
    use crate::batch_cases::made_by;
    use crate::reached::{count, LOWEST_BY, LOWEST_MARKS};
    use crate::tile_cases::tiles;

    /// By hand, from document 02's formula: (b div 128)·4096 + (b mod 128 div 16)·512 + (r mod 32)·16 + b mod 16, and
    /// 32·pitch for a row of tiles.
    #[test]
    fn by_hand() {
        let first = |reference: &Reference| check(&predicted(2, reference).words(), [0; 4]).firsts;
        let due = [1, 15, 512, 16, 241, 3584 + 15, 4096, 3584 + 15, 8192, 496, 496, 32 * 256];
        for (reference, due) in ONE_BLOCK.iter().zip(due) {
            assert_eq!(first(reference), [0, 0, due, 0]);
        }
        assert_eq!(first(&ONE_BLOCK[12])[2], 32 * 131072 + 15);
        assert_eq!(first(&ONE_BLOCK[13])[2], 32 * 256 + 4096);
        for (reference, due) in SEVERAL_BLOCKS.iter().zip([2, 1, 1, 64, 16, 1, 1, 3584 + 15, 5, 160]) {
            assert_eq!(first(reference)[2], due);
        }
        assert_eq!(first(&UNTOUCHED), [0; 4]);
        assert_eq!(check(&skipped().words(), [0; 4]).firsts, [0, 0, 512, 0]);
        let both = TWO_REFERENCES.map(|motions| check(&two_references(&motions).words(), [0; 4]).firsts);
        assert_eq!(both, [[0, 0, 2, 16], [0, 0, 63, 256 + 1], [0, 0, 1024 + 256, 1]]);
    }

    /// With the cases on tiles every mark is reached in both references, and a reference that is not touched; 13 with first
    /// bytes that are not 0, at each buffer.
    #[test]
    fn every_mark() {
        let cases = made_by(&[tiles, firsts]);
        let seen = count(cases.iter().map(|case| case.words.clone()));
        let marks = || LOWEST_MARKS.into_iter().chain(LOWEST_BY).chain([crate::reached::UNTOUCHED]);
        for (buffer, mark) in [2, 3].into_iter().flat_map(|buffer| marks().map(move |mark| (buffer, mark))) {
            assert!(seen.get(&(buffer, mark)).is_some_and(|count| *count >= 4), "{buffer}, {mark}: {seen:?}");
        }
        for place in 0..4 {
            let refused = cases.iter().filter(|case| (case.report.number, case.report.place) == (13, place));
            assert!(refused.filter(|case| case.report.firsts != [0; 4]).count() >= 4, "{place}");
        }
    }
}
