//! Cases of valid batches with PICTURE bit 10 = 0: macroblocks predicted by fields, alone and beside others, and dct types in all
//! types of picture.

use crate::batch::{moved, moved_fields, rows, small_f, Batch, Frame};
use crate::batch_cases::Cases;
use crate::batch_valid::{random_batch, random_frame};
use crate::leaf::word_of;
use crate::random::Random;
use crate::valid_cases::both_ways;

/// A vector and the field that is chosen for it.
type Vector = (i64, i64, u32);

/// W, H, pitch, C, and the macroblocks predicted by fields: each one's number k, the top field's vector and the bottom's. The
/// others are intra.
pub type Reference = (u32, u32, u32, u32, &'static [(usize, Vector, Vector)]);

/// One vector has the first byte and the other the last, with each choice for each.
const CHOICES: [Reference; 8] = [
    (2, 2, 128, 32, &[(2, (1, -3, 0), (2, 0, 0))]),
    (2, 2, 128, 32, &[(2, (1, -3, 0), (2, 0, 1))]),
    (2, 2, 128, 32, &[(2, (1, -3, 1), (2, 0, 0))]),
    (2, 2, 128, 32, &[(2, (1, -3, 1), (2, 0, 1))]),
    (2, 2, 128, 32, &[(2, (2, 0, 0), (1, -3, 0))]),
    (2, 2, 128, 32, &[(2, (2, 0, 0), (1, -3, 1))]),
    (2, 2, 128, 32, &[(2, (2, 0, 1), (1, -3, 0))]),
    (2, 2, 128, 32, &[(2, (2, 0, 1), (1, -3, 1))]),
];

/// One macroblock: first and last rows, strips, tiles and tile rows; luma or chroma has the highest byte.
const ONE_BLOCK: [Reference; 16] = [
    (1, 1, 128, 16, &[(0, (0, 0, 0), (0, 0, 0))]),
    (1, 1, 128, 16, &[(0, (0, 0, 1), (0, 0, 1))]),
    (2, 1, 128, 16, &[(0, (1, 0, 0), (0, 0, 0))]),
    (2, 1, 128, 16, &[(0, (0, 0, 1), (1, 0, 1))]),
    (2, 1, 128, 25, &[(0, (1, 0, 1), (2, 0, 0))]),
    (9, 1, 256, 16, &[(8, (-1, 0, 1), (-32, 0, 1))]),
    (1, 2, 128, 33, &[(0, (0, 16, 0), (0, 15, 1))]),
    (1, 2, 128, 40, &[(1, (0, -16, 1), (0, -16, 1))]),
    (1, 3, 256, 48, &[(1, (0, 16, 1), (0, 16, 1))]),
    (1, 3, 128, 51, &[(2, (0, -1, 0), (0, -5, 1))]),
    (2, 3, 384, 64, &[(4, (7, -31, 1), (0, -32, 0))]),
    (1, 3, 131072, 32767, &[(1, (0, 13, 1), (0, -13, 0))]),
    (9, 1, 256, 20, &[(7, (0, 0, 1), (-1, 0, 0))]),
    (9, 2, 384, 32, &[(16, (0, -16, 0), (0, -13, 1))]),
    (9, 1, 256, 16, &[(8, (0, 0, 1), (0, 0, 1))]),
    (10, 2, 384, 41, &[(8, (0, 2, 0), (31, 1, 1))]),
];

/// Several macroblocks. In the last four one block is further to the right, another further down, in the next tile row.
const SEVERAL_BLOCKS: [Reference; 8] = [
    (3, 1, 128, 16, &[(0, (5, 0, 1), (3, 0, 1)), (1, (3, 0, 1), (0, 0, 1)), (2, (-61, 0, 1), (0, 0, 0))]),
    (2, 3, 256, 48, &[(0, (0, 9, 1), (0, 7, 1)), (2, (0, -14, 1), (0, -16, 1)), (5, (0, 0, 0), (0, 0, 1))]),
    (2, 2, 128, 32, &[(1, (-30, 0, 0), (-32, 1, 1)), (2, (2, -16, 0), (3, -15, 1))]),
    (1, 4, 128, 64, &[(0, (0, 40, 1), (0, 48, 0)), (2, (0, 3, 1), (0, -3, 0)), (3, (0, -48, 1), (0, -47, 1))]),
    (2, 2, 128, 56, &[(1, (0, 0, 1), (-1, 0, 0)), (2, (0, 0, 0), (0, -1, 1))]),
    (9, 2, 256, 56, &[(8, (0, 3, 1), (-3, 0, 0)), (9, (1, 0, 0), (2, -7, 0))]),
    (2, 3, 256, 48, &[(1, (0, 0, 1), (0, 5, 0)), (4, (1, 0, 0), (0, 0, 1))]),
    (3, 3, 128, 48, &[(2, (-30, 7, 1), (-2, 6, 1)), (6, (2, 0, 1), (9, 0, 0))]),
];

pub fn predicted(&(columns, lines, pitch, chroma_row, blocks): &Reference) -> Batch {
    let frame = Frame { pitch, chroma_row, codes: [5, 5, 15, 15], ..Frame::with_fields(2, columns, lines) };
    let mut all = vec![moved(0, 0, 0); frame.macroblocks()];
    for &(k, top, bottom) in blocks {
        let [top, bottom] = [top, bottom].map(|(x, y, choice)| (word_of(x, y), choice));
        all[k] = moved_fields(top, bottom);
    }
    rows(&frame, &all)
}

/// Any batch of this type with PICTURE bit 10 = 0.
fn random(r: &mut Random, sort: u32, columns: u32, lines: u32, code: Option<u32>) -> Batch {
    let mut frame = Frame { fields: true, ..random_frame(r, sort, columns, lines) };
    frame.codes = frame.codes.map(|before| if before == 15 { 15 } else { code.unwrap_or(before) });
    random_batch(r, &frame, 0, 0)
}

/// Every f code, shapes up to three by four, and a tall picture.
fn shapes(cases: &mut Cases) {
    let mut r = Random::new(24);
    for code in 1..10 {
        both_ways(cases, &random(&mut r, 2, 3, 3, Some(code)), (code % 3 == 0).then_some(2));
    }
    for n in 0..8 {
        both_ways(cases, &random(&mut r, 2, n % 3 + 1, n / 2 + 1, None), (n % 2 == 0).then_some(2));
    }
    both_ways(cases, &random(&mut r, 2, 1, 120, Some(9)), None);
    for (sort, n) in [(1, 0), (3, 2), (3, 3), (1, 1)] {
        both_ways(cases, &random(&mut r, sort, 2, 2, None), Some(n));
    }
}

pub fn fields(cases: &mut Cases) {
    for reference in CHOICES.iter().chain(&ONE_BLOCK).chain(&SEVERAL_BLOCKS) {
        both_ways(cases, &predicted(reference), Some(2));
    }
    (0..3).for_each(|buffer| both_ways(cases, &small_f(), Some(buffer)));
    shapes(cases);
}

#[cfg(test)]
mod tests {
    use super::*;
    use crate::batch_cases::made_by;
    use crate::check::check;
    use crate::reached::{count, FIELD_MARKS, LOWEST_BY, LOWEST_MARKS, MARKS};

    fn window(reference: &Reference) -> (u64, u64) {
        let report = check(&predicted(reference).words(), [u64::MAX; 4]);
        assert_eq!((report.number, report.lengths[3]), (0, 0));
        (report.firsts[2], report.lengths[2])
    }

    /// By hand, from document 02. The macroblock is at X = 0, Y = 1, C is 32.
    ///
    /// (1, −3): luma has columns 0 to 16 and field rows 6 to 14, chroma bytes 0 to 15 and field rows 3 to 7. From the top field
    /// it begins in row 12, at byte 12·16 = 192, from the bottom field in row 13, at 208.
    ///
    /// (2, 0): luma has columns 1 to 16 and field rows 8 to 15, chroma bytes 0 to 17 and field rows 4 to 7. The last byte is
    /// Cr's at column 17, from the top field in row 32 + 14: 32·128 + 512 + 14·16 + 1 = 4833; from the bottom field in row 32 +
    /// 15: 4849.
    ///
    /// The first begins earlier (the second at 16·16 + 1 = 257 or 273), and ends earlier, at column 15, row 47: 4351.
    #[test]
    fn choices_by_hand() {
        let due = [(192, 4834), (192, 4850), (208, 4834), (208, 4850), (192, 4834), (208, 4834), (192, 4850), (208, 4850)];
        assert_eq!(CHOICES.each_ref().map(window), due);
    }

    /// By hand: both blocks of an unmoved macroblock touch rows 0 to 14 and 16 to 22 from the top field, 1 to 15 and 17 to 23
    /// from the bottom one. With x = 1 the last byte is luma's at column 16, row 14 or 15: 512 + 224 and 512 + 240; with C = 25
    /// it is Cr's at column 17, row 25 + 6 of x = 2: 512 + 31·16 + 1, but row 25 + 7 = 32 of x = 1 lies in the next tile row:
    /// 32·128 + 15. x = −1 from column 128 begins at 127, row 1: 3584 + 16 + 15, but x = −32 at column 112: 3584 + 16; it ends
    /// at Cr's column 143, row 23 in the second tile: 4096 + 23·16 + 15.
    #[test]
    fn blocks_by_hand() {
        let due = [(0, 368), (16, 384), (0, 737), (16, 753), (1, 4112), (3600, 4480)];
        assert!(ONE_BLOCK.iter().map(window).take(6).eq(due), "{:?}", ONE_BLOCK.each_ref().map(window));
    }

    /// With PICTURE bit 10 = 0 every mark of the forward reference is reached by fields too.
    #[test]
    fn every_mark() {
        let seen = count(made_by(&[fields]).into_iter().map(|case| case.words));
        for mark in FIELD_MARKS.iter().chain(&MARKS).chain(&LOWEST_MARKS).chain(&LOWEST_BY) {
            assert!(seen.get(&(2, *mark)).is_some_and(|count| *count >= 3), "{mark}: {seen:?}");
        }
        assert!((0..4)
            .filter(|buffer| *buffer != 2)
            .all(|buffer| FIELD_MARKS.iter().all(|mark| !seen.contains_key(&(buffer, *mark)))));
    }
}
