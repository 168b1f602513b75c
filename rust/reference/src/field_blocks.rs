//! Blocks of a field: "a 16-column, 8-row field block starting from field row 8Y, inside 8H field rows".

use crate::leaf::{Block, Structure};
use crate::leaf_cases::block;
use crate::random::Random;
use crate::tile_blocks::Size;

const FIELDS: [Structure; 2] = [Structure::Top, Structure::Bottom];

/// A block of this field.
fn of(structure: Structure, block: Block) -> Block {
    Block { structure, ..block }
}

/// The block in each field.
fn both(size: Size, place: (u16, u16), codes: (u8, u8), vector: (i64, i64)) -> [Block; 2] {
    FIELDS.map(|structure| of(structure, block(size, place, codes, vector)))
}

/// Surface, place, vector and field; the length and the first byte due.
type ByHand = (Size, (u16, u16), (i64, i64), Structure, u64, u64);

/// Worked by hand from document 02, with the arithmetic in the test below.
const BY_HAND: [ByHand; 8] = [
    ((128, 16, 2, 1), (0, 0), (0, 0), Structure::Top, 368, 0),
    ((128, 16, 2, 1), (0, 0), (0, 0), Structure::Bottom, 384, 16),
    ((128, 16, 2, 1), (0, 0), (1, 0), Structure::Top, 737, 0),
    ((128, 16, 2, 1), (0, 0), (2, 0), Structure::Bottom, 882, 17),
    ((128, 32, 2, 2), (0, 1), (1, -3), Structure::Bottom, 4352, 208),
    ((128, 33, 2, 2), (1, 1), (-1, -1), Structure::Top, 4864, 239),
    ((256, 48, 9, 3), (8, 2), (-5, -17), Structure::Top, 12782, 3821),
    ((131072, 32767, 1, 175), (0, 0), (0, 2047), Structure::Bottom, 4_429_185_136, 264_241_648),
];

fn by_hand() -> impl Iterator<Item = Block> {
    BY_HAND.into_iter().map(|(size, place, vector, structure, ..)| of(structure, block(size, place, (9, 9), vector)))
}

/// Components at and next to these ends, as far as sixteen bits hold them.
fn about(ends: &[i64]) -> Vec<i64> {
    let mut all: Vec<i64> = ends.iter().flat_map(|end| end - 2..=end + 2).filter(|v| (-32768..=32767).contains(v)).collect();
    all.sort();
    all.dedup();
    all
}

/// "−16·2^(c−1) to 16·2^(c−1)−1": the first of these numbers, the end of the range, one of the second.
fn limit(least: i64, code: u8) -> i64 {
    (1..code).fold(least, |limit, _| 2 * limit)
}

/// The ends of what fits a field's rows: in the picture, in half the f code's range, and in the whole, which is a frame's.
fn rows(place: u16, n: u16, code: u8) -> Vec<i64> {
    let (place, n, half, whole) = (i64::from(place), i64::from(n), limit(8, code), limit(16, code));
    about(&[-16 * place, 16 * (n - 1 - place), -half, half - 1, -whole, whole - 1, 0])
}

/// The same of its columns, which are the frame's.
fn columns(place: u16, n: u16, code: u8) -> Vec<i64> {
    let (place, n, whole) = (i64::from(place), i64::from(n), limit(16, code));
    about(&[-32 * place, 32 * (n - 1 - place), -whole, whole - 1, 0])
}

/// Small pictures: every row and every column at its limits, with near and far f codes.
fn small() -> Vec<Block> {
    let mut all = Vec::new();
    for (size, code) in [((128, 16, 1, 1), 1), ((128, 37, 2, 2), 1), ((256, 48, 1, 3), 2)] {
        let (_, _, wide, high) = size;
        for row in 0..high {
            all.extend(rows(row, high, code).into_iter().flat_map(|y| both(size, (0, row), (3, code), (0, y))));
        }
        for column in 0..wide {
            all.extend(columns(column, wide, code).into_iter().flat_map(|x| both(size, (column, high - 1), (code, 3), (x, 0))));
        }
    }
    all
}

/// 1088 rows, and the largest picture there is: both ends of a line of macroblocks, and its middle.
fn large() -> Vec<Block> {
    let mut all = Vec::new();
    for size in [(2048, 1088, 120, 68), (131072, 32767, 256, 175)] {
        let (first, last, middle) = ((0, 0), (size.2 - 1, size.3 - 1), (size.2 / 2, size.3 / 2));
        for place in [first, last, middle] {
            for (n, y) in rows(place.1, size.3, 9).into_iter().enumerate() {
                all.push(of(FIELDS[n % 2], block(size, place, (9, 9), ([0, -3, 5][n % 3], y))));
            }
        }
        for place in [first, last] {
            for (n, x) in columns(place.0, size.2, 9).into_iter().enumerate() {
                all.push(of(FIELDS[n % 2], block(size, place, (9, 9), (x, [0, 0, 1, -1][n / 2 % 4]))));
            }
        }
    }
    all
}

/// Every y modulo 8 on both sides of 0: odd and even first rows of luma and of chroma, 8 rows and 9, 4 and 5; chroma in luma's
/// tile row and in the next, and, with a C below 16H, before luma.
fn first_rows() -> Vec<Block> {
    let sizes = [(128, 48, 2, 3), (128, 51, 2, 3), (256, 9, 2, 3), (384, 56, 2, 3)];
    let each = sizes.into_iter().flat_map(|size| (-9..=8).map(move |y: i64| (size, y)));
    each.flat_map(|(size, y)| both(size, (0, 1), (3, 3), (y.rem_euclid(3), y))).collect()
}

/// C from 16H on in one row of macroblocks: with x = 1 luma alone comes to the next strip. And with a C below 16H, where chroma
/// begins in an earlier row than luma, and with x = −1 in a later strip.
fn strips() -> Vec<Block> {
    let beside = (16..=26).flat_map(|chroma_row| both((128, chroma_row, 2, 1), (0, 0), (9, 9), (1, 0)));
    let places = [(0, 1), (5, 1), (0, 2), (0, 3), (7, 3), (0, 5), (23, 5)];
    let each = places.into_iter().flat_map(|place| [1, 8].map(|column| (place, column)));
    let before = each.flat_map(|((chroma_row, row), column)| both((256, chroma_row, 9, 6), (column, row), (9, 9), (-1, -1)));
    beside.chain(before).collect()
}

/// About the ends of strips, of a tile and of tile rows.
fn borders() -> Vec<Block> {
    let size = (256, 96, 9, 6);
    let in_columns = [31, 32, 33, 34, 224, 225, 226, 255, 256].into_iter().flat_map(|x| both(size, (0, 1), (9, 9), (x, 1)));
    let in_rows = [-1, 0, 1, 2, 15, 16, 17, 18, 47, 48].into_iter().flat_map(|y| both(size, (1, 2), (9, 9), (3, y)));
    let far = (32755..=32762).flat_map(|chroma_row| both((131072, chroma_row, 1, 1), (0, 0), (9, 9), (0, 0)));
    in_columns.chain(in_rows).chain(far).collect()
}

/// Any place, with vectors about what is inside; and places and sizes that no batch has.
fn random() -> Vec<Block> {
    let mut r = Random::new(6);
    let mut all = Vec::new();
    for n in 0..150 {
        let (wide, high) = if n % 2 == 0 { (r.within(1, 20), r.within(1, 9)) } else { (r.within(1, 256), r.within(1, 175)) };
        let size = (128 * r.within(1, 1024) as u32, r.within(0, 32767) as u16, wide as u16, high as u16);
        let (column, row) = (r.within(0, wide - 1), r.within(0, high - 1));
        let vector =
            (r.within(-32 * column - 3, 32 * (wide - 1 - column) + 3), r.within(-16 * row - 3, 16 * (high - 1 - row) + 3));
        let codes = (r.within(1, 9) as u8, r.within(1, 9) as u8);
        all.push(of(FIELDS[n / 2 % 2], block(size, (column as u16, row as u16), codes, vector)));
    }
    for n in 0..40 {
        let size = (r.next() as u32 | 16, r.next() as u16, r.next() as u16, r.next() as u16);
        let (place, codes) = ((r.next() as u16, r.next() as u16), (r.within(1, 9) as u8, r.within(1, 9) as u8));
        let vector = (r.within(-32768, 32767), r.within(-32768, 32767));
        all.push(of(FIELDS[n % 2], block(size, place, codes, vector)));
    }
    all
}

pub fn field_blocks() -> Vec<Block> {
    by_hand().chain([small(), large(), first_rows(), strips(), borders(), random()].concat()).collect()
}

#[cfg(test)]
mod tests {
    use super::*;
    use crate::leaf::Window;
    use crate::reached::{Touched, CB_LOWEST, FIELD_MARKS, LOWEST_MARKS, MARKS};

    /// By hand, from document 02: a byte at column b, row r is at (r div 32)·32·pitch + (b div 128)·4096 + (b mod 128 div
    /// 16)·512 + (r mod 32)·16 + b mod 16; the row is twice the field row, one more in the bottom field, and C more in chroma.
    ///
    /// 1, 2. Luma has field rows 0 to 7 and chroma 0 to 3. Top: rows 0 to 14, C + 0 to C + 6 = 22; the last byte is Cr's at
    ///    column 15, row 22: 22·16 + 15 = 367. Bottom: rows 1 to 15, 17 to 23: from 16 to 23·16 + 15 = 383.
    /// 3. x = 1 is 17 columns of luma, and 0 in chroma. The last byte is luma's at column 16, row 14: 512 + 14·16 = 736.
    /// 4. x = 2: luma has columns 1 to 16; in chroma 1 is 9 columns from 0, bytes 0 to 17. From column 1, row 1: 16 + 1 = 17,
    ///    to Cr at column 17, row 23: 512 + 23·16 + 1 = 881.
    /// 5. y = −3: luma from 8 − 2 = 6, 9 rows to 14, that is rows 13 to 29; in chroma −1, from 4 − 1 = 3, 5 rows to 7, rows
    ///    39 to 32 + 15 = 47. From luma at column 0, row 13: 208, to Cr at column 15, row 47: 32·128 + 15·16 + 15 = 4351.
    /// 6. y = −1: luma from 8 − 1 = 7 to 15, rows 14 to 30, columns 15 to 31; in chroma 0 and 0: field rows 4 to 7, rows 33 + 8
    ///    to 33 + 14 = 47, bytes 16 to 31. From column 15, row 14: 14·16 + 15 = 239, to column 31, row 47:
    ///    32·128 + 512 + 15·16 + 15 = 4863.
    /// 7. x = −5: luma from 128 − 3 = 125 to 141; in chroma −2, from 64 − 1 = 63 to 70, bytes 126 to 141. y = −17: luma from
    ///    16 − 9 = 7 to 15, rows 14 to 30; in chroma −8, from 8 − 4 = 4 to 7, rows 56 to 62. From luma at column 125 = 7·16 + 13,
    ///    row 14: 7·512 + 14·16 + 13 = 3821, to Cr at column 141 = 128 + 13, row 62 = 32 + 30: 32·256 + 4096 + 30·16 + 13 =
    ///    12781.
    /// 8. y = 2047 is the end of f code 9's half range: luma from 1023 to 1031, rows 2047 to 2063; in chroma 1023, from 511 to
    ///    515, rows to 32767 + 1031 = 33798 = 32·1056 + 6. From column 0, row 2047 = 32·63 + 31: 63·32·131072 + 31·16 =
    ///    264241648, to Cr at column 15: 1056·32·131072 + 6·16 + 15 = 4429185135.
    #[test]
    fn worked() {
        for (block, (.., length, first)) in by_hand().zip(BY_HAND) {
            assert!(block.in_range());
            assert_eq!(block.window(), Some(Window { first, last: length - 1 }), "{:08x}", block.word);
        }
    }

    /// Both fields in range and beyond, inside and outside, and each mark that one block can have comes up, in those that keep
    /// C ≥ 16H and in others; Cb has the lowest byte in some.
    #[test]
    fn every_mark() {
        let mut sorts = [0; 8];
        let marks: Vec<&str> = [&MARKS[..], &LOWEST_MARKS, &FIELD_MARKS, &[CB_LOWEST]].concat();
        let mut seen = vec![0; marks.len()];
        for b in field_blocks() {
            let bottom = usize::from(b.structure == Structure::Bottom);
            sorts[4 * bottom + 2 * usize::from(b.in_range()) + usize::from(b.inside())] += 1;
            if b.inside() {
                let mut touched = Touched::default();
                touched.add(0, &b);
                let found = touched.marks();
                (0..marks.len()).for_each(|n| seen[n] += u32::from(found.contains(&marks[n])));
            }
        }
        assert!(sorts.iter().all(|count| *count >= 20) && seen.iter().all(|count| *count >= 5), "{sorts:?} {seen:?}");
    }

    /// With whole samples in luma and in chroma, the blocks of both fields are the frame's block whose y is twice theirs: the top
    /// field has its even rows, the bottom field its odd ones.
    #[test]
    fn fields_of_a_frame() {
        let samples = |b: &Block| {
            let mut all: Vec<(u64, u64, u8)> = Vec::new();
            b.each_sample(|plane, column, row| all.push((column, row, plane as u8)));
            all.sort();
            all
        };
        let size = (256, 64, 4, 4);
        for (x, y) in [(0, 0), (3, 0), (-5, 2), (8, -4), (1, 6), (2, -14)] {
            let frame = block(size, (1, 2), (9, 9), (x, 4 * y));
            let fields = both(size, (1, 2), (9, 9), (x, 2 * y));
            let mut together = fields.iter().flat_map(samples).collect::<Vec<_>>();
            together.sort();
            assert_eq!(samples(&frame), together, "{x} {y}");
            let odd = |b: &Block| samples(b).iter().map(|sample| sample.1 % 2).sum::<u64>();
            assert_eq!((odd(&fields[0]), odd(&fields[1])), (0, samples(&fields[1]).len() as u64));
        }
    }
}
