//! Cases of valid batches in which it matters how the bytes of a tile follow each other: which sample is the highest.

use crate::batch::{moved, rows, still, Batch, Frame};
use crate::batch_cases::Cases;
use crate::leaf::word_of;
use crate::valid_cases::both_ways;

/// W, H, pitch, C, and the predicted macroblocks: each one's number k and its vector. The others are intra.
pub type Reference = (u32, u32, u32, u32, &'static [(usize, i64, i64)]);

/// Luma and chroma in one tile row. A vector of 1, 33 and so on takes luma alone to the next strip, which is higher than all
/// chroma, unless chroma comes to the next tile row.
const ONE_TILE_ROW: [Reference; 14] = [
    (2, 1, 128, 16, &[(0, 1, 0)]),
    (2, 1, 128, 19, &[(0, 1, 0)]),
    (2, 1, 256, 24, &[(0, 1, 0)]),
    (2, 1, 128, 25, &[(0, 1, 0)]),
    (2, 1, 128, 24, &[(0, 2, 0)]),
    (3, 1, 131072, 16, &[(0, 33, 0)]),
    (3, 1, 384, 20, &[(0, 16, 0), (1, 1, 0)]),
    (3, 1, 128, 16, &[(2, -31, 0)]),
    (2, 3, 128, 48, &[(2, 1, 1)]),
    (2, 3, 256, 48, &[(0, 1, 33)]),
    (2, 3, 128, 49, &[(2, 1, 1)]),
    (2, 3, 128, 48, &[(2, 0, 1)]),
    (2, 3, 128, 48, &[(2, 1, 0)]),
    (2, 3, 128, 48, &[(2, 1, 2)]),
];

/// Bytes on both sides of column 128, where the second tile begins.
const TWO_TILES: [Reference; 8] = [
    (9, 1, 256, 20, &[(7, 0, 0)]),
    (9, 1, 256, 20, &[(7, 1, 0)]),
    (9, 1, 384, 24, &[(7, 1, 0)]),
    (9, 1, 131072, 25, &[(7, 1, 0)]),
    (9, 1, 256, 16, &[(7, 2, 0)]),
    (9, 1, 256, 16, &[(8, -32, 0)]),
    (9, 1, 256, 16, &[(8, -31, 0)]),
    (9, 1, 256, 16, &[(0, 225, 0)]),
];

/// One predicted block further to the right, another further down: in one tile row the strip decides, else the tile row.
const TWO_BLOCKS: [Reference; 7] = [
    (2, 2, 128, 32, &[(1, 0, 0), (2, 0, 0)]),
    (2, 2, 128, 56, &[(1, 0, 0), (2, 0, 0)]),
    (3, 4, 128, 64, &[(2, 0, 0), (9, 0, 0)]),
    (3, 4, 256, 65, &[(2, 0, 0), (9, 0, 0)]),
    (3, 4, 131072, 64, &[(2, -32, 0), (9, 1, 0)]),
    (9, 2, 256, 48, &[(8, 0, 0), (9, 0, 0)]),
    (9, 2, 256, 56, &[(8, 0, 0), (9, 0, 0)]),
];

/// Forward in a P picture, or backward in a B picture.
pub fn predicted(sort: u32, &(columns, lines, pitch, chroma_row, blocks): &Reference) -> Batch {
    let frame =
        Frame { pitch, chroma_row, codes: [[5, 5, 15, 15], [5; 4]][sort as usize - 2], ..Frame::new(sort, columns, lines) };
    let mut all = vec![moved(0, 0, 0); frame.macroblocks()];
    for &(k, x, y) in blocks {
        all[k] = moved(sort - 1, word_of(x, y), word_of(x, y));
    }
    rows(&frame, &all)
}

/// One macroblock, its chroma rows before, about and behind the end of a tile row.
fn own(cases: &mut Cases) {
    for pitch in [128, 256, 384, 131072] {
        for chroma_row in [24, 25, 31, 32, 57] {
            both_ways(cases, &still(&Frame { pitch, chroma_row, ..Frame::new(1, 1, 1) }), Some(0));
        }
    }
    // row 32767 is the last below 2^32 bytes
    for chroma_row in [32760, 32761] {
        both_ways(cases, &still(&Frame { pitch: 131072, chroma_row, ..Frame::new(1, 1, 1) }), Some(1));
    }
    both_ways(cases, &still(&Frame::new(1, 8, 1)), Some(0));
    both_ways(cases, &still(&Frame { chroma_row: 25, ..Frame::new(1, 9, 1) }), Some(1));
}

pub fn tiles(cases: &mut Cases) {
    for reference in ONE_TILE_ROW.iter().chain(&TWO_TILES).chain(&TWO_BLOCKS) {
        for sort in [2, 3] {
            both_ways(cases, &predicted(sort, reference), Some(sort as usize));
        }
    }
    own(cases);
}

#[cfg(test)]
mod tests {
    use super::*;
    use crate::batch_cases::{made_by, needed};
    use crate::reached::{count, MARKS};

    /// By hand, from document 02's formula: (b div 16)·512 + (r mod 32)·16 + b mod 16 in the first tile, and so on.
    #[test]
    fn by_hand() {
        let forward = |reference: &Reference| needed(&predicted(2, reference).words())[2];
        // luma at column 16, row 15
        assert_eq!(forward(&ONE_TILE_ROW[2]), 512 + 15 * 16 + 1);
        // Cr at column 15, row 32
        assert_eq!(forward(&ONE_TILE_ROW[3]), 32 * 128 + 16);
        // luma at column 16, row 32, and no chroma below row 63 but in the first strip
        assert_eq!(forward(&ONE_TILE_ROW[8]), 32 * 128 + 512 + 1);
        assert_eq!(forward(&ONE_TILE_ROW[11]), 32 * 128 + 31 * 16 + 16);
        // luma at column 128, row 15
        assert_eq!(forward(&TWO_TILES[1]), 4096 + 15 * 16 + 1);
        // Cr at column 31, row 39, in the same tile row as row 47; then at column 15, row 71
        assert_eq!(forward(&TWO_BLOCKS[0]), 32 * 128 + 512 + 7 * 16 + 16);
        assert_eq!(forward(&TWO_BLOCKS[1]), 2 * 32 * 128 + 7 * 16 + 16);
    }

    /// All that tiles bring about is reached in both references.
    #[test]
    fn every_mark() {
        let seen = count(made_by(&[tiles]).into_iter().map(|case| case.words));
        for (buffer, mark) in [2, 3].into_iter().flat_map(|buffer| MARKS.map(|mark| (buffer, mark))) {
            assert!(seen.get(&(buffer, mark)).is_some_and(|count| *count >= 4), "{buffer}, {mark}: {seen:?}");
        }
    }
}
