//! Blocks about the borders of strips, tiles and tile rows, in pictures that a batch may have.

use crate::leaf::Block;
use crate::leaf_cases::block;
use crate::random::Random;

/// Pitch, C, W and H.
pub type Size = (u32, u16, u16, u16);

pub fn at(size: Size, place: (u16, u16), vector: (i64, i64)) -> Block {
    block(size, place, (9, 9), vector)
}

/// C from 16H to the next tile row: luma and chroma in one, chroma in two, chroma in the next.
fn one_row_of_macroblocks() -> impl Iterator<Item = Block> {
    (16..=33).flat_map(|chroma_row| (0..=3).map(move |x| at((128, chroma_row, 2, 1), (0, 0), (x, 0))))
}

/// About the ends of strips and of the first tile, from the left and from the right.
fn columns() -> impl Iterator<Item = Block> {
    let sizes = [(256, 16, 9, 1), (384, 25, 9, 1), (131072, 24, 9, 1)];
    let components = [31, 32, 33, 34, 223, 224, 225, 226, 255, 256];
    let each = sizes.into_iter().flat_map(move |size| components.map(|x| (size, x)));
    each.flat_map(|(size, x)| [at(size, (0, 0), (x, 0)), at(size, (8, 0), (-x, 0))])
}

/// Luma down to row 32, with chroma in the same tile row or in the next.
fn three_rows_of_macroblocks() -> impl Iterator<Item = Block> {
    let near = |chroma_row: u16| (-1..=3).flat_map(move |y| (0..3).map(move |x| at((128, chroma_row, 2, 3), (0, 1), (x, y))));
    let far = [(0, 31), (0, 32), (0, 33), (0, 34), (2, -33), (2, -32), (2, -31), (2, -30)];
    [48, 49, 56].into_iter().flat_map(near).chain(far.map(|(row, y)| at((256, 48, 2, 3), (0, row), (1, y))))
}

/// Row 32767 is the last below 2^32 bytes.
fn far_down() -> impl Iterator<Item = Block> {
    (32757..=32762).map(|chroma_row| at((131072, chroma_row, 1, 1), (0, 0), (0, 0)))
}

/// Any place, and any vector with which its block is inside.
pub fn random_place(r: &mut Random, size: Size) -> Block {
    let (_, _, columns, rows) = size;
    let mut along = |n: u16| {
        let place = r.within(0, i64::from(n) - 1);
        (place as u16, r.within(-32 * place, 32 * (i64::from(n) - 1 - place)))
    };
    let ((column, x), (row, y)) = (along(columns), along(rows));
    at(size, (column, row), (x, y))
}

fn random(r: &mut Random) -> Block {
    let (columns, rows) = (r.within(1, 20) as u16, r.within(1, 6) as u16);
    let pitch = (16 * u32::from(columns)).next_multiple_of(128) + 128 * r.within(0, 2) as u32;
    let size = (pitch, 16 * rows + r.within(0, 40) as u16, columns, rows);
    random_place(r, size)
}

pub fn tile_blocks() -> Vec<Block> {
    let mut r = Random::new(3);
    let listed = one_row_of_macroblocks().chain(columns()).chain(three_rows_of_macroblocks()).chain(far_down());
    listed.chain((0..120).map(|_| random(&mut r))).collect()
}

#[cfg(test)]
mod tests {
    use super::*;
    use crate::reached::{Touched, MARKS};

    /// Every block is inside a picture that keeps the rules, and each mark that one block can have comes up.
    #[test]
    fn every_mark() {
        let mut seen = MARKS.map(|_| 0);
        for b in tile_blocks() {
            assert!(b.pitch >= 16 * u32::from(b.columns) && b.chroma_row >= 16 * b.rows && b.window().is_some());
            let mut touched = Touched::default();
            touched.add(0, &b);
            let marks = touched.marks();
            (0..MARKS.len()).for_each(|n| seen[n] += u32::from(marks.contains(&MARKS[n])));
        }
        assert!(seen.iter().all(|count| *count >= 5), "{seen:?}");
    }
}
