//! Blocks of which it matters which sample is the lowest, the first of luma or the first of Cb. In a picture that keeps the
//! rules it is luma's; so most of these have C < 16H, or a pitch that no batch has.

use crate::leaf::Block;
use crate::random::Random;
use crate::tile_blocks::{at, random_place};

/// About the C at which the first luma row and the first chroma row are one: 8Y for a vector of zero. Chroma halves towards
/// zero, so that with a component of −1, −5 and so on the first chroma sample is another than by floor.
fn chroma_about_luma() -> impl Iterator<Item = Block> {
    let vectors = [(0, 0), (0, -1), (-1, 0), (-1, -1), (0, -5), (2, -3), (-3, 2), (3, 1), (1, 5), (-5, -2)];
    let sizes = [(128, 0), (128, 7), (256, 8), (384, 9), (128, 16)];
    sizes.into_iter().flat_map(move |(pitch, chroma_row)| vectors.map(|vector| at((pitch, chroma_row, 3, 3), (1, 1), vector)))
}

/// Chroma begins in an earlier row than luma, and with x = −1 in a later strip. So it is lower in an earlier tile row, and
/// higher in the same one.
fn strip_or_row() -> impl Iterator<Item = Block> {
    let places = [(0, 1), (5, 1), (0, 2), (0, 3), (7, 3), (8, 3), (0, 5), (23, 5), (24, 5)];
    let each = places.into_iter().flat_map(|place| [(1, -1), (8, -1), (8, 0)].map(|column| (place, column)));
    each.map(|((chroma_row, row), (column, x))| at((256, chroma_row, 9, 6), (column, row), (x, -1)))
}

/// About the ends of strips, tiles and tile rows.
fn borders() -> impl Iterator<Item = Block> {
    let size = (384, 96, 18, 6);
    let columns = [-34, -33, -32, -31, -2, -1, 0, 1, 2, 30, 31, 32].map(|x| at(size, (8, 1), (x, 0)));
    let rows = [-34, -33, -32, -31, -2, -1, 0, 1, 30, 31, 32, 33].map(|y| at(size, (1, 3), (3, y)));
    columns.into_iter().chain(rows)
}

/// Any pitch. With less than 16 bytes a later tile row may begin at a lower byte: here luma and chroma each stay in one tile
/// row, so that the first sample of each is its lowest.
fn pitches() -> impl Iterator<Item = Block> {
    let each = [0, 1, 15, 16, 17, 100, u32::MAX].into_iter().flat_map(|pitch| [0, 8, 16, 36, 40].map(|row| (pitch, row)));
    each.flat_map(|(pitch, chroma_row)| [(1, -1), (0, 3)].map(|(row, y)| at((pitch, chroma_row, 4, 2), (1, row), (-y, y))))
}

/// Any C below 16H.
fn random(r: &mut Random) -> Block {
    let (columns, rows) = (r.within(1, 20) as u16, r.within(2, 9) as u16);
    let size = (128 * r.within(1, 3) as u32, r.within(0, 16 * i64::from(rows) - 1) as u16, columns, rows);
    random_place(r, size)
}

pub fn first_blocks() -> Vec<Block> {
    let mut r = Random::new(4);
    let listed = chroma_about_luma().chain(strip_or_row()).chain(borders()).chain(pitches());
    listed.chain((0..60).map(|_| random(&mut r))).collect()
}

#[cfg(test)]
mod tests {
    use super::*;
    use crate::leaf::byte_at;
    use crate::reached::{Touched, CB_LOWEST, LOWEST_MARKS};

    /// Every block is inside its picture, each mark that one block can have comes up, and luma has the lowest byte as well as
    /// Cb.
    #[test]
    fn every_mark() {
        let mut seen = LOWEST_MARKS.map(|_| 0);
        let mut planes = [0; 2];
        for b in first_blocks() {
            assert!(b.inside());
            let mut touched = Touched::default();
            touched.add(0, &b);
            let marks = touched.marks();
            (0..LOWEST_MARKS.len()).for_each(|n| seen[n] += u32::from(marks.contains(&LOWEST_MARKS[n])));
            planes[usize::from(marks.contains(&CB_LOWEST))] += 1;
        }
        assert!(seen.iter().all(|count| *count >= 5) && planes.iter().all(|count| *count >= 40), "{seen:?} {planes:?}");
    }

    /// Column and row of the first sample of luma and of Cb, with a component halved in this way for chroma.
    fn first_samples(b: &Block, halved: fn(i64) -> i64) -> [(u64, u64); 2] {
        let [x, y] = [b.word as u16 as i16, (b.word >> 16) as u16 as i16].map(i64::from);
        let first = |size: i64, place: u16, v: i64| (size * i64::from(place) + v.div_euclid(2)) as u64;
        let chroma = (first(8, b.column, halved(x)), first(8, b.row, halved(y)));
        [(first(16, b.column, x), first(16, b.row, y)), (2 * chroma.0, u64::from(b.chroma_row) + chroma.1)]
    }

    /// The lower of the two first samples is the lowest of all. "Errors that look right" give another byte for some of the
    /// blocks: luma alone, Cb alone, chroma halved by floor, plain rows.
    #[test]
    fn by_first_samples() {
        let mut differ = [0; 4];
        for b in first_blocks() {
            let bytes = |halved: fn(i64) -> i64| first_samples(&b, halved).map(|(column, row)| byte_at(b.pitch, column, row));
            let ([luma, cb], [_, floored]) = (bytes(|v| v / 2), bytes(|v| v.div_euclid(2)));
            let due = b.window().unwrap().first;
            assert_eq!(luma.min(cb), due);
            let plain = first_samples(&b, |v| v / 2).map(|(column, row)| row * u64::from(b.pitch) + column);
            let wrong = [luma, cb, luma.min(floored), plain[0].min(plain[1])];
            (0..4).for_each(|n| differ[n] += u32::from(wrong[n] != due));
        }
        assert!(differ.iter().all(|count| *count >= 12), "{differ:?}");
    }
}
