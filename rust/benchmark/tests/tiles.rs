//! Lengths and first bytes by Y tiles: the checker in C and the plain one give the second program's where luma is the highest
//! byte, at the borders of tiles and strips, and whichever block comes first.

mod held;

use held::{field_frame, field_picture, field_spans, frame, held, picture, spans, FieldVector, Vector};
use reference::batch::Frame;
use reference::batch_valid::{inside, near_ends, pick};
use reference::check::Windows;
use reference::random::Random;

/// 1 for each reference buffer that ends at a luma sample: at an even column, as Cr, the later one of chroma, stands at odd ones.
fn in_luma(windows: Windows) -> [u32; 2] {
    [windows[2], windows[3]].map(|window| window.is_some_and(|window| window.last % 2 == 0).into())
}

fn added(a: [u32; 2], b: [u32; 2]) -> [u32; 2] {
    [a[0] + b[0], a[1] + b[1]]
}

/// Buffers 0 and 1, in low and narrow pictures, at all first chroma rows near luma and with one to three tiles in a row.
#[test]
fn own_samples() {
    for (columns, rows) in [1, 2, 7, 8, 9, 16, 17].into_iter().flat_map(|columns| (1..=5).map(move |rows| (columns, rows))) {
        for pitch in [128, 256, 384].into_iter().filter(|pitch| *pitch >= 16 * columns) {
            for chroma_row in 16 * rows..=16 * rows + 40 {
                let intra = Frame { pitch, chroma_row, ..Frame::new(1, columns, rows) };
                assert_eq!(held(&picture(&intra, &[]))[2..], [None, None]);
            }
        }
    }
}

/// In pictures of two columns every y that a macroblock may have, at all first chroma rows near luma. With x 1 luma reaches the
/// next strip and chroma does not: luma is highest where both are in one row of tiles, which one macroblock row and three allow.
#[test]
fn low_pictures() {
    let mut counts = [[0; 2]; 6];
    for (rows, chroma_row) in (1..=5).flat_map(|rows| (16 * rows..=16 * rows + 40).map(move |chroma_row| (rows, chroma_row))) {
        let frame = frame(2, rows, 128 * (chroma_row % 3 + 1), chroma_row);
        for (k, y) in (0..rows).flat_map(|row| (inside(row, rows).0..=inside(row, rows).1).map(move |y| (2 * row, y))) {
            let x = [0, 2, 5, 30, 31, 32][(i64::from(chroma_row) + y).rem_euclid(6) as usize];
            for (forward, backward) in [(1, x), (x, 1)] {
                let left = held(&picture(&frame, &[(k, (forward, y), (backward, y))]));
                counts[rows as usize] = added(counts[rows as usize], in_luma(left));
            }
            held(&picture(&frame, &[(k + 1, (x - 32, y), (-x, y))]));
        }
    }
    assert!(counts[1].iter().chain(&counts[3]).all(|count| *count > 0), "{counts:?}");
}

/// The same by fields: every y of a field, in either field of the reference, as the top field's vector and as the bottom's.
#[test]
fn low_field_pictures() {
    let mut counts = [[0; 2]; 6];
    for (rows, chroma_row) in (1..=5).flat_map(|rows| (16 * rows..=16 * rows + 40).map(move |chroma_row| (rows, chroma_row))) {
        let frame = field_frame(2, rows, 128 * (chroma_row % 3 + 1), chroma_row);
        for row in 0..rows {
            let (low, high) = field_spans(&frame, 2 * row)[1];
            for y in low..=high {
                let x = [1, 0, 1, 5, 1, 31][(i64::from(chroma_row) + y).rem_euclid(6) as usize];
                let (vector, still) = (((x, y), (chroma_row ^ y as u32) >> 1 & 1), ((0, low), 0));
                for (top, bottom) in [(vector, still), (still, vector), (vector, vector)] {
                    let left = held(&field_picture(&frame, &[(2 * row, top, bottom)]));
                    counts[rows as usize] = added(counts[rows as usize], in_luma(left));
                }
                held(&field_picture(&frame, &[(2 * row + 1, ((x - 32, y), 1), ((-x, y), 0))]));
            }
        }
    }
    assert!(counts[1][0] > 0 && counts[3][0] > 0, "{counts:?}");
}

/// Every x that a macroblock may have in a row of ten, which crosses strips and a tile, in pictures of one and three rows.
#[test]
fn columns() {
    let mut counts = [[0; 2]; 4];
    for (rows, chroma_row, down) in [(1, 16, 0), (1, 24, 0), (1, 25, 0), (3, 48, 33), (3, 48, 34), (3, 49, 33)] {
        for pitch in [256, 384] {
            let frame = frame(10, rows, pitch, chroma_row);
            for (k, x) in (0..10).flat_map(|k| (inside(k, 10).0..=inside(k, 10).1).map(move |x| (k, x))) {
                let (left, right) = inside(k, 10);
                let windows = held(&picture(&frame, &[(k, (x, down), (left + right - x, down))]));
                counts[rows as usize] = added(counts[rows as usize], in_luma(windows));
            }
        }
    }
    assert!(counts[1].iter().chain(&counts[3]).all(|count| *count > 50), "{counts:?}");
}

/// The same by fields, with the x of both vectors and of one of them, in all fields of the reference.
#[test]
fn field_columns() {
    let mut counts = [0; 4];
    for (rows, chroma_row, down) in [(1, 16, 0), (1, 24, 0), (1, 25, 0), (3, 48, 16), (3, 48, 17), (3, 49, 16)] {
        let frame = field_frame(10, rows, 256, chroma_row);
        for (k, x) in (0..10).flat_map(|k| (inside(k, 10).0..=inside(k, 10).1).map(move |x| (k, x))) {
            let (left, right) = inside(k, 10);
            for (top, bottom) in [(0, 0), (0, 1), (1, 0), (1, 1)] {
                for other in [left + right - x, x, left] {
                    let windows = held(&field_picture(&frame, &[(k, ((x, down), top), ((other, down), bottom))]));
                    counts[rows as usize] += in_luma(windows)[0];
                }
            }
        }
    }
    assert!(counts[1] > 50 && counts[3] > 50, "{counts:?}");
}

/// A block, and a later one that ends near it: in the same strip, in the next one or the one before, and as near to the border of
/// a row of tiles. Either may be the higher.
#[test]
fn one_block_after_another() {
    let mut r = Random::new(76);
    let (mut raised, mut after_luma) = ([0; 2], 0);
    for _ in 0..20_000 {
        let (columns, rows) = (r.within(1, 4) as u32, r.within(1, 6) as u32);
        let frame = frame(columns, rows, 128 * r.within(1, 3) as u32, 16 * rows + r.within(0, 40) as u32);
        let ks = [r.within(0, i64::from(columns * rows) - 1) as u32, r.within(0, i64::from(columns * rows) - 1) as u32];
        let (first, second) = (ks[0].min(ks[1]), ks[0].max(ks[1]));
        let [x, y] = spans(&frame, first).map(|(low, high)| near_ends(&mut r, low, high));
        let earlier = (first, (x, y), (x, y));
        let mut near = |n: usize, v: i64, moved: i64| {
            let (low, high) = spans(&frame, second)[n];
            let step = pick(&mut r, &[[0, 32, -32], [0, 128, -128]][n]) + r.within(-5, 5);
            (v - 32 * moved + step).clamp(low, high)
        };
        let across = i64::from(second % columns) - i64::from(first % columns);
        let down = i64::from(second / columns) - i64::from(first / columns);
        let later = (second, (near(0, x, across), near(1, y, down)), (near(0, x, across), near(1, y, down)));
        let alone = held(&picture(&frame, &[earlier]));
        if first < second {
            let both = held(&picture(&frame, &[earlier, later]));
            raised[usize::from(both[2].unwrap().last > alone[2].unwrap().last)] += 1;
            after_luma += in_luma(alone)[0];
        }
    }
    assert!(raised.iter().all(|count| *count > 2000) && after_luma > 20, "{raised:?} {after_luma}");
}

/// A vector of the k-th macroblock, in either field, that ends near where this one of another macroblock does.
fn near(r: &mut Random, frame: &Frame, (other, (x, y)): (u32, Vector), k: u32) -> FieldVector {
    let spans = field_spans(frame, k);
    let mut component = |n: usize, v: i64, place: u32, other: u32| {
        let (size, tile) = [(32, 32), (16, 64)][n];
        let to = v - size * (i64::from(place) - i64::from(other)) + pick(r, &[0, tile, -tile]) + r.within(-5, 5);
        to.clamp(spans[n].0, spans[n].1)
    };
    let across = component(0, x, k % frame.columns, other % frame.columns);
    let down = component(1, y, k / frame.columns, other / frame.columns);
    ((across, down), r.within(0, 1) as u32)
}

/// The same by fields: both blocks of a macroblock, and of a later one, in any fields of the reference.
#[test]
fn one_field_block_after_another() {
    let mut r = Random::new(82);
    let (mut raised, mut by_second) = ([0; 2], [0; 2]);
    for _ in 0..20_000 {
        let (columns, rows) = (r.within(1, 4) as u32, r.within(1, 6) as u32);
        let frame = field_frame(columns, rows, 128 * r.within(1, 3) as u32, 16 * rows + r.within(0, 40) as u32);
        let last = i64::from(columns * rows) - 1;
        let first = r.within(0, last) as u32;
        let second = r.within(first.into(), last) as u32;
        let vector = field_spans(&frame, first).map(|(low, high)| near_ends(&mut r, low, high)).into();
        let [top, bottom, later, last] = [first, first, second, second].map(|k| near(&mut r, &frame, (first, vector), k));
        let [one, two] = [top, bottom].map(|second| held(&field_picture(&frame, &[(first, top, second)]))[2].unwrap().last);
        by_second[usize::from(two > one)] += 1;
        if first < second {
            let all = held(&field_picture(&frame, &[(first, top, bottom), (second, later, last)]))[2].unwrap().last;
            raised[usize::from(all > two)] += 1;
        }
    }
    assert!(raised.iter().chain(&by_second).all(|count| *count > 2000), "{raised:?} {by_second:?}");
}

/// Pictures with a vector in every macroblock, of all heights around a row of tiles of chroma and many widths.
#[test]
fn many_blocks() {
    let mut r = Random::new(77);
    for _ in 0..400 {
        let (columns, rows) = (r.within(1, 20) as u32, r.within(1, 12) as u32);
        let frame = frame(columns, rows, 384, 16 * rows + r.within(0, 40) as u32);
        let far = pick(&mut r, &[3, 40, 400]);
        let mut vector = |k: u32| {
            let [x, y] = spans(&frame, k).map(|(low, high)| r.within(low.max(-far), high.min(far)));
            (x, y)
        };
        let predicted: Vec<_> = (0..frame.macroblocks() as u32).map(|k| (k, vector(k), vector(k))).collect();
        held(&picture(&frame, &predicted));
    }
}

/// The same by fields.
#[test]
fn many_field_blocks() {
    let mut r = Random::new(83);
    for _ in 0..400 {
        let (columns, rows) = (r.within(1, 20) as u32, r.within(1, 12) as u32);
        let frame = field_frame(columns, rows, 384, 16 * rows + r.within(0, 40) as u32);
        let far = pick(&mut r, &[3, 40, 400]);
        let mut vector = |k: u32| -> FieldVector {
            let [x, y] = field_spans(&frame, k).map(|(low, high)| r.within(low.max(-far), high.min(far)));
            ((x, y), r.within(0, 1) as u32)
        };
        let predicted: Vec<_> = (0..frame.macroblocks() as u32).map(|k| (k, vector(k), vector(k))).collect();
        held(&field_picture(&frame, &predicted));
    }
}
