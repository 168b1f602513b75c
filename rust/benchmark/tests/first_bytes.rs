//! First bytes: the checker in C and the plain one give the second program's whichever macroblock has the lowest one, and refuse
//! a block outside the picture whatever was counted before it.

mod held;

use held::{field_frame, field_picture, field_spans, frame, held, judged, picture, spans, FieldVector, Vector};
use reference::batch::{moved, moved_fields, rows, Frame};
use reference::batch_valid::{near_ends, pick};
use reference::command::Command;
use reference::leaf::{byte_at, word_of};
use reference::random::Random;

/// Where the k-th macroblock's luma block starts: column and row.
fn start(frame: &Frame, k: u32, (x, y): Vector) -> (u64, u64) {
    let first = |place: u32, v: i64| (16 * i64::from(place) + v.div_euclid(2)) as u64;
    (first(k % frame.columns, x), first(k / frame.columns, y))
}

/// The same of a field's block: "reference row is twice the field row plus the chosen field".
fn field_start(frame: &Frame, k: u32, ((x, y), field): FieldVector) -> (u64, u64) {
    let row = 8 * i64::from(k / frame.columns) + y.div_euclid(2);
    (start(frame, k, (x, 0)).0, 2 * row as u64 + u64::from(field))
}

/// Its byte: the lowest of the block.
fn first_byte(frame: &Frame, k: u32, vector: Vector) -> u64 {
    let (column, row) = start(frame, k, vector);
    byte_at(frame.pitch, column, row)
}

fn field_first_byte(frame: &Frame, k: u32, vector: FieldVector) -> u64 {
    let (column, row) = field_start(frame, k, vector);
    byte_at(frame.pitch, column, row)
}

/// 0 if the second stands before the first, 1 if in the same place, 2 behind.
fn side(first: u64, second: u64) -> usize {
    1 + usize::from(first < second) - usize::from(first > second)
}

/// Different numbers of macroblocks, rising.
fn some<const N: usize>(r: &mut Random, frame: &Frame) -> [u32; N] {
    loop {
        let mut ks: [u32; N] = std::array::from_fn(|_| r.within(0, frame.macroblocks() as i64 - 1) as u32);
        ks.sort();
        if ks.windows(2).all(|pair| pair[0] < pair[1]) {
            return ks;
        }
    }
}

/// Of three predicted macroblocks the first, the second and the third have the lowest byte, in both buffers. It is luma's, at
/// all first chroma rows near luma, and mostly not byte 0.
#[test]
fn from_any_macroblock() {
    let mut r = Random::new(78);
    let (mut counts, mut zeros) = ([[0; 3]; 2], 0);
    for _ in 0..5000 {
        let (columns, rows) = (r.within(2, 9) as u32, r.within(2, 6) as u32);
        let near = frame(columns, rows, 128 * r.within(2, 3) as u32, 16 * rows + r.within(0, 40) as u32);
        let frame = Frame { codes: [r.within(1, 9) as u32; 4], ..near };
        let predicted = some::<3>(&mut r, &frame).map(|k| {
            let mut vector = || spans(&frame, k).map(|(low, high)| near_ends(&mut r, low, high)).into();
            (k, vector(), vector())
        });
        let windows = held(&picture(&frame, &predicted));
        let bytes = [
            predicted.map(|(k, forward, _)| first_byte(&frame, k, forward)),
            predicted.map(|(k, _, backward)| first_byte(&frame, k, backward)),
        ];
        for n in 0..2 {
            let lowest = (0..3).min_by_key(|m| bytes[n][*m]).unwrap();
            assert_eq!(windows[2 + n].unwrap().first, bytes[n][lowest]);
            counts[n][lowest] += 1;
            zeros += u32::from(bytes[n][lowest] == 0);
        }
    }
    assert!(counts.iter().flatten().all(|count| *count > 300) && (50..2500).contains(&zeros), "{counts:?} {zeros}");
}

/// A vector of the k-th macroblock near the ends of what it may be, in either field.
fn any_field_vector(r: &mut Random, frame: &Frame, k: u32) -> FieldVector {
    let vector = field_spans(frame, k).map(|(low, high)| near_ends(r, low, high)).into();
    (vector, r.within(0, 1) as u32)
}

/// The same by fields: of six vectors of three macroblocks each has the lowest byte.
#[test]
fn from_any_field() {
    let mut r = Random::new(84);
    let (mut counts, mut zeros) = ([0; 6], 0);
    for _ in 0..5000 {
        let (columns, rows) = (r.within(2, 9) as u32, r.within(2, 6) as u32);
        let near = field_frame(columns, rows, 128 * r.within(2, 3) as u32, 16 * rows + r.within(0, 40) as u32);
        let code = r.within(1, 9) as u32;
        let frame = Frame { codes: [code, code, 15, 15], ..near };
        let predicted =
            some::<3>(&mut r, &frame).map(|k| (k, any_field_vector(&mut r, &frame, k), any_field_vector(&mut r, &frame, k)));
        let bytes: Vec<u64> =
            predicted.iter().flat_map(|&(k, top, bottom)| [top, bottom].map(|v| field_first_byte(&frame, k, v))).collect();
        let lowest = (0..6).min_by_key(|n| bytes[*n]).unwrap();
        assert_eq!(held(&field_picture(&frame, &predicted))[2].unwrap().first, bytes[lowest]);
        counts[lowest] += 1;
        zeros += u32::from(bytes[lowest] == 0);
    }
    assert!(counts.iter().all(|count| *count > 150) && (50..2500).contains(&zeros), "{counts:?} {zeros}");
}

/// A block, and a later one that starts within two columns and two rows of it, of the same place in the next strip or the one
/// before, or in the next row of tiles or the one before. Either may be the lower, in all these places.
#[test]
fn one_start_after_another() {
    let mut r = Random::new(79);
    let mut lowered = [[[0; 2]; 3]; 3];
    for _ in 0..10_000 {
        let (columns, rows) = (r.within(2, 9) as u32, r.within(2, 8) as u32);
        let frame = frame(columns, rows, 384, 16 * rows + r.within(0, 40) as u32);
        let [first, second] = some(&mut r, &frame);
        let earlier: Vector = spans(&frame, first).map(|(low, high)| near_ends(&mut r, low, high)).into();
        let (column, row) = start(&frame, first, earlier);
        let places = [(column, second % columns), (row, second / columns)];
        let mut near = |n: usize| {
            let (from, place) = places[n];
            let step = pick(&mut r, &[[0, 16, -16], [0, 32, -32]][n]) + r.within(-2, 2);
            let (low, high) = spans(&frame, second)[n];
            (2 * (from as i64 + step) - 32 * i64::from(place) + r.within(0, 1)).clamp(low, high)
        };
        let later = (near(0), near(1));
        let windows = held(&picture(&frame, &[(first, earlier, earlier), (second, later, later)]));
        let bytes = [first_byte(&frame, first, earlier), first_byte(&frame, second, later)];
        assert_eq!([windows[2], windows[3]].map(|window| window.unwrap().first), [bytes[0].min(bytes[1]); 2]);
        let (next_column, next_row) = start(&frame, second, later);
        lowered[side(row / 32, next_row / 32)][side(column / 16, next_column / 16)][usize::from(bytes[1] < bytes[0])] += 1;
    }
    // In a row of tiles before it is always lower, in a later one never, and in the same one an earlier strip is.
    let counts: Vec<u32> = [0, 1, 2].iter().flat_map(|n| [lowered[0][*n][1], lowered[2][*n][0]]).collect();
    let in_row = [lowered[1][0][1], lowered[1][1][0], lowered[1][1][1], lowered[1][2][0]];
    assert!(counts.iter().chain(&in_row).all(|count| *count > 50), "{lowered:?}");
}

/// The same by fields: two blocks of a macroblock, or of two.
#[test]
fn one_field_start_after_another() {
    let mut r = Random::new(85);
    let mut lowered = [[[0; 2]; 3]; 3];
    for _ in 0..10_000 {
        let (columns, rows) = (r.within(2, 9) as u32, r.within(2, 8) as u32);
        let frame = field_frame(columns, rows, 384, 16 * rows + r.within(0, 40) as u32);
        let first = r.within(0, i64::from(columns * rows) - 1) as u32;
        let second = if r.within(0, 2) == 0 { first } else { r.within(first.into(), i64::from(columns * rows) - 1) as u32 };
        let earlier = any_field_vector(&mut r, &frame, first);
        let (column, row) = field_start(&frame, first, earlier);
        let [(left, right), (top, bottom)] = field_spans(&frame, second);
        let x = 2 * (column as i64 + pick(&mut r, &[0, 16, -16]) + r.within(-2, 2)) - 32 * i64::from(second % columns);
        let y = row as i64 + pick(&mut r, &[0, 32, -32]) + r.within(-2, 2) - 16 * i64::from(second / columns);
        let later = ((x.clamp(left, right), y.clamp(top, bottom)), r.within(0, 1) as u32);
        let predicted = [(first, earlier, if first == second { later } else { earlier }), (second, later, later)];
        let windows = held(&field_picture(&frame, &predicted[..if first == second { 1 } else { 2 }]));
        let bytes = [field_first_byte(&frame, first, earlier), field_first_byte(&frame, second, later)];
        assert_eq!(windows[2].unwrap().first, bytes[0].min(bytes[1]));
        let (next_column, next_row) = field_start(&frame, second, later);
        lowered[side(row / 32, next_row / 32)][side(column / 16, next_column / 16)][usize::from(bytes[1] < bytes[0])] += 1;
    }
    let counts: Vec<u32> = [0, 1, 2].iter().flat_map(|n| [lowered[0][*n][1], lowered[2][*n][0]]).collect();
    let in_row = [lowered[1][0][1], lowered[1][1][0], lowered[1][1][1], lowered[1][2][0]];
    assert!(counts.iter().chain(&in_row).all(|count| *count > 50), "{lowered:?}");
}

/// Two macroblocks, the later one further right or anywhere in the next row. It starts its block as far left as its f code lets
/// it or a little less: in a strip before, in or behind that where the earlier block starts, and near its row.
#[test]
fn far_left() {
    let mut r = Random::new(80);
    let mut lowered = [[[0; 2]; 3]; 2];
    for _ in 0..20_000 {
        let (columns, rows, code) = (r.within(3, 12) as u32, r.within(2, 5) as u32, r.within(1, 4) as u32);
        let frame = Frame { codes: [code, 9, code, 9], ..frame(columns, rows, 256, 16 * rows + r.within(0, 40) as u32) };
        let first = r.within(0, i64::from(columns * (rows - 1)) - 1) as u32;
        let second = r.within(i64::from(first) + 1, i64::from((first / columns + 2) * columns) - 1) as u32;
        let down = second / columns - first / columns;
        let earlier: Vector = spans(&frame, first).map(|(low, high)| near_ends(&mut r, low, high)).into();
        let [(left, _), (top, bottom)] = spans(&frame, second);
        let later = (left + r.within(0, 3), (earlier.1 - 32 * i64::from(down) + r.within(-5, 5)).clamp(top, bottom));
        held(&picture(&frame, &[(first, earlier, earlier), (second, later, later)]));
        let strips = [start(&frame, first, earlier), start(&frame, second, later)].map(|(column, _)| column / 16);
        let lower = first_byte(&frame, second, later) < first_byte(&frame, first, earlier);
        lowered[down as usize][side(strips[0], strips[1])][usize::from(lower)] += 1;
    }
    assert!(lowered.iter().flatten().flatten().all(|count| *count > 10), "{lowered:?}");
}

/// The same by fields, where the later macroblock's blocks start beside each other.
#[test]
fn far_left_by_fields() {
    let mut r = Random::new(86);
    let mut lowered = [[[0; 2]; 3]; 2];
    for _ in 0..20_000 {
        let (columns, rows, code) = (r.within(3, 12) as u32, r.within(2, 5) as u32, r.within(1, 4) as u32);
        let frame = Frame { codes: [code, 9, 15, 15], ..field_frame(columns, rows, 256, 16 * rows + r.within(0, 40) as u32) };
        let first = r.within(0, i64::from(columns * (rows - 1)) - 1) as u32;
        let second = r.within(i64::from(first) + 1, i64::from((first / columns + 2) * columns) - 1) as u32;
        let down = second / columns - first / columns;
        let earlier = any_field_vector(&mut r, &frame, first);
        let [(left, _), (top, bottom)] = field_spans(&frame, second);
        let mut near =
            || ((left + r.within(0, 3), ((earlier.0).1 - 16 * i64::from(down) + r.within(-3, 3)).clamp(top, bottom)), earlier.1);
        let later = [near(), near()];
        held(&field_picture(&frame, &[(first, earlier, earlier), (second, later[0], later[1])]));
        let strips = [field_start(&frame, first, earlier), field_start(&frame, second, later[1])].map(|(column, _)| column / 16);
        let lower = field_first_byte(&frame, second, later[1]) < field_first_byte(&frame, first, earlier);
        lowered[down as usize][side(strips[0], strips[1])][usize::from(lower)] += 1;
    }
    assert!(lowered.iter().flatten().flatten().all(|count| *count > 10), "{lowered:?}");
}

/// Intra, but for these macroblocks.
fn picture_with(frame: &Frame, macroblocks: &[(u32, Command)]) -> Vec<u32> {
    let mut all = vec![moved(0, 0, 0); frame.macroblocks()];
    macroblocks.iter().for_each(|(k, command)| all[*k as usize] = *command);
    rows(frame, &all).words()
}

/// After a block both ways near the top another one, forward or backward, at every y about the top and the bottom of the picture:
/// what is outside is refused, wherever the rows end from which on no first byte is lowered.
#[test]
fn outside() {
    let mut numbers = [0; 2];
    for rows in 1..=6 {
        let frame = frame(3, rows, 128, 16 * rows);
        let (last, (_, down)) = (3 * rows - 1, spans(&frame, 0)[1]);
        let (low, high) = spans(&frame, last)[1];
        let ys = [0, 1, 2, 3, 30, 31, 32, 33, 62, 63, 64, 65, 66].into_iter().filter(|y| *y <= down);
        for (x, y) in ys.flat_map(|y| [0, 2, 32, 64].map(|x| (x, y))) {
            for later in (low - 3..=low + 1).chain(high - 1..=high + 70) {
                for kind in [1, 2] {
                    let (both, one) = (moved(3, word_of(x, y), word_of(x, y)), moved(kind, word_of(0, later), word_of(0, later)));
                    numbers[usize::from(judged(&picture_with(&frame, &[(0, both), (last, one)])).is_ok())] += 1;
                }
            }
        }
    }
    assert!(numbers.iter().all(|count| *count > 1000), "{numbers:?}");
}

/// The same by fields, with word 5 and with word 7 outside.
#[test]
fn field_outside() {
    let mut numbers = [0; 2];
    for rows in 1..=6 {
        let frame = field_frame(3, rows, 128, 16 * rows);
        let (last, (low, high)) = (3 * rows - 1, field_spans(&frame, 3 * rows - 1)[1]);
        let ys = [0, 1, 2, 3, 14, 15, 16, 17, 30, 31, 32, 33].into_iter().filter(|y| *y <= -low);
        for (x, y) in ys.flat_map(|y| [0, 2, 32, 64].map(|x| (x, y))) {
            for (later, field) in (low - 3..=low + 1).chain(high - 1..=high + 40).flat_map(|later| [(later, 0), (later, 1)]) {
                for (top, bottom) in [(later, low), (low, later)] {
                    let both = moved_fields((word_of(x, y), field), (word_of(x, y), 1 - field));
                    let one = moved_fields((word_of(0, top), field), (word_of(0, bottom), field));
                    numbers[usize::from(judged(&picture_with(&frame, &[(0, both), (last, one)])).is_ok())] += 1;
                }
            }
        }
    }
    assert!(numbers.iter().all(|count| *count > 1000), "{numbers:?}");
}

/// One way is predicted and the other is not: its buffer is untouched, and its first byte is 0.
#[test]
fn untouched() {
    let mut r = Random::new(81);
    for _ in 0..1000 {
        let frame = frame(r.within(2, 9) as u32, r.within(2, 6) as u32, 256, 200);
        let [k] = some(&mut r, &frame);
        let [x, y] = spans(&frame, k).map(|(low, high)| near_ends(&mut r, low, high));
        let first = Some(first_byte(&frame, k, (x, y)));
        for (kind, due) in [(0, [None, None]), (1, [first, None]), (2, [None, first])] {
            let windows = held(&picture_with(&frame, &[(k, moved(kind, word_of(x, y), word_of(x, y)))]));
            assert_eq!([windows[2], windows[3]].map(|window| window.map(|window| window.first)), due);
        }
    }
}
