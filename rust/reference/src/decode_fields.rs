//! Cases for decoding in which the macroblocks' fields tell one record from another: fields at their ends, fields that all
//! differ, and single bits.

use crate::batch::{moved, moved_fields, rows, skip, Batch, Frame};
use crate::batch_cases::needed;
use crate::command::*;
use crate::decode_cases::Cases;
use crate::leaf::word_of;

/// Fields with a free choice, and the least and largest value of each.
const FREE: [(Field, u32, u32); 7] = [
    (CARRIED, 0, 0xffff),
    (MAXIMUM, 0, 255),
    (TARGET, 0, 255),
    (PATTERN, 0, 63),
    (QUANTISER, 1, 31),
    (CLAMP, 0, 1),
    (NO_CONVERSION, 0, 1),
];

/// One macroblock: all fields at one end, and each alone at the other. Intra has pattern 63, and I no conversion bit.
fn ends(cases: &mut Cases) {
    for (sort, kind) in [(1, 0), (2, 0), (2, 1), (3, 2), (3, 3)] {
        for n in 0..=FREE.len() {
            for high in [false, true] {
                let mut c = moved(kind, 0, 0);
                for (other, (f, least, largest)) in FREE.into_iter().enumerate() {
                    let fixed = (kind == 0 && f.lo == PATTERN.lo) || (sort == 1 && f.lo == NO_CONVERSION.lo);
                    if !fixed {
                        f.set(&mut c, if (other == n) != high { largest } else { least });
                    }
                }
                let words = rows(&Frame::new(sort, 1, 1), &[c]).words();
                assert_eq!(cases.push(&words, needed(&words), 24 + n).number, 0);
            }
        }
    }
}

/// With the largest f codes that its type allows.
fn far(sort: u32, columns: u32, rows: u32) -> Frame {
    let base = Frame::new(sort, columns, rows);
    Frame { codes: base.codes.map(|code| code.max(9)), ..base }
}

/// A macroblock of a kind, one that is skipped, or one predicted by fields.
#[derive(Clone, Copy)]
enum Sort {
    Kind(u32),
    Skipped,
    Fields,
}

/// Vectors in at least three columns and two rows that no other macroblock has, in either component; they fit the next
/// column as well.
fn vectors(frame: &Frame, k: u32) -> (u32, u32) {
    let (column, row) = (i64::from(k % frame.columns), i64::from(k / frame.columns));
    let (right, below) = (i64::from(frame.columns) - 2 - column, i64::from(frame.rows) - 1 - row);
    let k = i64::from(k);
    (word_of(k - 32 * column, 32 * below - k), word_of(32 * right - k, k - 32 * row))
}

/// The same for the two fields, which have half the rows. The record has the top field's.
fn field_vectors(frame: &Frame, k: u32) -> (u32, u32) {
    let (column, row) = (i64::from(k % frame.columns), i64::from(k / frame.columns));
    let (right, below) = (i64::from(frame.columns) - 2 - column, i64::from(frame.rows) - 1 - row);
    let k = i64::from(k);
    (word_of(k - 32 * column, 16 * below - k), word_of(32 * right - k, k - 16 * row))
}

/// Up to 30 macroblocks. Carried half, sizes and quantiser differ from one to any other, pattern and vectors where they may.
fn apart(frame: &Frame, sorts: &[Sort]) -> Batch {
    let mut all: Vec<Command> = Vec::new();
    for k in 0..frame.macroblocks() as u32 {
        let (forward, backward) = vectors(frame, k);
        let mut c = match (sorts[k as usize % sorts.len()], all.last()) {
            (Sort::Kind(kind), _) => moved(kind, forward, backward),
            (Sort::Fields, _) => {
                let (top, bottom) = field_vectors(frame, k);
                moved_fields((top, k % 2), (bottom, k / 2 % 2))
            }
            (Sort::Skipped, Some(before)) if frame.sort == 3 => skip(kind(before).unwrap().into(), before[5], before[6]),
            _ => skip(1, 0, 0),
        };
        for (f, value) in [(CARRIED, 0xffff - 2113 * k), (MAXIMUM, 255 - 8 * k), (TARGET, 8 * k + 7), (QUANTISER, 31 - k)] {
            f.set(&mut c, value);
        }
        CLAMP.set(&mut c, k / 2);
        if frame.fields && SKIP.of(&c) == 0 {
            DCT_TYPE.set(&mut c, k / 2);
        }
        NO_CONVERSION.set(&mut c, if frame.sort == 1 { 0 } else { k / 3 });
        if PATTERN.of(&c) != 0 && kind(&c) != Some(0) {
            PATTERN.set(&mut c, 60 + frame.sort - 2 * k);
        }
        all.push(c);
    }
    rows(frame, &all)
}

/// Batches of macroblocks that differ in every field, the larger shape first. The sorts go round with the columns, so that
/// no skipped one is first or last in its row.
fn all_apart() -> Vec<Batch> {
    use Sort::{Fields, Kind, Skipped};
    let mut batches = Vec::new();
    for (columns, rows) in [(6, 5), (3, 3)] {
        let frame = |sort: u32| far(sort, columns, rows);
        batches.push(apart(&frame(1), &[Kind(0)]));
        batches.extend([[Kind(1), Skipped, Kind(0)], [Kind(1), Kind(1), Kind(1)]].map(|sorts| apart(&frame(2), &sorts)));
        let of_b = [
            [Kind(3), Skipped, Kind(2)],
            [Kind(1), Skipped, Kind(3)],
            [Kind(2), Skipped, Kind(0)],
            [Kind(3), Kind(3), Kind(3)],
            [Kind(1), Kind(0), Kind(2)],
        ];
        batches.extend(of_b.map(|sorts| apart(&frame(3), &sorts)));
        let with_fields = Frame { fields: true, ..frame(2) };
        batches.extend([[Fields, Skipped, Kind(0)], [Kind(1), Fields, Fields]].map(|sorts| apart(&with_fields, &sorts)));
    }
    batches
}

/// A component of one bit, or of its negative where only that fits.
fn one_bit(n: u32, place: u32, count: u32) -> i64 {
    let value = 1 << n;
    if value <= 32 * i64::from(count - 1 - place) {
        value
    } else {
        -value
    }
}

/// Sixteen by two: the k-th macroblock has one bit in each field, or all but that one.
fn single_bits(sort: u32, kind: u32, all_but: bool) -> Batch {
    let one = |k: u32| {
        let (column, row) = (k % 16, k / 16);
        let vector = |shift: u32| word_of(one_bit((k + shift) % 8, column, 16), one_bit((k + shift) % 6, row, 2));
        let mut c = moved(kind, vector(0), vector(3));
        for (f, bit) in [(CARRIED, k % 16), (MAXIMUM, k % 8), (TARGET, (k + 3) % 8), (PATTERN, k % 6), (QUANTISER, k % 5)] {
            if f.lo != PATTERN.lo || kind != 0 {
                f.set(&mut c, if all_but { !(1 << bit) } else { 1 << bit });
            }
        }
        CLAMP.set(&mut c, k);
        c
    };
    rows(&far(sort, 16, 2), &(0..32).map(one).collect::<Vec<_>>())
}

/// A line of 40: the first macroblock's vector points to its end and the last one's to its beginning. The others are intra.
fn far_vectors(sort: u32, columns: u32, lines: u32) -> Batch {
    let (right, below) = (32 * (i64::from(columns) - 1), 32 * (i64::from(lines) - 1));
    let mut all = [moved(0, 0, 0); 40];
    all[0] = moved(sort - 1, word_of(right, below), word_of(right, below));
    all[39] = moved(sort - 1, word_of(-right, -below), word_of(-right, -below));
    rows(&far(sort, columns, lines), &all)
}

pub fn fields(cases: &mut Cases) {
    ends(cases);
    for (sort, columns, lines) in [(2, 40, 1), (2, 1, 40), (3, 40, 1), (3, 1, 40)] {
        let words = far_vectors(sort, columns, lines).words();
        assert_eq!(cases.push(&words, needed(&words), 960).number, 0);
    }
    for batch in all_apart() {
        let words = batch.words();
        cases.four_rooms(&words, needed(&words), 25);
    }
    for (sort, kind, all_but) in [(1, 0, true), (2, 1, false), (3, 2, true), (3, 3, false), (3, 3, true)] {
        let words = single_bits(sort, kind, all_but).words();
        cases.four_rooms(&words, needed(&words), 7);
    }
}

#[cfg(test)]
mod tests {
    use super::*;
    use crate::decode::decode;
    use std::collections::BTreeSet;

    /// Positions apart, any two macroblocks differ in carried half, both sizes and quantiser; and, but for skipped ones, in
    /// each component of each vector that they have, and in pattern if inter.
    #[test]
    fn every_field_differs() {
        let mut counted = [0; 5];
        for batch in all_apart() {
            let words = batch.words();
            let mut log = vec![0; 24 * batch.0.iter().filter(|command| command[0] == MACROBLOCK).count()];
            assert_eq!(decode(&words, needed(&words), &mut log).number, 0);
            let records: Vec<&[u8]> = log.chunks(24).collect();
            let differ = |of: &[&[u8]], bytes: std::ops::Range<usize>| {
                let values: BTreeSet<&[u8]> = of.iter().map(|record| &record[bytes.clone()]).collect();
                assert_eq!(values.len(), of.len(), "{bytes:?}");
                of.len()
            };
            [4..6, 9..10, 10..11, 11..12].into_iter().for_each(|bytes| assert_eq!(differ(&records, bytes), records.len()));
            let coded = |kinds: &[u8]| {
                let of = records.iter().filter(|record| record[7] == 0 && kinds.contains(&record[6]));
                of.copied().collect::<Vec<_>>()
            };
            let due: [(&[u8], _); 5] =
                [(&[1, 2, 3], 8..9), (&[1, 3], 16..18), (&[1, 3], 18..20), (&[2, 3], 20..22), (&[2, 3], 22..24)];
            (0..5).for_each(|n| counted[n] += differ(&coded(due[n].0), due[n].1.clone()));
        }
        assert!(counted.iter().all(|count| *count >= 60), "{counted:?}");
    }
}
