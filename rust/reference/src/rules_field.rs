//! Rules of document 02's R-6, field prediction in P pictures: PICTURE bit 10, and 4, 5, 8, 9, 10, 11 and 13 of MACROBLOCK.

use crate::batch::{field_dct, moved, moved_fields, rows, skip, small_b, small_f, small_i, small_p, still, Batch, Frame};
use crate::batch_cases::needed;
use crate::batch_rules::Table;
use crate::command::*;
use crate::leaf::word_of;
use crate::rules_vectors::LIMITS;

/// Predicted by fields, unmoved, both from the top field.
fn fields() -> Command {
    moved_fields((0, 0), (0, 0))
}

/// The command with fields set.
fn with(c: Command, values: &[(Field, u32)]) -> Command {
    let mut c = c;
    values.iter().for_each(|(field, value)| field.set(&mut c, *value));
    c
}

/// One macroblock, with PICTURE bit 10 = 0 or 1.
fn one(sort: u32, bit_10: u32, c: Command) -> Batch {
    rows(&Frame { fields: bit_10 == 0, ..Frame::new(sort, 1, 1) }, &[c])
}

/// "PICTURE bit 10 may now be 0", in all types; "all else stays for bit 10 = 1".
pub fn pictures(t: &mut Table) {
    for base in [small_i(), small_p(), small_b()] {
        t.passes("PICTURE bit 10 is 0", &base.flipped(1, 1, 1 << 10));
    }
    (1..4).for_each(|sort| t.passes("PICTURE bit 10 is 0", &still(&Frame::with_fields(sort, 2, 2))));
    t.passes("by fields", &small_f());
    t.refused("by fields, PICTURE bit 10 is 1", &small_f().flipped(1, 1, 1 << 10), 4, 3, 1);
    for bit in [13, 12, 9, 5, 0] {
        t.flip(&format!("PICTURE word 1 bit {bit}, bit 10 is 0"), &small_f(), 1, 1, 1 << bit, 4);
    }
    let exact = needed(&small_f().words());
    for n in 0..3 {
        let mut buffers = exact;
        buffers[n] -= 1;
        t.beside("by fields, a buffer short", small_f().words(), buffers, (13, n));
    }
    t.beside("by fields, exact buffers", small_f().words(), exact, (0, 0));
}

/// "Word 1 bit 15 (dct type) is free on macroblocks that are not skipped."
pub fn dct_types(t: &mut Table) {
    for (sort, kinds) in [(1, &[0][..]), (2, &[0, 1]), (3, &[0, 1, 2, 3])] {
        for kind in kinds {
            let c = field_dct(moved(*kind, 0, 0));
            t.passes(&format!("dct type, kind {kind} in type {sort}"), &one(sort, 0, c));
            t.refused(&format!("dct type, kind {kind} in type {sort}, bit 10 is 1"), &one(sort, 1, c), 4, 3, 1);
        }
    }
    t.passes("dct type by fields", &one(2, 0, field_dct(fields())));
    let three = |sort: u32, before: Command, c: Command| rows(&Frame::with_fields(sort, 3, 1), &[before, c, moved(0, 0, 0)]);
    for (sort, kind) in [(2, 1), (3, 1), (3, 2), (3, 3)] {
        let base = three(sort, moved(kind, 0, 0), skip(kind, 0, 0));
        t.passes("skipped, bit 10 is 0", &base);
        t.set(&format!("dct type, skipped kind {kind} in type {sort}"), &base, 4, DCT_TYPE, 1, 4);
    }
    // "skipped" is the bit: 4 is smaller than the 5 of a skipped intra macroblock
    for (c, number) in [(moved(0, 0, 0), 5), (field_dct(moved(0, 0, 0)), 4)] {
        t.refused("skipped intra", &three(2, moved(1, 0, 0), with(c, &[(SKIP, 1)])), number, 4, 1);
    }
    let p = three(2, fields(), skip(1, 0, 0));
    t.passes("skipped after field prediction", &p);
    t.passes("skipped after field prediction with a dct type", &p.set(3, DCT_TYPE, 1));
    t.refused("skipped with vectors, bit 10 is 0", &three(2, fields(), skip(1, 4, 0)), 11, 4, 1);
    t.refused("dct type before a wrong position", &p.set(4, DCT_TYPE, 1).set(4, COLUMN, 2), 4, 4, 1);
}

/// Every value of bits 14 and 1:0 but those of 04h.
const OTHER_BITS: [(u32, u32); 7] = [(0, 0), (0, 1), (0, 2), (0, 3), (1, 0), (1, 2), (1, 3)];

/// "Type 04h is allowed in P with bit 14 = 1 and bits 1:0 = 1"; "04h where not allowed [keeps] bits 14 and 1:0 zero".
fn type_4(t: &mut Table) {
    for (flag, mode) in OTHER_BITS {
        let c = with(fields(), &[(FIELD_FLAG, flag), (MODE, mode)]);
        t.refused(&format!("04h with bit 14 {flag} and 1:0 {mode}"), &one(2, 0, c), 4, 3, 1);
        for (sort, bit_10) in [(1, 0), (1, 1), (2, 1), (3, 0), (3, 1)] {
            let name = format!("04h in type {sort}, bit 10 is {bit_10}, with bit 14 {flag} and 1:0 {mode}");
            t.refused(&name, &one(sort, bit_10, c), if (flag, mode) == (0, 0) { 5 } else { 4 }, 3, 1);
        }
    }
    for (sort, bit_10) in [(1, 0), (1, 1), (2, 1), (3, 0), (3, 1)] {
        let name = format!("04h with its bits in type {sort}, bit 10 is {bit_10}");
        t.refused(&name, &one(sort, bit_10, fields()), 4, 3, 1);
    }
    t.passes("04h in P", &one(2, 0, fields()));
}

/// "Intra, other types [...] keep bits 14 and 1:0 zero."
pub fn types(t: &mut Table) {
    type_4(t);
    for (flag, mode) in [(1, 1), (1, 0), (0, 1), (0, 2)] {
        let bits = [(FIELD_FLAG, flag), (MODE, mode)];
        for kind in [0, 1] {
            t.refused(&format!("kind {kind} with bits of 04h"), &one(2, 0, with(moved(kind, 0, 0), &bits)), 4, 3, 1);
        }
        t.refused("both with bits of 04h", &one(3, 0, with(moved(3, 0, 0), &bits)), 4, 3, 1);
        t.refused("04h with the intra bit", &one(2, 0, with(fields(), &[bits[0], bits[1], (INTRA, 1)])), 4, 3, 1);
    }
    // source document 000 has 06h and 14h for the other predictions by fields, and 19h for dual prime
    for other in [0, 2, 3, 5, 6, 0x0c, 0x14, 0x19, 0x1a] {
        let c = with(fields(), &[(TYPE, other)]);
        t.refused(&format!("type {other} with bits of 04h"), &one(2, 0, c), 4, 3, 1);
        let bare = with(c, &[(FIELD_FLAG, 0), (MODE, 0)]);
        t.refused(&format!("type {other}, bit 10 is 0"), &one(2, 0, bare), 5, 3, 1);
    }
    let bare = with(fields(), &[(FIELD_FLAG, 0), (MODE, 0), (INTRA, 1)]);
    t.refused("04h with the intra bit and without its bits", &one(2, 0, bare), 5, 3, 1);
}

/// "A skipped type 04h gives 11", after word 1's 4 and 5 and before all that stands further on.
pub fn skips(t: &mut Table) {
    let skipped = with(fields(), &[(SKIP, 1), (PATTERN, 0)]);
    let three = |bit_10: u32, sort: u32, c: Command| {
        let frame = Frame { fields: bit_10 == 0, ..Frame::new(sort, 3, 1) };
        rows(&frame, &[moved(1, 0, 0), c, moved(0, 0, 0)])
    };
    let base = three(0, 2, skipped);
    t.refused("skipped 04h", &base, 11, 4, 1);
    let moving = with(moved_fields((4, 1), (6, 1)), &[(SKIP, 1), (PATTERN, 0)]);
    t.refused("skipped 04h with vectors", &three(0, 2, moving), 11, 4, 1);
    t.refused("skipped 04h after the same", &rows(&Frame::with_fields(2, 3, 1), &[fields(), skipped, fields()]), 11, 4, 1);
    t.refused("skipped 04h with a pattern", &base.set(4, PATTERN, 5), 11, 4, 1);
    t.refused("skipped 04h last in slice", &base.set(4, LAST_IN_SLICE, 1), 11, 4, 1);
    t.refused("skipped 04h before position", &base.set(4, ROW, 1), 11, 4, 1);
    t.refused("skipped 04h before a choice's neighbour", &base.flipped(4, 4, 1 << 17), 11, 4, 1);
    t.refused("skipped 04h before a copy", &base.flipped(4, 6, 1), 11, 4, 1);
    t.refused("skipped 04h with a dct type", &base.set(4, DCT_TYPE, 1), 4, 4, 1);
    t.refused("skipped 04h without bit 14", &base.set(4, FIELD_FLAG, 0), 4, 4, 1);
    t.refused("skipped 04h without 1:0", &base.set(4, MODE, 0), 4, 4, 1);
    for (bit_10, sort) in [(1, 2), (0, 3), (1, 3)] {
        let bare = with(skipped, &[(FIELD_FLAG, 0), (MODE, 0)]);
        t.refused("skipped 04h where not allowed", &three(bit_10, sort, bare), 5, 4, 1);
        t.refused("skipped 04h where not allowed, with its bits", &three(bit_10, sort, skipped), 4, 4, 1);
    }
}

/// "Word 4 bits 16 and 18 choose the reference field for the two, 17 and 19 stay zero"; "set on another type, [they] give 4".
pub fn choices(t: &mut Table) {
    for bits in 0..16 {
        let batch = one(2, 0, fields()).flipped(3, 4, bits << 16);
        match bits & 0b1010 {
            0 => t.passes(&format!("choices {bits}"), &batch),
            _ => t.refused(&format!("choices {bits}"), &batch, 4, 3, 4),
        }
    }
    for (sort, kind) in [(1, 0), (2, 0), (2, 1), (3, 1), (3, 2), (3, 3)] {
        for (bit_10, bits) in [(0, 1), (0, 4), (1, 1), (1, 4), (0, 5), (0, 2), (0, 8)] {
            let name = format!("bits {bits} of a choice, kind {kind} in type {sort}, bit 10 is {bit_10}");
            t.refused(&name, &one(sort, bit_10, moved(kind, 0, 0)).flipped(3, 4, bits << 16), 4, 3, 4);
        }
    }
    t.refused("a choice on a skipped macroblock", &small_f().flipped(4, 4, 1 << 16), 4, 4, 4);
    t.refused(
        "a choice's neighbour before the quantiser",
        &one(2, 0, with(fields(), &[(QUANTISER, 0)])).flipped(3, 4, 1 << 19),
        4,
        3,
        4,
    );
    t.refused("quantiser 0 by fields", &one(2, 0, with(fields(), &[(QUANTISER, 0)])), 5, 3, 4);
    t.refused("a choice's neighbour after word 3", &one(2, 0, fields()).flipped(3, 4, 1 << 17).flipped(3, 3, 1), 4, 3, 3);
}

/// "Word 5 is the top field's vector, word 7 the bottom's, 6 and 8 copy 5": words 5 to 8 taken from the two vectors.
pub fn copies(t: &mut Table) {
    let vectors = [word_of(3, 6), word_of(6, 1)];
    let with_words = |words: [u32; 4]| {
        let mut c = fields();
        c[5..].copy_from_slice(&words);
        rows(&Frame::with_fields(2, 2, 2), &[c, fields(), fields(), fields()])
    };
    for n in 0..8 {
        let [six, seven, eight] = [n & 1, n >> 1 & 1, n >> 2 & 1].map(|from| vectors[from]);
        let (batch, name) = (with_words([vectors[0], six, seven, eight]), format!("copies of the two vectors: {n:03b}"));
        match (six == vectors[0], eight == vectors[0]) {
            (true, true) => t.passes(&name, &batch),
            (true, false) => t.refused(&name, &batch, 8, 3, 8),
            _ => t.refused(&name, &batch, 8, 3, 6),
        }
    }
    let base = with_words([vectors[0], vectors[0], vectors[1], vectors[0]]);
    for (word, place) in [(5, 6), (6, 6), (8, 8)] {
        let kept = base.0[3][word];
        t.refused(&format!("by fields, word {word} changed"), &base.flipped(3, word, 1), 8, 3, place);
        t.refused(&format!("by fields, word {word} left zero"), &base.flipped(3, word, kept), 8, 3, place);
        let halves = base.flipped(3, word, kept ^ kept.rotate_left(16));
        t.refused(&format!("by fields, halves of word {word} exchanged"), &halves, 8, 3, place);
    }
    t.passes("by fields, word 7 changed", &base.flipped(3, 7, 1));
    t.passes("by fields, word 7 zero", &base.flipped(3, 7, vectors[1]));
}

/// Two macroblocks, beside each other (axis 0) or one below the other (axis 1), unmoved but for the vector of one in word 5 or 7.
fn one_moved(code: u32, k: usize, word: usize, choice: u32, axis: usize, at: i64) -> Batch {
    let (columns, lines) = [(2, 1), (1, 2)][axis];
    let frame = Frame { codes: [code, code, 15, 15], ..Frame::with_fields(2, columns, lines) };
    let v = (if axis == 0 { word_of(at, 0) } else { word_of(0, at) }, choice);
    let mut both = [fields(); 2];
    both[k] = if word == 5 { moved_fields(v, (0, 1 - choice)) } else { moved_fields((0, 1 - choice), v) };
    rows(&frame, &both)
}

/// As `LIMITS`, which holds of columns, in field rows: half of the room, and half of the f code's range.
const FIELD_LIMITS: [(usize, u32, i64, u8); 17] = [
    (0, 1, 7, 0),
    (0, 1, 8, 9),
    (1, 1, -8, 0),
    (1, 1, -9, 9),
    (0, 2, 15, 0),
    (0, 2, 16, 9),
    (1, 2, -16, 0),
    (1, 2, -17, 9),
    (0, 3, 16, 0),
    (0, 3, 17, 10),
    (0, 3, -1, 10),
    (1, 3, -17, 10),
    (1, 3, 1, 10),
    (0, 9, -2048, 10),
    (0, 9, -2049, 9),
    (1, 9, 2047, 10),
    (1, 9, 2048, 9),
];

/// "The range and inside tests report word 5 or 7", whichever field is chosen.
pub fn limits(t: &mut Table) {
    for (axis, limits) in [(0, &LIMITS[..]), (1, &FIELD_LIMITS)] {
        for (n, &(k, code, at, number)) in limits.iter().enumerate() {
            for word in [5, 7] {
                let choice = ((n + word / 2) % 2) as u32;
                let batch = one_moved(code, k, word, choice, axis, at);
                let name = format!("by fields, word {word} choice {choice} f code {code} axis {axis}: {at}");
                t.due(&name, &batch, number, 3 + k, word);
            }
        }
    }
    order(t);
}

/// "Words upwards, and in a word the smaller number first", among 8, 9 and 10; and a frame's vector keeps its range.
fn order(t: &mut Table) {
    let (outside, beyond) = (word_of(0, 2), word_of(0, 32));
    let base = |top: u32, bottom: u32| one(2, 0, moved_fields((top, 0), (bottom, 1)));
    t.refused("word 5 before word 7", &base(outside, beyond), 10, 3, 5);
    t.refused("word 5 before its copy in word 6", &base(outside, 0).flipped(3, 6, 1), 10, 3, 5);
    t.refused("copy in word 6 before word 7", &base(0, beyond).flipped(3, 6, 1), 8, 3, 6);
    t.refused("9 in word 7", &base(0, beyond), 9, 3, 7);
    t.refused("10 in word 7", &base(0, outside), 10, 3, 7);
    t.refused("word 7 before a copy in word 8", &base(0, outside).flipped(3, 8, 1), 10, 3, 7);
    t.refused("word 8 a copy of word 7", &base(0, outside).flipped(3, 8, outside), 10, 3, 7);
    for (y, number) in [(15, 0), (16, 9), (8, 0), (-1, 10)] {
        let frame = Frame { codes: [1, 1, 15, 15], ..Frame::with_fields(2, 1, 2) };
        let batch = rows(&frame, &[moved(1, word_of(0, y), 0), fields()]);
        t.due("a frame's vector beside one of fields", &batch, number, 3, 5);
    }
    // x and y have their own f codes
    for (codes, v, number) in [([1, 9], (16, 0), 9), ([9, 1], (16, 0), 0), ([9, 1], (0, 8), 9), ([1, 9], (0, 8), 0)] {
        let frame = Frame { codes: [codes[0], codes[1], 15, 15], ..Frame::with_fields(2, 2, 2) };
        let c = moved_fields((0, 0), (word_of(v.0, v.1), 0));
        let batch = rows(&frame, &[c, fields(), fields(), fields()]);
        t.due("f codes of x and y by fields", &batch, number, 3, 7);
    }
}
