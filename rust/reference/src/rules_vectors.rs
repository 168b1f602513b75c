//! Rules of MACROBLOCK's words 5 to 8 and of the buffers: 8, 9, 10 and 13.

use crate::batch::{moved, rows, small_b, small_i, small_p, Batch, Frame};
use crate::batch_cases::needed;
use crate::batch_rules::Table;
use crate::leaf::word_of;

/// "A missing vector is a copy": for each kind, the place that a change of each of words 5 to 8 gives.
pub fn copies(t: &mut Table) {
    let (forward, backward) = (word_of(3, 6), word_of(6, 1));
    for (kind, places) in [(0, [5, 6, 7, 8]), (1, [6, 6, 7, 8]), (2, [5, 5, 7, 8]), (3, [7, 8, 7, 8])] {
        let base = rows(&Frame::new(3, 2, 2), &[moved(kind, forward, backward); 1]);
        t.answer("a macroblock too few", base.words(), (3, base.place(4, 0)));
        for (word, place) in (5..9).zip(places) {
            t.refused(&format!("kind {kind}, word {word} changed"), &base.flipped(3, word, 1), 8, 3, place);
            let kept = base.0[3][word];
            let halves = base.flipped(3, word, kept ^ kept.rotate_left(16));
            let zeroed = base.flipped(3, word, kept);
            if kind != 0 {
                t.refused(&format!("kind {kind}, halves of word {word} exchanged"), &halves, 8, 3, place);
                t.refused(&format!("kind {kind}, word {word} left zero"), &zeroed, 8, 3, place);
            }
        }
    }
    // "forward only or backward only, all four equal; both, 7 = 5 and 8 = 6"
    for kind in 0..4 {
        let c = moved(kind, forward, backward);
        let still = moved(kind, 0, 0);
        t.passes(&format!("copies of kind {kind}"), &rows(&Frame::new(3, 2, 2), &[c, still, still, still]));
    }
}

/// Two macroblocks, beside each other (axis 0) or one below the other (axis 1), unmoved but for the tested vector of one.
fn one_moved(sort: u32, kind: u32, code: u32, k: usize, tested: usize, axis: usize, at: i64) -> Batch {
    let mut frame = if axis == 0 { Frame::new(sort, 2, 1) } else { Frame::new(sort, 1, 2) };
    frame.codes = frame.codes.map(|before| if before == 15 { 15 } else { code });
    let v = if axis == 0 { word_of(at, 0) } else { word_of(0, at) };
    let mut both = [moved(kind, 0, 0); 2];
    both[k] = if tested == 5 { moved(kind, v, 0) } else { moved(kind, 0, v) };
    rows(&frame, &both)
}

/// Picture type, kind and word of each vector that a macroblock can have.
const VECTORS: [(u32, u32, usize); 5] = [(2, 1, 5), (3, 1, 5), (3, 2, 6), (3, 3, 5), (3, 3, 6)];

/// Macroblock, f code, component and the number due. Macroblock 0 can go 32 half samples up, macroblock 1 as many down.
pub const LIMITS: [(usize, u32, i64, u8); 14] = [
    (0, 1, 15, 0),
    (0, 1, 16, 9),
    (1, 1, -16, 0),
    (1, 1, -17, 9),
    (0, 3, 32, 0),
    (0, 3, 33, 10),
    (0, 3, -1, 10),
    (1, 3, -32, 0),
    (1, 3, -33, 10),
    (1, 3, 1, 10),
    (0, 2, 32, 9),
    (1, 2, -33, 9),
    (0, 9, -4096, 10),
    (1, 9, 4096, 9),
];

/// "With f code c a component lies from −16·2^(c−1) to 16·2^(c−1)−1", and the block inside the picture: each end, x and y.
pub fn limits(t: &mut Table) {
    for (sort, kind, word) in VECTORS {
        let tested = if sort == 2 { &LIMITS[..] } else { &LIMITS[..10] };
        for &(k, code, at, number) in tested {
            for axis in [0, 1] {
                let batch = one_moved(sort, kind, code, k, word, axis, at);
                let name = format!("type {sort} kind {kind} word {word} f code {code} axis {axis}: {at}");
                t.due(&name, &batch, number, 3 + k, word);
            }
        }
    }
    order_in_a_vector(t);
}

/// "Words upwards, and in a word the smaller number first", among 8, 9 and 10; and x and y have their own f codes.
fn order_in_a_vector(t: &mut Table) {
    let beyond = word_of(-40, 0);
    let one = |forward: u32, backward: u32, kind: u32| rows(&Frame::new(3, 1, 1), &[moved(kind, forward, backward)]);
    t.refused("word 5 before word 6", &one(2, word_of(0, 64), 3), 10, 3, 5);
    t.refused("9 in word 6", &one(0, word_of(0, 64), 3), 9, 3, 6);
    t.refused("copy in word 5 before backward vector", &one(0, 64, 2).flipped(3, 5, 1), 8, 3, 5);
    t.refused("backward vector before copy in word 7", &one(0, 64, 2).flipped(3, 7, 1), 9, 3, 6);
    t.refused("forward vector before copy in word 6", &one(beyond, 0, 1).flipped(3, 6, 1), 10, 3, 5);
    for n in 0..4 {
        let mut frame = Frame { codes: [9; 4], ..Frame::new(3, 3, 3) };
        frame.codes[n] = 1;
        let v = [word_of(17, 0), word_of(0, 17)];
        for (direction, axis) in [(0, 0), (0, 1), (1, 0), (1, 1)] {
            let kind = direction + 1;
            let batch = rows(&frame, &[moved(kind, v[axis], v[axis]); 1]);
            let narrow = n == 2 * direction as usize + axis;
            let (number, command, word) = if narrow { (9, 3, 4 + kind as usize) } else { (3, 4, 0) };
            t.refused(&format!("f code {n} of four is 1, vector {direction} axis {axis}"), &batch, number, command, word);
        }
    }
}

/// Short in one buffer and in several, by a byte and by all.
fn shorts(t: &mut Table, name: &str, batch: &Batch, sets: &[&[usize]]) {
    let words = batch.words();
    let exact = needed(&words);
    t.beside(&format!("{name}, exact buffers"), words.clone(), exact, (0, 0));
    for (n, set) in sets.iter().enumerate() {
        for less in [|_| 0, |length| length - 1] as [fn(u64) -> u64; 2] {
            let mut buffers = if n % 2 == 0 { exact } else { [u64::MAX; 4] };
            set.iter().for_each(|buffer| buffers[*buffer] = less(exact[*buffer]));
            t.beside(&format!("{name}, short {set:?}"), words.clone(), buffers, (13, set[0]));
        }
    }
}

/// "Buffer too short", at the "lowest such buffer".
pub fn buffers(t: &mut Table) {
    let one = |sort: u32, kind: u32| rows(&Frame::new(sort, 1, 1), &[moved(kind, 0, 0)]);
    let both = rows(&Frame::new(3, 2, 1), &[moved(3, 6, 32), moved(1, 0, 0)]);
    let several: [&[usize]; 8] = [&[0, 1], &[0, 3], &[1, 2], &[1, 3], &[2, 3], &[0, 2, 3], &[1, 2, 3], &[0, 1, 2, 3]];
    shorts(t, "both", &both, &[&[0], &[1], &[2], &[3]]);
    shorts(t, "both", &both, &several);
    shorts(t, "forward", &one(2, 1), &[&[0], &[1], &[2]]);
    shorts(t, "backward", &one(3, 2), &[&[0], &[1], &[3]]);
    shorts(t, "intra", &one(1, 0), &[&[0], &[1]]);
    for batch in [small_i(), small_p(), small_b()] {
        let exact = needed(&batch.words());
        t.beside("longest buffers", batch.words(), [u64::MAX; 4], (0, 0));
        t.beside("exact buffers", batch.words(), exact, (0, 0));
        t.beside("empty buffers", batch.words(), [0; 4], (13, 0));
        t.beside("lengths with an empty low half", batch.words(), [1 << 32; 4], (0, 0));
    }
}
