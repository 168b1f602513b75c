//! B pictures, and P pictures predicted by fields, with vectors that are chosen; and both checkers held to the second program's
//! answers to them.

use benchmark::batch_check;
use reference::batch::{moved, moved_fields, rows, Frame};
use reference::batch_valid::{halved, inside, range};
use reference::check::{beside, judge, lengths_of, Judged, Report, Windows};
use reference::command::Command;
use reference::command_cases::plain;
use reference::leaf::word_of;

/// What a batch comes to, beside lengths as they are needed and shorter ones.
pub fn judged(words: &[u32]) -> Judged {
    let judged = judge(words);
    let needed = judged.map_or([384; 4], lengths_of);
    for buffers in [needed, needed.map(|length| length.saturating_sub(1))] {
        let due = beside(judged, buffers);
        assert_eq!(batch_check::check(words, buffers), due, "c: {words:x?} {buffers:?}");
        let (number, place, lengths, firsts) = reference::plain::check(words, buffers);
        assert_eq!(Report { number, place, lengths, firsts }, due, "plain: {words:x?} {buffers:?}");
    }
    judged
}

/// The same for a batch that keeps every rule: what it touches.
pub fn held(words: &[u32]) -> Windows {
    judged(words).expect("every rule is kept")
}

/// A B picture in which every vector is within its f code.
pub fn frame(columns: u32, rows: u32, pitch: u32, chroma_row: u32) -> Frame {
    Frame { pitch, chroma_row, codes: [9; 4], ..Frame::new(3, columns, rows) }
}

/// A P picture in which every vector of a field is.
pub fn field_frame(columns: u32, rows: u32, pitch: u32, chroma_row: u32) -> Frame {
    Frame { pitch, chroma_row, codes: [9, 9, 15, 15], ..Frame::with_fields(2, columns, rows) }
}

/// x and y.
pub type Vector = (i64, i64);

/// A vector, and the field of the reference that is chosen for it: 0 top, 1 bottom.
pub type FieldVector = (Vector, u32);

/// Intra, but for these macroblocks: number, forward and backward vector.
pub fn picture(frame: &Frame, predicted: &[(u32, Vector, Vector)]) -> Vec<u32> {
    let mut all: Vec<Command> = vec![moved(0, 0, 0); frame.macroblocks()];
    for &(k, (forward_x, forward_y), (backward_x, backward_y)) in predicted {
        all[k as usize] = plain(3, word_of(forward_x, forward_y), word_of(backward_x, backward_y));
    }
    rows(frame, &all).words()
}

/// Intra, but for these macroblocks: number, the top field's vector and the bottom's.
pub fn field_picture(frame: &Frame, predicted: &[(u32, FieldVector, FieldVector)]) -> Vec<u32> {
    let mut all: Vec<Command> = vec![moved(0, 0, 0); frame.macroblocks()];
    let words = |((x, y), field): FieldVector| (word_of(x, y), field);
    for &(k, top, bottom) in predicted {
        all[k as usize] = moved_fields(words(top), words(bottom));
    }
    rows(frame, &all).words()
}

/// The values that are in both.
fn common((low, high): (i64, i64), (least, most): (i64, i64)) -> (i64, i64) {
    (low.max(least), high.min(most))
}

/// The first and the last component that the k-th macroblock may have, in x and in y, with the same f code both ways.
pub fn spans(frame: &Frame, k: u32) -> [(i64, i64); 2] {
    let [x, y] = [inside(k % frame.columns, frame.columns), inside(k / frame.columns, frame.rows)];
    [common(range(frame.codes[0]), x), common(range(frame.codes[1]), y)]
}

/// The same of a vector of a field.
pub fn field_spans(frame: &Frame, k: u32) -> [(i64, i64); 2] {
    let y = inside(k / frame.columns, frame.rows);
    [spans(frame, k)[0], common(halved(range(frame.codes[1])), halved(y))]
}
