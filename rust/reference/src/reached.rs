//! What tiles and fields bring about at the ends of a window, and which of it a block or a batch reaches. For tests that count
//! it.

use crate::check_macroblock::Place;
use crate::check_picture::{picture, surface};
use crate::decode::commands;
use crate::leaf::{byte_at, Block, Plane, Structure, Window};
use std::collections::BTreeMap;

pub const MARKS: [&str; 6] = [
    "luma has the highest byte",
    "the highest byte is in an earlier row, but in a later strip of its tile row",
    "the highest byte is in an earlier strip, but in a later tile row",
    "the highest byte is the last of the first tile's columns",
    "the highest byte is in a later tile of its tile row",
    "a block has chroma in two tile rows",
];

pub const LOWEST_MARKS: [&str; 5] = [
    "the lowest byte is not byte 0",
    "the lowest byte is in a later tile of its tile row",
    "the lowest byte is in a later tile row",
    "the lowest byte is in a later row, but in an earlier strip of its tile row",
    "the lowest byte is in a later strip, but in an earlier tile row",
];

/// No batch has this: C ≥ 16H, and a block's first chroma column is in no earlier strip than its first luma column.
pub const CB_LOWEST: &str = "Cb has the lowest byte";

/// Which macroblock, of three or more, has the lowest byte; of several that have it, the first.
pub const LOWEST_BY: [&str; 3] = [
    "the first macroblock has the lowest byte",
    "a macroblock in the middle has the lowest byte",
    "the last macroblock has the lowest byte",
];

/// What blocks of a field bring about.
pub const FIELD_MARKS: [&str; 6] = [
    "a block of the top field has the highest byte",
    "a block of the bottom field has the highest byte",
    "a block of the top field has the lowest byte",
    "a block of the bottom field has the lowest byte",
    "a block of a field has nine rows of luma",
    "a block of a field has five rows of chroma",
];

pub const UNTOUCHED: &str = "no byte is touched";

/// A byte, with its plane, column and row, and what its block is made of.
type Sample = (u64, Plane, u64, u64, Structure);

/// What is touched of one buffer.
#[derive(Default)]
pub struct Touched {
    lowest: Option<Sample>,
    highest: Option<Sample>,
    /// The number of the block that has the lowest byte.
    lowest_by: usize,
    /// The columns and the rows that samples stand in, from the first to the last.
    columns: Option<Window>,
    rows: Option<Window>,
    chroma_in_two: bool,
    nine_rows: bool,
    five_chroma_rows: bool,
}

impl Touched {
    pub fn add(&mut self, number: usize, block: &Block) {
        let (mut luma_rows, mut chroma_rows) = (None, None);
        block.each_sample(|plane, column, row| {
            let byte = byte_at(block.pitch, column, row);
            let sample = Some((byte, plane, column, row, block.structure));
            if self.lowest.is_none_or(|lowest| byte < lowest.0) {
                (self.lowest, self.lowest_by) = (sample, number);
            }
            if self.highest.is_none_or(|highest| highest.0 < byte) {
                self.highest = sample;
            }
            Window::add(&mut self.columns, column);
            Window::add(&mut self.rows, row);
            Window::add(if plane == Plane::Luma { &mut luma_rows } else { &mut chroma_rows }, row);
        });
        self.chroma_in_two |= chroma_rows.is_some_and(|rows| rows.first / 32 < rows.last / 32);
        let spans = |rows: Option<Window>, count: u64| rows.is_some_and(|rows| rows.last - rows.first == 2 * (count - 1));
        self.nine_rows |= block.structure != Structure::Frame && spans(luma_rows, 9);
        self.five_chroma_rows |= block.structure != Structure::Frame && spans(chroma_rows, 5);
    }

    fn highest_marks(&self) -> Option<[bool; 6]> {
        let ((_, plane, column, row, _), columns, rows) = (self.highest?, self.columns?, self.rows?);
        Some([
            plane == Plane::Luma,
            row < rows.last,
            column / 16 < columns.last / 16,
            column == 127,
            column >= 128,
            self.chroma_in_two,
        ])
    }

    fn lowest_marks(&self) -> Option<[bool; 5]> {
        let ((byte, _, column, row, _), columns, rows) = (self.lowest?, self.columns?, self.rows?);
        Some([byte != 0, column >= 128, row >= 32, row > rows.first, column / 16 > columns.first / 16])
    }

    fn field_marks(&self) -> [bool; 6] {
        let by = |end: Option<Sample>, structure: Structure| end.is_some_and(|end| end.4 == structure);
        let ends = [self.highest, self.lowest].map(|end| [by(end, Structure::Top), by(end, Structure::Bottom)]);
        [ends[0][0], ends[0][1], ends[1][0], ends[1][1], self.nine_rows, self.five_chroma_rows]
    }

    /// The marks that apply.
    pub fn marks(&self) -> Vec<&'static str> {
        let (Some(highest), Some(lowest)) = (self.highest_marks(), self.lowest_marks()) else { return vec![UNTOUCHED] };
        let both = MARKS.into_iter().zip(highest).chain(LOWEST_MARKS.into_iter().zip(lowest));
        let cb = (CB_LOWEST, self.lowest.is_some_and(|lowest| lowest.1 == Plane::Cb));
        both.chain(FIELD_MARKS.into_iter().zip(self.field_marks())).chain([cb]).filter(|mark| mark.1).map(|mark| mark.0).collect()
    }

    /// The same for what so many macroblocks touch.
    fn marks_of(&self, macroblocks: usize) -> Vec<&'static str> {
        let by = match self.lowest_by {
            0 => LOWEST_BY[0],
            last if last + 1 == macroblocks => LOWEST_BY[2],
            _ => LOWEST_BY[1],
        };
        let named = self.lowest.filter(|_| macroblocks >= 3).map(|_| by);
        self.marks().into_iter().chain(named).collect()
    }
}

/// What a batch that keeps every rule touches of the four buffers, and how many macroblocks it has.
fn touched_by(words: &[u32]) -> ([Touched; 4], usize) {
    let mut touched: [Touched; 4] = Default::default();
    let all = commands(words);
    let first = |name: &str| all.iter().find(|command| command.0 == name).unwrap().1;
    let picture = picture(&surface(first("SURFACE")), first("PICTURE"));
    for (k, (_, c)) in all.iter().filter(|command| command.0 == "MACROBLOCK").enumerate() {
        let at = Place { picture: &picture, k, before: None, first: false };
        (0..2).for_each(|buffer| touched[buffer].add(k, &at.own()));
        for (buffer, _, block) in at.predicted((*c).try_into().unwrap()) {
            touched[buffer].add(k, &block);
        }
    }
    (touched, (picture.columns * picture.rows) as usize)
}

/// How many of these batches reach each mark in each buffer.
pub fn count(batches: impl Iterator<Item = Vec<u32>>) -> BTreeMap<(usize, &'static str), usize> {
    let mut seen = BTreeMap::new();
    for words in batches {
        let (touched, macroblocks) = touched_by(&words);
        for (buffer, touched) in touched.iter().enumerate() {
            touched.marks_of(macroblocks).iter().for_each(|mark| *seen.entry((buffer, *mark)).or_default() += 1);
        }
    }
    seen
}
