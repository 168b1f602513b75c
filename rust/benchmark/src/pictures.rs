//! Valid pictures with the variety of a coded one, the same in every run: vectors that differ from macroblock to macroblock
//! over the whole range of their f code, intra macroblocks among the predicted ones, skipped ones, slices within rows, several
//! groups. Kinds follow each other at random, which is hard on a processor that predicts branches. And P pictures of one kind
//! alone, forward or field, which are compared with each other.

use crate::contenders::Work;
use reference::random::Random;
use std::fmt;

fn percent(r: &mut Random, chance: u64) -> bool {
    r.next() % 100 < chance
}

fn within(r: &mut Random, low: i32, high: i32) -> i32 {
    r.within(low.into(), high.into()) as i32
}

/// A picture type, the size in macroblocks, the f code of every component that has one, and what macroblocks it has.
#[derive(Clone, Copy)]
pub struct Picture {
    /// 1 I, 2 P, 3 B.
    pub coding: u32,
    pub columns: u32,
    pub rows: u32,
    pub f_code: u32,
    pub mix: Mix,
}

#[derive(Clone, Copy, PartialEq, Eq)]
pub enum Mix {
    /// As a coded picture of its type has them, without field prediction.
    Coded,
    /// In P, all predicted from the frame and none skipped.
    Forward,
    /// In P, all of type 04h, with either dct type.
    Field,
}

/// As many macroblocks as the largest picture has.
const MACROBLOCKS: u32 = 256 * 175;

/// Macroblocks of a coded picture: how many of a hundred are intra, and how many repeat the one before as skipped.
const INTRA: [u64; 3] = [100, 12, 6];
const SKIPPED: [u64; 3] = [0, 15, 25];

impl fmt::Display for Picture {
    fn fmt(&self, f: &mut fmt::Formatter<'_>) -> fmt::Result {
        write!(f, "{}x{} {}", self.columns, self.rows, self.name())
    }
}

impl Picture {
    /// With f code 4: vectors from −128 to 127 half samples.
    pub const fn new(coding: u32, columns: u32, rows: u32) -> Picture {
        Picture { coding, columns, rows, f_code: 4, mix: Mix::Coded }
    }

    /// A P picture of forward macroblocks alone.
    pub const fn forward(columns: u32, rows: u32) -> Picture {
        Picture { mix: Mix::Forward, ..Picture::new(2, columns, rows) }
    }

    /// A P picture of field macroblocks alone.
    pub const fn field(columns: u32, rows: u32) -> Picture {
        Picture { mix: Mix::Field, ..Picture::new(2, columns, rows) }
    }

    /// Pictures of one size: of each type as a coded one, and of field macroblocks.
    pub fn all(columns: u32, rows: u32) -> [Picture; 4] {
        let coded = |coding: u32| Picture::new(coding, columns, rows);
        [coded(1), coded(2), coded(3), Picture::field(columns, rows)]
    }

    pub fn name(&self) -> &'static str {
        match self.mix {
            Mix::Coded => ["I", "P", "B"][self.coding as usize - 1],
            Mix::Forward => "forward",
            Mix::Field => "field",
        }
    }

    pub fn macroblocks(&self) -> u32 {
        self.columns * self.rows
    }

    /// Two in each field macroblock. Every other macroblock counts as one, intra ones too.
    pub fn vectors(&self) -> u32 {
        self.macroblocks() * if self.mix == Mix::Field { 2 } else { 1 }
    }

    /// So many different pictures of this size that they have about as many macroblocks as one of the largest. So a small
    /// picture is not found in a nearer cache, and the processor does not learn by heart which macroblock follows which.
    pub fn several(&self) -> Work {
        let count = (MACROBLOCKS / self.macroblocks()).max(1);
        let log = vec![0; 24 * self.macroblocks() as usize];
        Work { batches: (0..count).map(|seed| self.words(seed)).collect(), log }
    }

    fn state(&self) -> Vec<u32> {
        let (width, height) = (16 * self.columns, 16 * self.rows);
        let pitch = width.next_multiple_of(128);
        let codes = [0xffff, 0xff00 | (self.f_code * 0x11), self.f_code * 0x1111][self.coding as usize - 1];
        let mut words = vec![0x7001_0004, 0, (height - 1) << 18 | (width - 1) << 4, 0x4800_0003 | (pitch - 1) << 3, height, 0];
        let frame_only = u32::from(self.mix != Mix::Field) << 10;
        words.extend([0x7300_000b, codes << 16 | 0x3000 | frame_only, self.coding << 9]);
        words.push((self.rows - 1) << 16 | (self.columns - 1));
        words.extend([0; 9]);
        words
    }

    /// The whole batch. A slice ends with its row and once in fifty macroblocks within it, a group about every fourth row.
    pub fn words(&self, seed: u32) -> Vec<u32> {
        let mut r = Random::new(u64::from(self.coding << 16 | seed) << 32 | u64::from(self.columns << 16 | self.rows));
        let mut words = self.state();
        let (mut slice_begins, mut group_begins) = (true, true);
        let mut before = Prediction::Intra;
        for k in 0..self.macroblocks() {
            let (column, row) = (k % self.columns, k / self.columns);
            let row_ends = column + 1 == self.columns;
            let slice_ends = row_ends || percent(&mut r, 2);
            let group_ends = row_ends && (row + 1 == self.rows || percent(&mut r, 25));
            if group_begins {
                words.extend([0x7343_0006, 0, 0, 0, 0, 0, 0, 0]);
            }
            let inner = !slice_begins && !slice_ends;
            let repeated =
                self.repeated(before, column, row).filter(|_| inner && percent(&mut r, SKIPPED[self.coding as usize - 1]));
            let prediction = repeated.unwrap_or_else(|| self.predicted(&mut r, column, row));
            let pattern = match prediction {
                Prediction::Intra => 63,
                _ if repeated.is_some() => 0,
                _ => r.next() as u32 & 63,
            };
            let flags = u32::from(slice_ends) << 31 | u32::from(slice_begins) << 30;
            let groups = u32::from(group_ends) << 26 | u32::from(group_begins) << 24;
            words.extend([0x7349_0007, prediction.type_bits() | u32::from(repeated.is_some()) << 2, row << 16 | column]);
            words.extend([0xff80_0000 | pattern << 6, flags | groups | prediction.choices() | within(&mut r, 1, 31) as u32]);
            words.extend(prediction.vector_words());
            (slice_begins, group_begins, before) = (slice_ends, group_ends, prediction);
        }
        words.push(0x0500_0000);
        words
    }

    fn predicted(&self, r: &mut Random, column: u32, row: u32) -> Prediction {
        match self.mix {
            Mix::Coded => self.coded(r, column, row),
            Mix::Forward => Prediction::Forward(self.vector(r, column, row)),
            Mix::Field => {
                let (top, bottom) = (self.vector(r, column, row), self.vector(r, column, row));
                Prediction::Field(top, bottom, r.next() as u32)
            }
        }
    }

    fn coded(&self, r: &mut Random, column: u32, row: u32) -> Prediction {
        if percent(r, INTRA[self.coding as usize - 1]) {
            return Prediction::Intra;
        }
        let (forward, backward) = (self.vector(r, column, row), self.vector(r, column, row));
        match if self.coding == 2 { 0 } else { within(r, 0, 3) } {
            0 => Prediction::Forward(forward),
            1 => Prediction::Backward(backward),
            _ => Prediction::Both(forward, backward),
        }
    }

    /// The values that a component may have at a place in a line of n macroblocks of so many samples.
    fn span(&self, samples: i32, place: u32, n: u32) -> (i32, i32) {
        let limit = samples << self.f_code >> 1;
        ((-limit).max(-2 * samples * place as i32), (limit - 1).min(2 * samples * (n - 1 - place) as i32))
    }

    /// The spans of x and y. A macroblock has 16 rows in the frame and 8 in a field.
    fn spans(&self, column: u32, row: u32) -> [(i32, i32); 2] {
        let rows = if self.mix == Mix::Field { 8 } else { 16 };
        [self.span(16, column, self.columns), self.span(rows, row, self.rows)]
    }

    fn vector(&self, r: &mut Random, column: u32, row: u32) -> (i32, i32) {
        self.spans(column, row).map(|(low, high)| within(r, low, high)).into()
    }

    /// What a skipped macroblock may be here: unmoved in P, like the one before in B.
    fn repeated(&self, before: Prediction, column: u32, row: u32) -> Option<Prediction> {
        let fits = |(x, y): (i32, i32)| {
            let [(left, right), (top, bottom)] = self.spans(column, row);
            (left..=right).contains(&x) && (top..=bottom).contains(&y)
        };
        match (self.coding, before) {
            _ if self.mix != Mix::Coded => None,
            (2, _) => Some(Prediction::Forward((0, 0))),
            (3, Prediction::Forward(v) | Prediction::Backward(v)) if fits(v) => Some(before),
            (3, Prediction::Both(v, w)) if fits(v) && fits(w) => Some(before),
            _ => None,
        }
    }
}

#[derive(Clone, Copy)]
enum Prediction {
    Intra,
    Forward((i32, i32)),
    Backward((i32, i32)),
    Both((i32, i32), (i32, i32)),
    /// For the top and for the bottom field; and bits of which 15 is the dct type, 16 and 18 choose the reference fields.
    Field((i32, i32), (i32, i32), u32),
}

impl Prediction {
    fn type_bits(self) -> u32 {
        match self {
            Prediction::Intra => 0x3a00,
            Prediction::Forward(_) => 0x100,
            Prediction::Backward(_) => 0x200,
            Prediction::Both(_, _) => 0x300,
            Prediction::Field(_, _, bits) => 0x4401 | bits & 1 << 15,
        }
    }

    /// Bits 16 and 18 of word 4.
    fn choices(self) -> u32 {
        match self {
            Prediction::Field(_, _, bits) => bits & (1 << 16 | 1 << 18),
            _ => 0,
        }
    }

    fn vector_words(self) -> [u32; 4] {
        let word = |(x, y): (i32, i32)| u32::from(y as u16) << 16 | u32::from(x as u16);
        match self {
            Prediction::Intra => [0; 4],
            Prediction::Forward(v) | Prediction::Backward(v) => [word(v); 4],
            Prediction::Both(v, w) => [word(v), word(w), word(v), word(w)],
            Prediction::Field(v, w, _) => [word(v), word(v), word(w), word(v)],
        }
    }
}
