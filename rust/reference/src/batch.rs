//! Batches put together from a description of their picture.

use crate::command::*;
use crate::command_cases::{by_fields, plain};
use crate::leaf::word_of;

pub const SURFACE: u32 = 0x7001_0004;
pub const PICTURE: u32 = 0x7300_000b;
pub const SLICEGROUP: u32 = 0x7343_0006;
pub const END: u32 = 0x0500_0000;

/// What the state commands say.
#[derive(Clone, Copy)]
pub struct Frame {
    /// 1 I, 2 P, 3 B.
    pub sort: u32,
    pub columns: u32,
    pub rows: u32,
    pub width: u32,
    pub height: u32,
    pub pitch: u32,
    pub chroma_row: u32,
    /// Forward x, forward y, backward x, backward y.
    pub codes: [u32; 4],
    /// PICTURE bit 10 is 0.
    pub fields: bool,
}

impl Frame {
    /// Whole macroblocks, the least buffers, f code 3, and PICTURE bit 10 set.
    pub fn new(sort: u32, columns: u32, rows: u32) -> Frame {
        Frame {
            sort,
            columns,
            rows,
            width: 16 * columns,
            height: 16 * rows,
            pitch: (16 * columns).next_multiple_of(128),
            chroma_row: 16 * rows,
            codes: [[15; 4], [3, 3, 15, 15], [3; 4]][sort as usize - 1],
            fields: false,
        }
    }

    /// The same with PICTURE bit 10 = 0.
    pub fn with_fields(sort: u32, columns: u32, rows: u32) -> Frame {
        Frame { fields: true, ..Frame::new(sort, columns, rows) }
    }

    pub fn surface(&self) -> Vec<u32> {
        let (size, form) = ((self.height - 1) << 18 | (self.width - 1) << 4, 4 << 28 | 1 << 27 | 3);
        vec![SURFACE, 0, size, form | (self.pitch - 1) << 3, self.chroma_row, 0]
    }

    pub fn picture(&self) -> Vec<u32> {
        let [forward_x, forward_y, backward_x, backward_y] = self.codes;
        let codes = forward_x << 16 | forward_y << 20 | backward_x << 24 | backward_y << 28;
        let one = codes | 3 << 12 | u32::from(!self.fields) << 10;
        let mut words = vec![PICTURE, one, self.sort << 9, (self.rows - 1) << 16 | (self.columns - 1)];
        words.resize(13, 0);
        words
    }

    pub fn macroblocks(&self) -> usize {
        (self.columns * self.rows) as usize
    }
}

/// What ends with a macroblock: nothing, its slice, or its slice and its group.
#[derive(Clone, Copy, PartialEq, Eq)]
pub enum End {
    Nothing,
    Slice,
    Group,
}

/// A batch, command by command.
#[derive(Clone)]
pub struct Batch(pub Vec<Vec<u32>>);

impl Batch {
    pub fn words(&self) -> Vec<u32> {
        self.0.concat()
    }

    /// Where a word of a command stands.
    pub fn place(&self, command: usize, word: usize) -> usize {
        self.0[..command].iter().map(Vec::len).sum::<usize>() + word
    }

    /// The same batch with bits of one word flipped.
    pub fn flipped(&self, command: usize, word: usize, bits: u32) -> Batch {
        let mut batch = self.clone();
        batch.0[command][word] ^= bits;
        batch
    }

    /// The same batch with a field of a MACROBLOCK command set.
    pub fn set(&self, command: usize, field: Field, value: u32) -> Batch {
        let mut batch = self.clone();
        let mut c: Command = batch.0[command][..].try_into().unwrap();
        field.set(&mut c, value);
        batch.0[command] = c.into();
        batch
    }
}

/// The batch of these macroblocks, as many as are given, with their positions and the flags due. SURFACE is command 0,
/// PICTURE 1, the first SLICEGROUP 2 and the first MACROBLOCK 3.
pub fn lay_out(frame: &Frame, macroblocks: &[(Command, End)]) -> Batch {
    let mut commands = vec![frame.surface(), frame.picture()];
    let mut before = End::Group;
    for (k, &(mut c, end)) in (0..).zip(macroblocks) {
        if before == End::Group {
            commands.push(vec![SLICEGROUP, 0, 0, 0, 0, 0, 0, 0]);
        }
        COLUMN.set(&mut c, k % frame.columns);
        ROW.set(&mut c, k / frame.columns);
        FIRST_IN_SLICE.set(&mut c, (before != End::Nothing).into());
        FIRST_IN_GROUP.set(&mut c, (before == End::Group).into());
        LAST_IN_SLICE.set(&mut c, (end != End::Nothing).into());
        LAST_IN_GROUP.set(&mut c, (end == End::Group).into());
        commands.push(c.into());
        before = end;
    }
    commands.push(vec![END]);
    Batch(commands)
}

/// A slice for each row, and one group.
pub fn rows(frame: &Frame, macroblocks: &[Command]) -> Batch {
    let end = |k: usize| match k + 1 {
        next if next == frame.macroblocks() => End::Group,
        next if next % frame.columns as usize == 0 => End::Slice,
        _ => End::Nothing,
    };
    lay_out(frame, &macroblocks.iter().enumerate().map(|(k, c)| (*c, end(k))).collect::<Vec<_>>())
}

/// Every macroblock alike and unmoved: intra in I, forward in P, both in B.
pub fn still(frame: &Frame) -> Batch {
    let kind = [0, 1, 3][frame.sort as usize - 1];
    rows(frame, &vec![plain(kind, 0, 0); frame.macroblocks()])
}

/// Coded, with the vectors that its kind has.
pub fn moved(kind: u32, forward: u32, backward: u32) -> Command {
    let mut c = plain(kind, forward, backward);
    if kind != 0 {
        PATTERN.set(&mut c, 0b100110);
    }
    c
}

/// Coded and predicted by fields: the top field's vector and the bottom's, each with the reference's field that is chosen for it.
pub fn moved_fields(top: (u32, u32), bottom: (u32, u32)) -> Command {
    let mut c = by_fields(top.0, bottom.0);
    for (f, value) in [(PATTERN, 0b100110), (TOP_CHOICE, top.1), (BOTTOM_CHOICE, bottom.1)] {
        f.set(&mut c, value);
    }
    c
}

/// The macroblock with its dct type set.
pub fn field_dct(mut c: Command) -> Command {
    DCT_TYPE.set(&mut c, 1);
    c
}

pub fn skip(kind: u32, forward: u32, backward: u32) -> Command {
    let mut c = plain(kind, forward, backward);
    SKIP.set(&mut c, 1);
    c
}

/// Three by one: intra throughout.
pub fn small_i() -> Batch {
    still(&Frame::new(1, 3, 1))
}

/// Three by one: forward, skipped, intra.
pub fn small_p() -> Batch {
    rows(&Frame::new(2, 3, 1), &[moved(1, 5, 0), skip(1, 0, 0), moved(0, 0, 0)])
}

/// Three by one: both, skipped like it, backward.
pub fn small_b() -> Batch {
    rows(&Frame::new(3, 3, 1), &[moved(3, 4, 7), skip(3, 4, 7), moved(2, 0, 0xfffd)])
}

/// Three by two with PICTURE bit 10 = 0, P: by fields, skipped, intra; forward, and by fields twice; every second coded one with
/// its dct type set.
pub fn small_f() -> Batch {
    let fields = |top: (i64, i64, u32), bottom: (i64, i64, u32)| {
        moved_fields((word_of(top.0, top.1), top.2), (word_of(bottom.0, bottom.1), bottom.2))
    };
    let upper = [field_dct(fields((5, 2, 1), (3, 7, 0))), skip(1, 0, 0), moved(0, 0, 0)];
    let lower = [field_dct(moved(1, 9, 0)), fields((-3, -5, 0), (1, 0, 0)), field_dct(fields((-6, -16, 1), (-7, -1, 1)))];
    rows(&Frame::with_fields(2, 3, 2), &[upper, lower].concat())
}
