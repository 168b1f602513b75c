//! A fast plain checker of a whole batch, as the author of a driver might write it: one pass, formulas in place of samples,
//! nothing allocated. It is what the proved check is timed against, and is held against the plainest reading (`check`) by
//! the tests below.
//!
//! A macroblock's kind and skip bit are taken apart at once, and each sort then has few tests, which end at the first one
//! that fails (`keeps`). Only of a macroblock that breaks a rule is it asked which (`fault`).

/// Number, place, the four lengths and the four first bytes, zeros where none are reported.
pub type Answer = (u8, u64, [u64; 4], [u64; 4]);

/// A number and the word where it stands.
type Fault = (u8, usize);

const NOOP: u32 = 0x0000_0000;
const END: u32 = 0x0500_0000;
const SURFACE: u32 = 0x7001_0004;
const PICTURE: u32 = 0x7300_000b;
const SLICEGROUP: u32 = 0x7343_0006;
const MACROBLOCK: u32 = 0x7349_0007;

const I: u32 = 1;
const P: u32 = 2;
const B: u32 = 3;

/// Words of the command that a header begins, 0 for none.
fn count(header: u32) -> usize {
    match header {
        NOOP | END => 1,
        SURFACE => 6,
        PICTURE => 13,
        SLICEGROUP => 8,
        MACROBLOCK => 9,
        0x7000_0003 => 5,
        0x7002_003b => 61,
        0x7003_0018 => 26,
        0x7004_0008 => 10,
        0x7007_0010 => 18,
        0x7008_0020 => 34,
        _ => 0,
    }
}

/// The four lengths and the four first bytes, or the first of 2 to 12, or 1.
fn walk(words: &[u32]) -> Result<[[u64; 4]; 2], Fault> {
    let mut check = Check::default();
    let mut at = 0;
    while at < words.len() {
        let header = words[at];
        let count = count(header);
        if count == 0 {
            return Err((2, at));
        }
        let Some(c) = words.get(at..at + count) else { break };
        match header {
            MACROBLOCK => {
                at = check.macroblocks(words, at)?;
                continue;
            }
            NOOP => {}
            END if check.pictured && check.row == check.rows && !check.in_group => {
                return match words[at + 1..].iter().position(|word| *word != 0) {
                    Some(further) => Err((12, at + 1 + further)),
                    None => Ok([check.lengths(), check.first_bytes()]),
                };
            }
            SURFACE if !check.surfaced => check.surface(c).map_err(|(number, word)| (number, at + word))?,
            PICTURE if check.surfaced && !check.pictured => check.picture(c).map_err(|(number, word)| (number, at + word))?,
            SLICEGROUP if check.pictured && check.row < check.rows && !check.in_group => check.group(),
            SURFACE | PICTURE | SLICEGROUP | END => return Err((3, at)),
            _carried if check.grouped => return Err((3, at)),
            _carried => {}
        }
        at += count;
    }
    Err((1, words.len()))
}

/// How far a batch has come.
#[derive(Default)]
struct Check {
    surfaced: bool,
    pictured: bool,
    grouped: bool,
    in_group: bool,
    /// From SURFACE.
    width: u32,
    height: u32,
    pitch: u32,
    chroma_row: u32,
    /// From PICTURE: type, whether bit 10 is 0, W, H, and the f codes' limits for a forward, a backward and a field's vector: a
    /// component lies from −limit to limit−1.
    coding: u32,
    fields: bool,
    columns: u32,
    rows: u32,
    limits: [[i32; 2]; 3],
    /// Where the next macroblock stands.
    column: u32,
    row: u32,
    /// What their y may be in this row: from the first of these numbers, and how many numbers.
    spans: [[i32; 2]; 3],
    /// Bits 30 and 24 of word 4 as they must be in the next macroblock: no slice is open, a group begins.
    first: u32,
    /// The macroblock before: kind (0 for none, too) and words 5 and 6, from which 7 and 8 follow.
    before: [u32; 3],
    /// One more than the highest byte of any block in each reference, 0 for none.
    ends: [u64; 2],
    /// The strip where the chroma ends that was counted with it. A vector whose chroma ends in an earlier one does not raise
    /// the end, and neither does its luma: that ends at most one column further than its Cr, so in no later strip than this
    /// one, and here in a row above chroma's.
    strips: [u32; 2],
    /// Column and row of the lowest byte of any block in each reference; behind the picture's last where there is no block yet.
    starts: [[u32; 2]; 2],
    /// What a vector's y must be below, in this row, and the last column of its chroma, for its block to start before that.
    early: [i32; 2],
    left: [u32; 2],
}

const FIRST_IN_SLICE: u32 = 1 << 30;
const FIRST_IN_GROUP: u32 = 1 << 24;

/// The lower half of word 1 of a field macroblock, bit 15 apart, and the bits of word 4 that choose its reference fields.
const FIELD_HALF: u32 = 0x4401;
const CHOICES: u32 = 1 << 18 | 1 << 16;

/// Sorts of vectors; the first two are numbers of references, too.
const FORWARD: usize = 0;
const BACKWARD: usize = 1;
const FIELD: usize = 2;

impl Check {
    fn surface(&mut self, c: &[u32]) -> Result<(), Fault> {
        let ok = |kept: bool, number: u8, word: usize| if kept { Ok(()) } else { Err((number, word)) };
        ok(c[1] == 0, 4, 1)?;
        ok(c[2] & 0xf == 0, 4, 2)?;
        ok(c[3] & 0xfff0_0007 == 0x4800_0003, 4, 3)?;
        self.pitch = (c[3] >> 3 & 0x1_ffff) + 1;
        ok(self.pitch.is_multiple_of(128), 5, 3)?;
        ok(c[4] & 0xffff_8000 == 0, 4, 4)?;
        self.height = (c[2] >> 18) + 1;
        self.width = (c[2] >> 4 & 0x3fff) + 1;
        self.chroma_row = c[4];
        self.surfaced = true;
        Ok(())
    }

    fn picture(&mut self, c: &[u32]) -> Result<(), Fault> {
        if c[1] & 0x323f != 0x3000 {
            return Err((4, 1));
        }
        self.fields = c[1] & 1 << 10 == 0;
        let codes = [16, 20, 24, 28].map(|low| c[1] >> low & 15);
        let used = codes.map(|code| (1..=9).contains(&code));
        let unused = codes.map(|code| code == 15);
        self.coding = c[2] >> 9 & 3;
        let fit = match self.coding {
            I => unused == [true; 4],
            P => used[..2] == [true; 2] && unused[2..] == [true; 2],
            B => used == [true; 4],
            _ => false,
        };
        if !fit {
            return Err((5, 2));
        }
        (self.columns, self.rows) = ((c[3] & 0xff) + 1, (c[3] >> 16 & 0xff) + 1);
        let (right, bottom) = (16 * self.columns, 16 * self.rows);
        let wide = right - 16 < self.width && self.width <= right && self.pitch >= right;
        let high = bottom - 16 < self.height && self.height <= bottom && self.chroma_row >= bottom;
        if self.rows > 175 || !wide || !high {
            return Err((5, 3));
        }
        let [x, y, backward_x, backward_y] = codes.map(|code| 8 << code);
        self.limits = [[x, y], [backward_x, backward_y], [x, y / 2]];
        (self.starts, self.left) = ([[right, bottom]; 2], [u32::MAX; 2]);
        self.first = FIRST_IN_SLICE;
        self.pictured = true;
        self.begin_row();
        Ok(())
    }

    fn group(&mut self) {
        (self.grouped, self.in_group) = (true, true);
        self.first |= FIRST_IN_GROUP;
    }

    /// The macroblocks from a word on that follow each other. Answers the word behind them.
    fn macroblocks(&mut self, words: &[u32], at: usize) -> Result<usize, Fault> {
        match (self.coding, self.fields) {
            (I, false) => self.run::<I, false>(words, at),
            (I, true) => self.run::<I, true>(words, at),
            (P, false) => self.run::<P, false>(words, at),
            (P, true) => self.run::<P, true>(words, at),
            (_, false) => self.run::<B, false>(words, at),
            (_, true) => self.run::<B, true>(words, at),
        }
    }

    #[inline(never)]
    fn run<const CODING: u32, const FIELDS: bool>(&mut self, words: &[u32], mut at: usize) -> Result<usize, Fault> {
        for c in words[at..].as_chunks::<9>().0 {
            if c[0] != MACROBLOCK {
                break;
            }
            if !self.in_group || self.row >= self.rows {
                return Err((3, at));
            }
            if !self.keeps::<CODING, FIELDS>(c) {
                let (number, word) = self.fault(c);
                return Err((number, at + word));
            }
            self.take::<CODING, FIELDS>(c);
            at += 9;
        }
        Ok(at)
    }

    /// Whether a macroblock keeps every rule. Words 5 and 6 alone are compared with those before: 7 and 8 follow from them.
    #[inline(always)]
    fn keeps<const CODING: u32, const FIELDS: bool>(&self, c: &[u32; 9]) -> bool {
        let [_, one, two, three, four, five, six, seven, eight] = *c;
        let inter = |kind: u32| {
            let forward = kind & 1 == 0 || self.inside(FORWARD, five);
            let backward = kind & 2 == 0 || self.inside(BACKWARD, six);
            let copies = five ^ seven | six ^ eight | if kind == 3 { 0 } else { five ^ six };
            three & 0xf03f | copies == 0 && forward && backward
        };
        let half = half::<FIELDS>(one);
        let coded = match half {
            0x3a00 => three & 0xffff == 0xfc0 && five | six | seven | eight == 0,
            0x100 if CODING != I => inter(1),
            0x200 if CODING == B => inter(2),
            0x300 if CODING == B => inter(3),
            0x104 if CODING == P => three & 0xffff | four & 3 << 30 | five | six | seven | eight == 0,
            0x104 | 0x204 | 0x304 if CODING == B => {
                let kind = one >> 8 & 3;
                three & 0xffff | four & 3 << 30 == 0 && self.before == [kind, five, six] && inter(kind)
            }
            FIELD_HALF if CODING == P && FIELDS => {
                three & 0xf03f | five ^ six | five ^ eight == 0 && self.inside(FIELD, five) && self.inside(FIELD, seven)
            }
            _ => false,
        };
        let fixed = match half {
            FIELD_HALF if FIELDS => 0x71ff_ffe0 & !CHOICES,
            _ if CODING == I => 0x73ff_ffe0,
            _ => 0x71ff_ffe0,
        };
        let last_due = self.column + 1 == self.columns || four & 1 << 26 != 0;
        coded
            && two == self.row << 16 | self.column
            && (four ^ self.first) & fixed == 0
            && four & 31 != 0
            && (!last_due || four >> 31 == 1)
    }

    /// The values that a component may have by its f code and by its place in a line of n macroblocks of so many samples. A block
    /// of 16 samples, 17 for an odd component v, lies within the line exactly if 0 ≤ 32·place + v ≤ 32(n−1); one of 8 likewise.
    fn span(samples: i32, limit: i32, place: u32, n: u32) -> [i32; 2] {
        let low = (-limit).max(-2 * samples * place as i32);
        let high = (limit - 1).min(2 * samples * (n - 1 - place) as i32);
        [low, high - low + 1]
    }

    /// At the beginning of a row.
    fn begin_row(&mut self) {
        if self.row < self.rows {
            let span = |sort: usize, samples: i32| Self::span(samples, self.limits[sort][1], self.row, self.rows);
            self.spans = [span(FORWARD, 16), span(BACKWARD, 16), span(FIELD, 8)];
            self.early = self.starts.map(|start| self.early_for(start));
        }
    }

    /// What y must be below for a block to start before this sample: in a row that begins before it. In the first strip of a row
    /// of tiles each row begins 16 bytes after the one above; all other strips come behind.
    fn early_for(&self, [x, y]: [u32; 2]) -> i32 {
        let row = if x < 16 { y + u32::from(x > 0) } else { (y | 31) + 1 };
        2 * row as i32 - 32 * self.row as i32
    }

    /// Whether a vector is within its f code and points inside the picture.
    #[inline(always)]
    fn inside(&self, sort: usize, vector: u32) -> bool {
        let [x, y] = components(vector);
        let (limit, [low, count]) = (self.limits[sort][0], self.spans[sort]);
        ((y - low) as u32) < count as u32
            && ((x + limit) as u32) < 2 * limit as u32
            && (x + 32 * self.column as i32) as u32 <= 32 * (self.columns - 1)
    }

    /// Where a byte stands. A row of tiles has 32 rows and is made of strips of 16 columns, 512 bytes each, one after the other.
    /// The byte grows with the column and with the row, so a block's first sample is its lowest and its last its highest.
    fn byte(&self, [column, row]: [u32; 2]) -> u64 {
        let row_of_tiles = u64::from(row >> 5) * u64::from(32 * self.pitch);
        row_of_tiles + u64::from((column >> 4) << 9 | (row & 31) << 4 | (column & 15))
    }

    /// Where a Cr sample stands, behind its Cb.
    fn cr(&self, [x, y]: [u32; 2]) -> u64 {
        self.byte([2 * x + 1, self.chroma_row + y])
    }

    /// Counts a vector's blocks. A chroma block's strip is numbered by the row of tiles in the upper half and by 16 bytes, 8
    /// samples, in the lower.
    #[inline(always)]
    fn reach(&mut self, direction: usize, vector: u32, from: impl Source) {
        let [x, y] = components(vector);
        let chroma = [last(8, self.column, chroma_end(x)), last(8, self.row, from.end(chroma_end(y)))];
        let strip = (self.chroma_row + chroma[1]) >> 5 << 16 | chroma[0] >> 3;
        if strip >= self.strips[direction] || (chroma[0] < self.left[direction] && from.start(y) < self.early[direction]) {
            self.widen(direction, [x, y], from, chroma, strip);
        }
    }

    /// The same where the end may be raised or the start lowered.
    #[inline(never)]
    fn widen(&mut self, direction: usize, [x, y]: [i32; 2], from: impl Source, chroma: [u32; 2], strip: u32) {
        if strip >= self.strips[direction] {
            let luma = [last(16, self.column, luma_end(x)), last(16, self.row, from.end(luma_end(y)))];
            self.raise(direction, luma, chroma, strip);
        }
        if from.start(y) < self.early[direction] {
            self.lower(direction, [x, from.start(y)]);
        }
    }

    /// By the last luma and the last chroma sample.
    fn raise(&mut self, direction: usize, luma: [u32; 2], chroma: [u32; 2], strip: u32) {
        let end = self.cr(chroma).max(self.byte(luma)) + 1;
        if end > self.ends[direction] {
            self.ends[direction] = end;
            self.strips[direction] = strip;
        }
    }

    /// Luma has the lowest byte: Cb starts in a later row, as C ≥ 16H, and in luma's strip or the next one, as it starts at most
    /// one column before luma, and then at an even one.
    fn lower(&mut self, direction: usize, [x, y]: [i32; 2]) {
        let first = |v: i32, place: u32| (16 * place as i32 + (v >> 1)) as u32;
        let start = [first(x, self.column), first(y, self.row)];
        if self.byte(start) < self.byte(self.starts[direction]) {
            self.starts[direction] = start;
            self.early[direction] = self.early_for(start);
            // In the first row of tiles only strips up to this one have lower bytes. From luma's first column in a strip chroma
            // may go on to the end of the next one.
            self.left[direction] = if start[1] < 32 { 8 * (start[0] >> 4) + 16 } else { u32::MAX };
        }
    }

    /// A macroblock that keeps every rule.
    #[inline(always)]
    fn take<const CODING: u32, const FIELDS: bool>(&mut self, c: &[u32; 9]) {
        let kind = kind(c);
        if CODING != I && kind & 1 != 0 {
            self.reach(FORWARD, c[5], WholeFrame);
        }
        if CODING == P && FIELDS && kind == 4 {
            self.reach(FORWARD, c[5], OneField(c[4] >> 16 & 1));
            self.reach(FORWARD, c[7], OneField(c[4] >> 18 & 1));
        }
        if CODING == B {
            if kind & 2 != 0 {
                self.reach(BACKWARD, c[6], WholeFrame);
            }
            self.before = [kind, c[5], c[6]];
        }
        self.first = c[4] >> 1 & FIRST_IN_SLICE;
        self.in_group = c[4] & 1 << 26 == 0;
        self.column += 1;
        if self.column == self.columns {
            (self.column, self.row) = (0, self.row + 1);
            if CODING != I {
                self.begin_row();
            }
        }
    }

    /// The first rule that a macroblock breaks: words upwards, in a word the smaller number first.
    #[cold]
    fn fault(&self, c: &[u32; 9]) -> Fault {
        let rules = self.first_rules(c).into_iter().chain(self.vector_rules(c));
        let broken = rules.into_iter().find(|rule| !rule.2).expect("a rule that is broken");
        (broken.0, broken.1)
    }

    /// Words 1 to 4: number, word, and whether the rule is kept.
    fn first_rules(&self, c: &[u32; 9]) -> [(u8, usize, bool); 9] {
        let (kind, field) = (kind(c), self.is_field(c));
        let skip = c[1] & 4 != 0;
        let pattern = c[3] >> 6 & 63;
        let named = if c[1] & 0x2000 != 0 { c[1] & 0x1f04 == 0x1a00 } else { (1..=3).contains(&(c[1] >> 8 & 31)) };
        let permitted = match self.coding {
            I => kind == 0,
            P => kind < 2,
            _ => true,
        };
        let fixed = if self.fields && !skip { 0x40fb } else { 0xc0fb };
        let repeated = match self.coding {
            P => c[5..] == [0; 4],
            B => kind != 0 && self.before == [kind, c[5], c[6]] && c[5..] == due(kind, c),
            _ => true,
        };
        let last = c[4] >> 31 == 1;
        let flags = c[4] & (FIRST_IN_SLICE | FIRST_IN_GROUP) == self.first
            && (last || self.column + 1 != self.columns)
            && (last || c[4] & 1 << 26 == 0);
        [
            (4, 1, c[1] & fixed == if field { 0x4001 } else { 0 }),
            (5, 1, field || (named && permitted)),
            (11, 1, !skip || (c[4] & 3 << 30 == 0 && pattern == 0 && repeated && !field)),
            (6, 2, c[2] == self.row << 16 | self.column),
            (4, 3, c[3] & 0xf03f == 0),
            (5, 3, kind != 0 || pattern == 63),
            (4, 4, c[4] & 0x30ff_ffe0 & !if field { CHOICES } else { 0 } == 0),
            (5, 4, c[4] & 31 != 0 && (self.coding != I || c[4] & 1 << 25 == 0)),
            (7, 4, flags),
        ]
    }

    /// Whether it is of type 04h, and that is allowed.
    fn is_field(&self, c: &[u32; 9]) -> bool {
        self.fields && self.coding == P && c[1] & 0x3f00 == 0x400
    }

    /// Words 5 to 8, in the same way.
    fn vector_rules(&self, c: &[u32; 9]) -> [(u8, usize, bool); 10] {
        let kind = kind(c);
        let [five, six, seven, eight] = due(kind, c);
        let in_range = |sort: usize, vector: u32| {
            let ([x, y], [limit_x, limit_y]) = (components(vector), self.limits[sort]);
            (-limit_x..limit_x).contains(&x) && (-limit_y..limit_y).contains(&y)
        };
        let sort = if kind == 4 { FIELD } else { FORWARD };
        let (no_first, no_backward, no_second) = (kind & 5 == 0, kind & 2 == 0, kind != 4);
        [
            (8, 5, c[5] == five),
            (9, 5, no_first || in_range(sort, c[5])),
            (10, 5, no_first || self.inside(sort, c[5])),
            (8, 6, c[6] == six),
            (9, 6, no_backward || in_range(BACKWARD, c[6])),
            (10, 6, no_backward || self.inside(BACKWARD, c[6])),
            (8, 7, c[7] == seven),
            (9, 7, no_second || in_range(FIELD, c[7])),
            (10, 7, no_second || self.inside(FIELD, c[7])),
            (8, 8, c[8] == eight),
        ]
    }

    /// The lengths once W·H macroblocks have come. Buffers 0 and 1 are touched up to the last Cr sample: it stands below the
    /// last luma sample, in the same column.
    fn lengths(&self) -> [u64; 4] {
        let own = self.cr([8 * self.columns - 1, 8 * self.rows - 1]) + 1;
        [own, own, self.ends[0], self.ends[1]]
    }

    /// The first bytes then. The first macroblock's own samples begin with byte 0.
    fn first_bytes(&self) -> [u64; 4] {
        let start = |direction: usize| if self.ends[direction] == 0 { 0 } else { self.byte(self.starts[direction]) };
        [0, 0, start(0), start(1)]
    }
}

/// 0 intra, 1 forward, 2 backward, 3 both, 4 field, of a macroblock whose word 1 is permitted.
#[inline(always)]
fn kind(c: &[u32; 9]) -> u32 {
    if c[1] & 0x2000 != 0 {
        0
    } else {
        c[1] >> 8 & 7
    }
}

/// The lower half of word 1, without bit 15 where that is free: on macroblocks that are not skipped, if PICTURE bit 10 is 0.
#[inline(always)]
fn half<const FIELDS: bool>(one: u32) -> u32 {
    let free = if FIELDS { (!one & 4) << 13 } else { 0 };
    one & 0xffff & !free
}

/// x in the low half, y in the high half, two's complement.
#[inline(always)]
fn components(vector: u32) -> [i32; 2] {
    [(vector as i16).into(), vector as i32 >> 16]
}

/// Words 5 to 8 as their kind asks for.
fn due(kind: u32, c: &[u32; 9]) -> [u32; 4] {
    match kind {
        0 => [0; 4],
        1 => [c[5]; 4],
        2 => [c[6]; 4],
        3 => [c[5], c[6], c[5], c[6]],
        _ => [c[5], c[5], c[7], c[5]],
    }
}

/// What a vector predicts from.
trait Source: Copy {
    /// The y with which a block of the frame starts in the same row.
    fn start(self, y: i32) -> i32;
    /// How many rows of the frame later than its macroblock a block ends that is moved so many of its own rows.
    fn end(self, rows: i32) -> i32;
}

#[derive(Clone, Copy)]
struct WholeFrame;

impl Source for WholeFrame {
    #[inline(always)]
    fn start(self, y: i32) -> i32 {
        y
    }

    #[inline(always)]
    fn end(self, rows: i32) -> i32 {
        rows
    }
}

/// The top field, 0, or the bottom one, 1. Its row r is 2r + field in the frame; a macroblock's last row in the top field is its
/// last but one.
#[derive(Clone, Copy)]
struct OneField(u32);

impl Source for OneField {
    #[inline(always)]
    fn start(self, y: i32) -> i32 {
        2 * (2 * (y >> 1) + self.0 as i32)
    }

    #[inline(always)]
    fn end(self, rows: i32) -> i32 {
        2 * rows + self.0 as i32 - 1
    }
}

/// How much later a luma block ends that is moved by a component: ceil(v/2), since it starts floor(v/2) later and has a sample
/// more if v is odd.
#[inline(always)]
fn luma_end(v: i32) -> i32 {
    (v + 1) >> 1
}

/// The same of chroma, by the component halved towards zero.
#[inline(always)]
fn chroma_end(v: i32) -> i32 {
    (v + (v < 0) as i32 + 2) >> 2
}

/// The last column or row of a block that ends so much later than its macroblock.
#[inline(always)]
fn last(samples: i32, place: u32, later: i32) -> u32 {
    (samples * (place as i32 + 1) - 1 + later) as u32
}

/// The check of a batch of which no word beyond the first so many is judged.
fn check_up_to(most: usize, words: &[u32], buffers: [u64; 4]) -> Answer {
    let walked = walk(&words[..words.len().min(most)]);
    match walked {
        Err((number, place)) if number != 1 => (number, place as u64, [0; 4], [0; 4]),
        _ if words.len() > most => (27, most as u64, [0; 4], [0; 4]),
        Err((number, place)) => (number, place as u64, [0; 4], [0; 4]),
        Ok([lengths, firsts]) => match (0..4).find(|&n| buffers[n] < lengths[n]) {
            Some(lowest) => (13, lowest as u64, lengths, firsts),
            None => (0, 0, lengths, firsts),
        },
    }
}

/// The answer to a batch of words beside buffers of these lengths.
pub fn check(words: &[u32], buffers: [u64; 4]) -> Answer {
    check_up_to(4_294_967_295, words, buffers)
}

#[cfg(test)]
mod tests {
    use super::*;
    use crate::batch_cases::made_by;
    use crate::batch_damage::damage;
    use crate::batch_document::{document, p1};
    use crate::batch_faults::faults;
    use crate::batch_rules::rule_table;
    use crate::batch_valid::{pick, random_batch, random_frame};
    use crate::command::COMMANDS;
    use crate::generate::batches::Batches;
    use crate::random::Random;
    use crate::valid_cases::valid;
    use std::collections::BTreeMap;

    /// Holds the answer against the plainest reading's, and gives its number.
    fn same(words: &[u32], buffers: [u64; 4]) -> u8 {
        let due = crate::check::check(words, buffers);
        assert_eq!(check(words, buffers), (due.number, due.place, due.lengths, due.firsts), "{words:x?} {buffers:?}");
        due.number
    }

    #[test]
    fn generated_cases() {
        for case in made_by(&[document, rule_table, valid, damage, faults]) {
            same(&case.words, case.buffers);
        }
    }

    /// What `batch_cases` describes: words, lengths, lent bytes, and the words.
    #[test]
    fn stored_cases() {
        let path = concat!(env!("CARGO_MANIFEST_DIR"), "/../../crates/batch_cases/stdin");
        let stored = std::fs::read(path).unwrap();
        let (mut rest, mut cases) = (&stored[..], 0);
        while !rest.is_empty() {
            let number = |from: usize, bytes: usize| {
                rest[from..from + bytes].iter().rev().fold(0u64, |number, byte| number << 8 | u64::from(*byte))
            };
            let count = number(0, 4) as usize;
            let words: Vec<u32> = (0..count).map(|n| number(40 + 4 * n, 4) as u32).collect();
            same(&words, [4, 12, 20, 28].map(|from| number(from, 8)));
            rest = &rest[40 + 4 * count..];
            cases += 1;
        }
        assert!(cases > 4000, "{cases}");
    }

    /// Batches that keep every rule, beside exact and shorter buffers, and each with a bit, a word or a run of words changed.
    #[test]
    fn random_batches() {
        let mut r = Random::new(61);
        let mut numbers = BTreeMap::new();
        for n in 0..30_000 {
            let (columns, rows) = (r.within(1, 5) as u32, r.within(1, 4) as u32);
            let frame = random_frame(&mut r, n % 3 + 1, columns, rows);
            let words = random_batch(&mut r, &frame, n as usize % 4, n as usize % 3).words();
            let mut buffers = check(&words, [u64::MAX; 4]).2;
            *numbers.entry(same(&words, buffers)).or_insert(0) += 1;
            let buffer = r.within(0, 3) as usize;
            buffers[buffer] = buffers[buffer].saturating_sub(1);
            for _ in 0..4 {
                let damaged = damaged(&mut r, &words);
                *numbers.entry(same(&damaged, buffers)).or_insert(0) += 1;
            }
        }
        assert!(numbers.keys().copied().eq(0..=13) && numbers.values().all(|count| *count > 100), "{numbers:?}");
    }

    /// Batches of every sort, among them each rule broken alone.
    #[test]
    fn generated_batches() {
        let (mut r, batches) = (Random::new(62), Batches::default());
        let mut numbers = BTreeMap::new();
        for _ in 0..10_000 {
            let batch = batches.next(&mut r);
            *numbers.entry(same(&batch.words, batch.buffers)).or_insert(0) += 1;
        }
        assert!(numbers.keys().copied().eq(0..=13), "{numbers:?}");
    }

    fn damaged(r: &mut Random, words: &[u32]) -> Vec<u32> {
        let mut words = words.to_vec();
        let at = r.within(0, words.len() as i64 - 1) as usize;
        match r.within(0, 8) {
            0 => words.truncate(at),
            1 => words[at] = r.next() as u32,
            2 => words[at] = pick(r, &COMMANDS).0,
            3 => {
                words.remove(at);
            }
            4 => words.insert(at, pick(r, &[0, 1, 0x0500_0000, 0x7349_0007])),
            5 => words.push(r.within(0, 1) as u32),
            6 => words[at] ^= pick(r, &[0x8000, 0x4000, 0x4401, 0x4501, 0x3000, 3, 4, 1 << 16, 1 << 18]),
            _ => words[at] ^= 1 << r.within(0, 31),
        }
        words
    }

    #[test]
    fn too_many_words() {
        let zeros = [&p1()[..], &[0, 0]].concat();
        let answer = |most: usize, words: &[u32]| check_up_to(most, words, [384; 4]);
        assert_eq!(answer(39, &zeros), (0, 0, [384, 384, 0, 0], [0; 4]));
        for most in 0..39 {
            assert_eq!(answer(most, &zeros), (27, most as u64, [0; 4], [0; 4]));
        }
        let late = [&zeros[..], &[7]].concat();
        assert_eq!(answer(40, &late), (12, 39, [0; 4], [0; 4]));
        assert_eq!(answer(39, &late), (27, 39, [0; 4], [0; 4]));
    }
}
