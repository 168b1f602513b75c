//! The rules of MACROBLOCK in its picture, and the bytes that it touches.

use crate::check_picture::{Picture, B, I, P};
use crate::command::*;
use crate::leaf::{Block, Structure, Window};

/// The k-th macroblock's place in its picture.
pub struct Place<'a> {
    pub picture: &'a Picture,
    pub k: usize,
    /// The macroblock before it in the picture, whatever slice or group that was in.
    pub before: Option<&'a Command>,
    /// Whether it is the first macroblock after SLICEGROUP.
    pub first: bool,
}

impl Place<'_> {
    /// "The k-th macroblock, from 0, is at column k mod W, row k div W."
    fn position(&self) -> (u32, u32) {
        let columns = self.picture.columns as usize;
        ((self.k % columns) as u32, (self.k / columns) as u32)
    }

    fn block(&self, word: u32, codes: (u32, u32), structure: Structure) -> Block {
        let (p, (column, row)) = (self.picture, self.position());
        Block {
            pitch: p.pitch,
            chroma_row: p.chroma_row as u16,
            columns: p.columns as u16,
            rows: p.rows as u16,
            column: column as u16,
            row: row as u16,
            x_code: codes.0 as u8,
            y_code: codes.1 as u8,
            word,
            structure,
            case: 0,
        }
    }

    /// The macroblock's own samples.
    pub fn own(&self) -> Block {
        self.block(0, (1, 1), Structure::Frame)
    }

    /// "PICTURE bit 10 may now be 0; then word 1 bit 15 (dct type) is free on macroblocks that are not skipped, and type 04h is
    /// allowed in P".
    fn allowed(&self) -> Allowed {
        let fields = self.picture.fields;
        Allowed { dct_type: fields, field: fields && self.picture.sort == P }
    }

    /// The block of a field's vector: a choice of 1 is the reference's bottom field.
    fn field_block(&self, word: u32, choice: u32) -> Block {
        self.block(word, self.picture.forward, if choice == 1 { Structure::Bottom } else { Structure::Top })
    }

    /// The predicted blocks, each with its buffer and word: "2 (forward) and 3 (backward)"; "5 forward vector, 6 backward"; "word
    /// 5 is the top field's vector, word 7 the bottom's", both forward.
    pub fn predicted(&self, c: &Command) -> Vec<(usize, usize, Block)> {
        let forward = (2, 5, self.block(c[5], self.picture.forward, Structure::Frame));
        let backward = (3, 6, self.block(c[6], self.picture.backward, Structure::Frame));
        match kind(c) {
            Some(1) => vec![forward],
            Some(2) => vec![backward],
            Some(3) => vec![forward, backward],
            Some(4) => {
                vec![(2, 5, self.field_block(c[5], TOP_CHOICE.of(c))), (2, 7, self.field_block(c[7], BOTTOM_CHOICE.of(c)))]
            }
            _ => vec![],
        }
    }
}

/// "In P words 5 to 8 all zero; in B the macroblock before it is inter with the same type and the same words 5 to 8."
fn may_skip(c: &Command, at: &Place) -> bool {
    match at.picture.sort {
        P => c[5..] == [0; 4],
        B => at.before.is_some_and(|b| INTRA.of(b) == 0 && TYPE.of(b) == TYPE.of(c) && b[5..] == c[5..]),
        _ => true,
    }
}

fn word_1_and_2(c: &Command, at: &Place) -> Vec<Rule> {
    // "I allows intra only, P intra and 1, B all"; "type 04h is allowed in P"
    let allowed: &[u8] = match at.picture.sort {
        I => &[0],
        P => &[0, 1, 4],
        _ => &[0, 1, 2, 3],
    };
    vec![
        (1, 5, kind(c).is_some_and(|kind| allowed.contains(&kind))),
        (1, 11, SKIP.of(c) == 0 || may_skip(c, at)),
        (2, 6, (COLUMN.of(c), ROW.of(c)) == at.position()),
    ]
}

fn word_4(c: &Command, at: &Place) -> Vec<Rule> {
    let set = |f: Field| f.of(c) == 1;
    let slice_open = at.before.is_some_and(|b| LAST_IN_SLICE.of(b) == 0);
    let last_column = at.position().0 == at.picture.columns - 1;
    vec![
        // "25 no skip conversion (zero in I)"
        (4, 5, at.picture.sort != I || !set(NO_CONVERSION)),
        // "first-in-slice exactly when no slice is open; last-in-slice wherever the column is W−1"
        (4, 7, set(FIRST_IN_SLICE) != slice_open),
        (4, 7, !last_column || set(LAST_IN_SLICE)),
        // "first-in-group exactly on the first macroblock after SLICEGROUP; last-in-group only with last-in-slice"
        (4, 7, set(FIRST_IN_GROUP) == at.first),
        (4, 7, !set(LAST_IN_GROUP) || set(LAST_IN_SLICE)),
    ]
}

/// The rules of a command by itself, and those that look at the picture and at what came before.
pub fn macroblock_rules(c: &Command, at: &Place) -> Vec<Rule> {
    let mut all = rules(c, at.allowed()).to_vec();
    all.extend(word_1_and_2(c, at));
    all.extend(word_4(c, at));
    for (_, word, block) in at.predicted(c) {
        all.push((word, 9, block.in_range()));
        all.push((word, 10, block.inside()));
    }
    all
}

/// The blocks of the macroblock, each with its buffer and the window of its samples there. "Every macroblock, skipped ones too,
/// touches its 16×16 luma and 8×8 chroma samples in buffers 0 and 1, and its predicted blocks in 2 (forward) and 3 (backward)."
pub fn touched(c: &Command, at: &Place) -> Vec<(usize, Window)> {
    let own = at.own().window().unwrap();
    let predicted = at.predicted(c).into_iter().map(|(buffer, _, block)| (buffer, block.window().unwrap()));
    [(0, own), (1, own)].into_iter().chain(predicted).collect()
}
