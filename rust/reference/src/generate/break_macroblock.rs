//! Rules of MACROBLOCK's words 1 to 4, skip and fields apart: 4, 5, 6 and 7.

use crate::batch_valid::pick;
use crate::command::*;
use crate::generate::breach::{any_value, fixed, macroblock, Breach};
use crate::generate::draft::{At, Draft};
use crate::random::Random;

/// The command with a field set.
pub fn with(c: Command, field: Field, value: u32) -> Command {
    let mut c = c;
    field.set(&mut c, value);
    c
}

pub fn is(c: &Command, field: Field) -> bool {
    field.of(c) != 0
}

/// A rule, the word and the number of it, and the change that breaks it in a macroblock.
type Rule = (&'static str, u8, usize, fn(&mut Random, &Draft, &At) -> Option<Command>);

/// "Intra: type 1Ah, skip zero. Inter: 1 forward, 2 backward, 3 both. I allows intra only, P intra and 1, B all."
const WORD_1: [Rule; 6] = [
    ("intra: type 1Ah", 5, 1, |r, _, at| {
        let other = any_value(r, (0..32).filter(|sort| *sort != 0x1a))?;
        is(&at.c, INTRA).then(|| with(at.c, TYPE, other))
    }),
    ("intra: skip zero", 5, 1, |_, _, at| is(&at.c, INTRA).then(|| with(with(at.c, SKIP, 1), DCT_TYPE, 0))),
    ("inter: type 1, 2, 3 or 4", 5, 1, |r, _, at| {
        let other = any_value(r, (0..32).filter(|sort| !(1..=4).contains(sort)))?;
        matches!(kind(&at.c), Some(1..=3)).then(|| with(at.c, TYPE, other))
    }),
    ("intra bit and type", 5, 1, |_, _, at| (kind(&at.c) != Some(4)).then(|| with(at.c, INTRA, 1 - INTRA.of(&at.c)))),
    ("I allows intra only", 5, 1, |r, draft, at| {
        let inter = with(with(at.c, INTRA, 0), TYPE, pick(r, &[1, 2, 3]));
        (draft.frame.sort == 1).then_some(inter)
    }),
    ("P allows intra and 1", 5, 1, |r, draft, at| {
        let inter = with(at.c, TYPE, pick(r, &[2, 3]));
        (draft.frame.sort == 2 && kind(&at.c) == Some(1)).then_some(inter)
    }),
];

/// Another number of sixteen bits: a neighbour, a bit flipped, or all of them.
fn another(r: &mut Random, half: u32) -> u32 {
    let bit = half ^ 1 << r.within(0, 15);
    pick(r, &[half + 1, half.wrapping_sub(1), bit, !half])
}

/// "The k-th macroblock, from 0, is at column k mod W, row k div W."
const WORD_2: [Rule; 4] = [
    ("column", 6, 2, |r, _, at| Some(with(at.c, COLUMN, another(r, COLUMN.of(&at.c))))),
    ("row", 6, 2, |r, _, at| Some(with(at.c, ROW, another(r, ROW.of(&at.c))))),
    ("column and row exchanged", 6, 2, |_, _, at| {
        let exchanged = with(with(at.c, COLUMN, ROW.of(&at.c)), ROW, COLUMN.of(&at.c));
        (exchanged != at.c).then_some(exchanged)
    }),
    ("another macroblock's position", 6, 2, |r, draft, at| {
        let k = any_value(r, (0..draft.frame.macroblocks() as u32).filter(|k| *k != at.k))?;
        Some(with(with(at.c, COLUMN, k % draft.frame.columns), ROW, k / draft.frame.columns))
    }),
];

const WORDS_3_AND_4: [Rule; 3] = [
    ("intra: pattern 63", 5, 3, |r, _, at| {
        let pattern = r.within(0, 62) as u32;
        is(&at.c, INTRA).then(|| with(at.c, PATTERN, pattern))
    }),
    ("no skip conversion zero in I", 5, 4, |_, draft, at| (draft.frame.sort == 1).then(|| with(at.c, NO_CONVERSION, 1))),
    ("quantiser 1 to 31", 5, 4, |_, _, at| Some(with(at.c, QUANTISER, 0))),
];

/// "First-in-slice exactly when no slice is open; last-in-slice wherever the column is W−1; first-in-group exactly on the first
/// macroblock after SLICEGROUP; last-in-group only with last-in-slice." In a skipped macroblock the ends of a slice are 11.
const FLAGS_7: [Rule; 6] = [
    ("first-in-slice when no slice is open", 7, 4, |_, _, at| is(&at.c, FIRST_IN_SLICE).then(|| with(at.c, FIRST_IN_SLICE, 0))),
    ("first-in-slice only when no slice is open", 7, 4, |_, _, at| {
        (!is(&at.c, FIRST_IN_SLICE) && !is(&at.c, SKIP)).then(|| with(at.c, FIRST_IN_SLICE, 1))
    }),
    ("last-in-slice wherever the column is W−1", 7, 4, |_, draft, at| {
        let last = at.k % draft.frame.columns == draft.frame.columns - 1;
        last.then(|| with(with(at.c, LAST_IN_SLICE, 0), LAST_IN_GROUP, 0))
    }),
    ("first-in-group on the first macroblock", 7, 4, |_, _, at| is(&at.c, FIRST_IN_GROUP).then(|| with(at.c, FIRST_IN_GROUP, 0))),
    ("first-in-group only on the first macroblock", 7, 4, |_, _, at| {
        (!is(&at.c, FIRST_IN_GROUP)).then(|| with(at.c, FIRST_IN_GROUP, 1))
    }),
    ("last-in-group only with last-in-slice", 7, 4, |_, _, at| (!is(&at.c, LAST_IN_SLICE)).then(|| with(at.c, LAST_IN_GROUP, 1))),
];

pub fn breaches() -> Vec<Breach> {
    // bits 14 and 1:0 of word 1 have one value in each macroblock, another where it is predicted by fields
    let zeros = [(1, 7, 3), (3, 15, 12), (3, 5, 0), (4, 29, 28), (4, 23, 19), (4, 17, 17), (4, 15, 5)];
    let mut all: Vec<Breach> =
        zeros.into_iter().chain([(1, 14, 14), (1, 1, 0)]).map(|(word, hi, lo)| fixed("MACROBLOCK", word, hi, lo)).collect();
    let rules = WORD_1.into_iter().chain(WORD_2).chain(WORDS_3_AND_4).chain(FLAGS_7);
    all.extend(rules.map(|(rule, number, word, change)| macroblock(rule, number, word, change)));
    all
}
