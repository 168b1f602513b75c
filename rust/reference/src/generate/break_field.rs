//! Rules of document 02's R-6 in MACROBLOCK's words 1 and 4: 4, 5 and 11. Those of words 5 to 8 stand with the other vectors'.

use crate::batch_valid::{once_in, pick, random_field};
use crate::command::*;
use crate::generate::breach::{macroblock, Breach};
use crate::generate::break_macroblock::{is, with};
use crate::generate::draft::{At, Draft};
use crate::random::Random;

/// A rule, its number and word, and the change that breaks it in a macroblock.
type Rule = (&'static str, u8, usize, fn(&mut Random, &Draft, &At) -> Option<Command>);

fn by_fields(at: &At) -> bool {
    kind(&at.c) == Some(4)
}

/// Whether the picture allows type 04h.
fn allows(draft: &Draft) -> bool {
    draft.frame.fields && draft.frame.sort == 2
}

/// The macroblock with type 04h, without the intra bit, with these bits 14 and 1:0.
fn as_field(at: &At, flag: u32, mode: u32) -> Command {
    [(INTRA, 0), (TYPE, 4), (FIELD_FLAG, flag), (MODE, mode)].into_iter().fold(at.c, |c, (f, value)| with(c, f, value))
}

/// Values of bits 14 and 1:0, not both zero.
fn some_bits(r: &mut Random) -> (u32, u32) {
    pick(r, &[(1, 1), (1, 1), (1, 0), (0, 1), (0, 2), (0, 3), (1, 2), (1, 3)])
}

/// "Word 1 bit 15 (dct type) is free on macroblocks that are not skipped", with PICTURE bit 10 = 0.
const DCT_TYPES: [Rule; 3] = [
    ("dct type: PICTURE bit 10 is 0", 4, 1, |_, draft, at| (!draft.frame.fields).then(|| with(at.c, DCT_TYPE, 1))),
    ("dct type: not skipped", 4, 1, |_, draft, at| (draft.frame.fields && is(&at.c, SKIP)).then(|| with(at.c, DCT_TYPE, 1))),
    ("dct type: not on a skipped intra macroblock", 4, 1, |_, _, at| {
        is(&at.c, INTRA).then(|| with(with(at.c, SKIP, 1), DCT_TYPE, 1))
    }),
];

/// "Type 04h is allowed in P with bit 14 = 1 and bits 1:0 = 1"; "intra, other types, and 04h where not allowed keep bits 14 and
/// 1:0 zero".
const TYPES: [Rule; 14] = [
    ("04h: bit 14 is 1", 4, 1, |_, _, at| by_fields(at).then(|| with(at.c, FIELD_FLAG, 0))),
    ("04h: bits 1:0 are not 0", 4, 1, |_, _, at| by_fields(at).then(|| with(at.c, MODE, 0))),
    ("04h: bits 1:0 are not 2", 4, 1, |_, _, at| by_fields(at).then(|| with(at.c, MODE, 2))),
    ("04h: bits 1:0 are not 3", 4, 1, |_, _, at| by_fields(at).then(|| with(at.c, MODE, 3))),
    ("04h: bits 14 and 1:0 are not zero", 4, 1, |_, draft, at| allows(draft).then(|| as_field(at, 0, 0))),
    ("intra: bits 14 and 1:0 zero", 4, 1, |r, _, at| {
        let (flag, mode) = some_bits(r);
        is(&at.c, INTRA).then(|| with(with(at.c, FIELD_FLAG, flag), MODE, mode))
    }),
    ("types 1 to 3: bits 14 and 1:0 zero", 4, 1, |r, _, at| {
        let (flag, mode) = some_bits(r);
        matches!(kind(&at.c), Some(1..=3)).then(|| with(with(at.c, FIELD_FLAG, flag), MODE, mode))
    }),
    ("other types with the bits of 04h", 4, 1, |r, _, at| {
        let other = pick(r, &[0, 1, 2, 3, 5, 6, 12, 0x14, 0x19, 0x1a]);
        by_fields(at).then(|| with(at.c, TYPE, other))
    }),
    ("the intra bit with the bits of 04h", 4, 1, |_, _, at| by_fields(at).then(|| with(at.c, INTRA, 1))),
    ("04h not in I", 5, 1, |_, draft, at| (draft.frame.sort == 1).then(|| as_field(at, 0, 0))),
    ("04h not in B", 5, 1, |_, draft, at| (draft.frame.sort == 3).then(|| as_field(at, 0, 0))),
    ("04h not with PICTURE bit 10 = 1", 5, 1, |_, draft, at| {
        (draft.frame.sort == 2 && !draft.frame.fields).then(|| as_field(at, 0, 0))
    }),
    ("04h not in I or B, with its bits", 4, 1, |r, draft, at| {
        let (flag, mode) = some_bits(r);
        (draft.frame.sort != 2).then(|| as_field(at, flag, mode))
    }),
    ("04h not with PICTURE bit 10 = 1, with its bits", 4, 1, |r, draft, at| {
        let (flag, mode) = some_bits(r);
        (draft.frame.sort == 2 && !draft.frame.fields).then(|| as_field(at, flag, mode))
    }),
];

/// The macroblock skipped, with neither pattern nor dct type. At the end of a slice that is 11 too.
fn skipped(c: Command) -> Command {
    [(SKIP, 1), (PATTERN, 0), (DCT_TYPE, 0)].into_iter().fold(c, |c, (f, value)| with(c, f, value))
}

/// "A skipped type 04h gives 11."
const SKIPS: [Rule; 4] = [
    ("04h: not skipped", 11, 1, |_, _, at| by_fields(at).then(|| skipped(at.c))),
    ("04h: not skipped in a slice, unmoved", 11, 1, |_, _, at| {
        let mut c = skipped(at.c);
        c[5..].fill(0);
        (by_fields(at) && !is(&c, FIRST_IN_SLICE) && !is(&c, LAST_IN_SLICE)).then_some(c)
    }),
    ("04h: not skipped in place of a skipped macroblock", 11, 1, |_, draft, at| {
        (allows(draft) && is(&at.c, SKIP)).then(|| as_field(at, 1, 1))
    }),
    ("04h: not skipped, with a dct type", 4, 1, |_, _, at| by_fields(at).then(|| with(skipped(at.c), DCT_TYPE, 1))),
];

/// One of the two choices set, or both.
fn chosen(r: &mut Random, c: Command) -> Command {
    let (top, bottom) = pick(r, &[(1, 0), (0, 1), (1, 1)]);
    with(with(c, TOP_CHOICE, top), BOTTOM_CHOICE, bottom)
}

/// "17 and 19 stay zero"; "word 4 bits 16 or 18 set on another type, give 4".
const CHOICES: [Rule; 4] = [
    ("04h: bits 17 and 19 zero", 4, 4, |r, _, at| {
        let mut c = at.c;
        c[4] |= pick(r, &[1 << 17, 1 << 19, 5 << 17]);
        by_fields(at).then_some(c)
    }),
    ("choices not on intra", 4, 4, |r, _, at| is(&at.c, INTRA).then(|| chosen(r, at.c))),
    ("choices not on types 1 to 3", 4, 4, |r, _, at| {
        (matches!(kind(&at.c), Some(1..=3)) && !is(&at.c, SKIP)).then(|| chosen(r, at.c))
    }),
    ("choices not on a skipped macroblock", 4, 4, |r, _, at| is(&at.c, SKIP).then(|| chosen(r, at.c))),
];

/// "6 and 8 copy 5": word 8, or word 6, is a copy of word 7.
fn copies_of_7() -> impl Iterator<Item = Breach> {
    [6, 8].into_iter().map(|word| {
        macroblock(&format!("by fields: word {word} copies 5, not 7"), 8, word, move |r, draft, at| {
            let mut c = at.c;
            if once_in(r, 2) {
                c[7] = random_field(r, &draft.frame, at.k)[7];
            }
            c[word] = c[7];
            (by_fields(at) && c[7] != c[5]).then_some(c)
        })
    })
}

pub fn breaches() -> Vec<Breach> {
    let rules = DCT_TYPES.into_iter().chain(TYPES).chain(SKIPS).chain(CHOICES);
    let all = rules.map(|(rule, number, word, change)| macroblock(rule, number, word, change));
    all.chain(copies_of_7()).collect()
}
