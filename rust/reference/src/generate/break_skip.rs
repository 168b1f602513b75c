//! Rules of skipped macroblocks: 11.

use crate::batch::{moved, skip};
use crate::batch_valid::{fits, once_in, pick, random_vector, skipped};
use crate::command::*;
use crate::generate::breach::{macroblock, Breach};
use crate::generate::break_macroblock::{is, with};
use crate::generate::draft::{At, Draft};
use crate::random::Random;

/// The flags of one command in another, and its position.
fn in_place_of(c: Command, old: &Command) -> Command {
    let kept = [COLUMN, ROW, FIRST_IN_SLICE, LAST_IN_SLICE, FIRST_IN_GROUP, LAST_IN_GROUP, QUANTISER];
    kept.iter().fold(c, |c, field| with(c, *field, field.of(old)))
}

/// A skipped macroblock in the place of this one, as the picture and the macroblock before allow it.
fn skipped_here(draft: &Draft, at: &At) -> Option<Command> {
    let (_, before) = at.before?;
    Some(in_place_of(skipped(&draft.frame, at.k, &before)?, &at.c))
}

/// "Neither first nor last in slice (bits 30 and 31 of word 4 zero); pattern zero."
fn of_itself() -> Vec<Breach> {
    vec![
        macroblock("skip: not first in slice", 11, 1, |_, draft, at| {
            skipped_here(draft, at).filter(|_| is(&at.c, FIRST_IN_SLICE) && !is(&at.c, LAST_IN_SLICE))
        }),
        macroblock("skip: not last in slice", 11, 1, |_, draft, at| {
            skipped_here(draft, at).filter(|_| !is(&at.c, FIRST_IN_SLICE) && is(&at.c, LAST_IN_SLICE))
        }),
        macroblock("skip: neither first nor last in slice", 11, 1, |_, draft, at| {
            skipped_here(draft, at).filter(|_| is(&at.c, FIRST_IN_SLICE) && is(&at.c, LAST_IN_SLICE))
        }),
        macroblock("skip: pattern zero", 11, 1, |r, _, at| {
            is(&at.c, SKIP).then(|| with(at.c, PATTERN, if once_in(r, 2) { 1 << r.within(0, 5) } else { r.within(1, 63) as u32 }))
        }),
        macroblock("skip: a coded macroblock's skip bit", 11, 1, |_, _, at| {
            let coded = !is(&at.c, INTRA) && !is(&at.c, SKIP) && is(&at.c, PATTERN);
            coded.then(|| with(with(at.c, SKIP, 1), DCT_TYPE, 0))
        }),
    ]
}

/// "In P words 5 to 8 all zero."
fn in_p() -> Vec<Breach> {
    vec![
        macroblock("skip in P: words 5 to 8 zero", 11, 1, |r, draft, at| {
            let vector = random_vector(r, &draft.frame, at.k, 0);
            let moving = vector != 0 && draft.frame.sort == 2 && is(&at.c, SKIP);
            moving.then(|| in_place_of(skip(1, vector, 0), &at.c))
        }),
        macroblock("skip in P: one of words 5 to 8 zero", 11, 1, |r, draft, at| {
            let mut c = at.c;
            c[r.within(5, 8) as usize] ^= 1 << r.within(0, 31);
            (draft.frame.sort == 2 && is(&c, SKIP)).then_some(c)
        }),
    ]
}

/// The macroblock before a skipped one in B, if it is coded.
fn follows(draft: &Draft, at: &At) -> Option<Command> {
    let (_, before) = at.before?;
    (draft.frame.sort == 3 && is(&at.c, SKIP) && !is(&before, SKIP)).then_some(before)
}

/// From a skipped macroblock and the one before it, the two in their place: first the one before.
type Pair = fn(&mut Random, &Draft, &At, &Command) -> Option<(Command, Command)>;

/// A rule of two macroblocks; 11 stands at the skipped one.
fn pair(rule: &str, change: Pair) -> Breach {
    Breach::new(rule, 11, move |r, draft| {
        let mut all = draft.macroblocks();
        let first = r.within(0, all.len() as i64) as usize;
        all.rotate_left(first);
        let (at, before, c) = all.iter().find_map(|at| {
            let (before, c) = change(r, draft, at, &follows(draft, at)?)?;
            Some((at, before, c))
        })?;
        draft.batch.0[at.before?.0] = before.into();
        draft.batch.0[at.command] = c.into();
        Some(draft.batch.place(at.command, 1))
    })
}

/// "In B the macroblock before it is inter with the same type and the same words 5 to 8."
fn in_b() -> Vec<Breach> {
    vec![
        macroblock("skip in B: a macroblock before", 11, 1, |r, draft, at| {
            let first = skip(pick(r, &[1, 2, 3]), 0, 0);
            let first = with(with(in_place_of(first, &at.c), FIRST_IN_SLICE, 0), LAST_IN_SLICE, 0);
            (draft.frame.sort == 3 && at.k == 0).then_some(first)
        }),
        pair("skip in B: an inter one before", |_, _, at, before| Some((in_place_of(moved(0, 0, 0), before), at.c))),
        pair("skip in B: an inter one before, unmoved", |r, _, at, before| {
            let still = skip(pick(r, &[1, 2, 3]), 0, 0);
            Some((in_place_of(moved(0, 0, 0), before), in_place_of(still, &at.c)))
        }),
        pair("skip in B: the same type, unmoved", |r, _, at, before| {
            let (one, other) = pick(r, &[(1, 2), (2, 1), (1, 3), (3, 1), (2, 3), (3, 2)]);
            Some((in_place_of(moved(one, 0, 0), before), in_place_of(skip(other, 0, 0), &at.c)))
        }),
        pair("skip in B: the same type", |r, draft, at, before| {
            let (word, other) = (before[5], r.within(1, 3) as u32);
            let fits = fits(&draft.frame, at.k, 0, word) && fits(&draft.frame, at.k, 1, word);
            let alike = before[5] == before[6] && fits && kind(before)? as u32 != other;
            alike.then(|| (*before, in_place_of(skip(other, word, word), &at.c)))
        }),
        pair("skip in B: the same words 5 to 8", |r, draft, at, before| {
            let sort = kind(before).filter(|kind| *kind != 4)?.into();
            let vector = |r: &mut Random, direction: usize| {
                let other = random_vector(r, &draft.frame, at.k, direction);
                let same = Some(before[5 + direction]).filter(|same| fits(&draft.frame, at.k, direction, *same));
                if once_in(r, 2) {
                    same.unwrap_or(other)
                } else {
                    other
                }
            };
            let c = in_place_of(skip(sort, vector(r, 0), vector(r, 1)), &at.c);
            (c[5..] != before[5..]).then_some((*before, c))
        }),
    ]
}

pub fn breaches() -> Vec<Breach> {
    let mut all = of_itself();
    all.extend(in_p());
    all.extend(in_b());
    all
}
