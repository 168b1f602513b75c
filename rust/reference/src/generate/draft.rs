//! A batch that is being put together, and where in it a command or a macroblock can be found.

use crate::batch::{Batch, Frame};
use crate::batch_valid::{near_ends, once_in, pick, random_batch, random_frame};
use crate::command::{header, Command, LAST_IN_GROUP};
use crate::random::Random;

/// The picture that the state commands describe, the commands, and the buffers' lengths beside them.
#[derive(Clone)]
pub struct Draft {
    pub frame: Frame,
    pub batch: Batch,
    pub buffers: [u64; 4],
}

/// How far a batch has come before one of its commands.
#[derive(Clone, Copy, Default)]
pub struct Progress {
    pub surface: bool,
    pub picture: bool,
    /// Whether a SLICEGROUP has come, and whether its group is open.
    pub grouped: bool,
    pub open: bool,
    /// Whether W×H macroblocks have come.
    pub complete: bool,
    pub ended: bool,
}

/// A MACROBLOCK command of a batch, the k-th, and the one before it.
#[derive(Clone, Copy)]
pub struct At {
    pub command: usize,
    pub k: u32,
    pub c: Command,
    pub before: Option<(usize, Command)>,
}

/// W and H: mostly a few macroblocks, now and then some dozens, a row a little more than a tile wide, or a long line, rarely
/// anything up to the largest picture.
fn shape(r: &mut Random) -> (u32, u32) {
    let mut near = |columns: i64, rows: i64| (near_ends(r, 1, columns) as u32, near_ends(r, 1, rows) as u32);
    let rare = near(256, 175);
    let some = near(16, 9);
    let few = near(5, 3);
    match r.within(0, 9999) {
        0..=2 => rare,
        3..=52 => (rare.0, 1),
        53..=102 => (1, rare.1),
        103..=700 => some,
        701..=1400 => (r.within(8, 10) as u32, 1),
        1401..=6000 => few,
        _ => (r.within(1, 3) as u32, r.within(1, 2) as u32),
    }
}

impl Draft {
    /// Keeps every rule, the buffers as long as any can be.
    pub fn new(r: &mut Random) -> Draft {
        let (columns, rows) = shape(r);
        Draft::of_shape(r, columns, rows)
    }

    pub fn of_shape(r: &mut Random, columns: u32, rows: u32) -> Draft {
        let sort = pick(r, &[1, 2, 2, 3, 3, 3]);
        let frame = random_frame(r, sort, columns, rows);
        let noops = if once_in(r, 3) { r.within(1, 6) as usize } else { 0 };
        let carried = if once_in(r, 5) { r.within(1, 7) as usize } else { 0 };
        let mut batch = random_batch(r, &frame, noops, carried);
        if once_in(r, 6) {
            batch.0.push(vec![0; r.within(1, 5) as usize]);
        }
        Draft { frame, batch, buffers: [u64::MAX; 4] }
    }

    /// The whole commands of this name.
    pub fn named(&self, name: &str) -> Vec<usize> {
        let whole = |words: &Vec<u32>| {
            let found = words.first().and_then(|word| header(*word));
            found.is_some_and(|(other, count)| other == name && count == words.len())
        };
        (0..self.batch.0.len()).filter(|command| whole(&self.batch.0[*command])).collect()
    }

    pub fn any(&self, r: &mut Random, name: &str) -> Option<usize> {
        let all = self.named(name);
        (!all.is_empty()).then(|| pick(r, &all))
    }

    /// The first W×H macroblocks.
    pub fn macroblocks(&self) -> Vec<At> {
        let mut all: Vec<At> = Vec::new();
        for command in self.named("MACROBLOCK").into_iter().take(self.frame.macroblocks()) {
            let c = self.batch.0[command][..].try_into().unwrap();
            let before = all.last().map(|at| (at.command, at.c));
            all.push(At { command, k: all.len() as u32, c, before });
        }
        all
    }

    /// How far the batch has come before each command and at its end.
    fn progress(&self) -> Vec<Progress> {
        let mut now = Progress::default();
        let mut all = vec![now];
        let mut seen = 0;
        for words in &self.batch.0 {
            match words.first().and_then(|word| header(*word)).map_or("", |(name, _)| name) {
                "SURFACE" => now.surface = true,
                "PICTURE" => now.picture = true,
                "SLICEGROUP" => (now.grouped, now.open) = (true, true),
                "END" => now.ended = true,
                "MACROBLOCK" => {
                    seen += 1;
                    now.complete = seen >= self.frame.macroblocks();
                    now.open &= !words[..].try_into().is_ok_and(|c: &Command| LAST_IN_GROUP.of(c) == 1);
                }
                _ => {}
            }
            all.push(now);
        }
        all
    }

    /// The commands, END among them, before which the batch has come so far.
    pub fn gaps(&self, so_far: fn(&Progress) -> bool) -> Vec<usize> {
        let all = self.progress();
        let found = |command: &usize| {
            let before = &all[*command];
            !self.batch.0[*command].is_empty() && !before.ended && so_far(before)
        };
        (0..self.batch.0.len()).filter(found).collect()
    }

    pub fn any_gap(&self, r: &mut Random, so_far: fn(&Progress) -> bool) -> Option<usize> {
        let all = self.gaps(so_far);
        (!all.is_empty()).then(|| pick(r, &all))
    }

    /// The last macroblock leaves its group open.
    pub fn leave_open(&mut self) -> Option<()> {
        let last = *self.named("MACROBLOCK").last()?;
        self.batch = self.batch.set(last, LAST_IN_GROUP, 0);
        Some(())
    }
}

#[cfg(test)]
mod tests {
    use super::*;
    use crate::reached::{count, CB_LOWEST, FIELD_MARKS, LOWEST_BY, LOWEST_MARKS, MARKS, UNTOUCHED};

    /// In the references all that tiles bring about comes up, in dozens of batches and more. Of the own samples the last
    /// macroblock's chroma has the highest byte: no other sample has a later column or row.
    #[test]
    fn tiles() {
        let mut r = Random::new(47);
        let seen = count((0..10_000).map(|_| Draft::new(&mut r).batch.words()));
        let of = |buffer: usize, mark: &'static str| seen.get(&(buffer, mark)).copied().unwrap_or(0);
        for mark in MARKS {
            assert!(of(2, mark) >= 80 && of(3, mark) >= 40, "{mark}: {seen:?}");
        }
        for buffer in 0..2 {
            assert!(MARKS[..3].iter().all(|mark| of(buffer, mark) == 0), "{seen:?}");
            assert!(MARKS[3..].iter().all(|mark| of(buffer, mark) >= 150), "{seen:?}");
        }
    }

    /// Fields have the highest and the lowest byte of the forward reference in hundreds of batches, and no other buffer's.
    #[test]
    fn fields() {
        let mut r = Random::new(51);
        let seen = count((0..10_000).map(|_| Draft::new(&mut r).batch.words()));
        let of = |buffer: usize, mark: &'static str| seen.get(&(buffer, mark)).copied().unwrap_or(0);
        assert!(FIELD_MARKS.iter().all(|mark| of(2, mark) >= 200), "{seen:?}");
        assert!(FIELD_MARKS.iter().all(|mark| of(0, mark) + of(1, mark) + of(3, mark) == 0), "{seen:?}");
    }

    /// In the references the lowest byte comes up wherever it may stand and whichever macroblock has it. Of those that are
    /// touched at least two in five are not touched from byte 0 on; the own samples always are.
    #[test]
    fn first_bytes() {
        let (mut r, drafts) = (Random::new(49), 10_000);
        let seen = count((0..drafts).map(|_| Draft::new(&mut r).batch.words()));
        let of = |buffer: usize, mark: &'static str| seen.get(&(buffer, mark)).copied().unwrap_or(0);
        for buffer in [2, 3] {
            assert!(LOWEST_MARKS.iter().all(|mark| of(buffer, mark) >= 15), "{seen:?}");
            assert!(LOWEST_BY.iter().all(|mark| of(buffer, mark) >= 300), "{seen:?}");
            let touched = drafts - of(buffer, UNTOUCHED);
            assert!(touched < drafts && 5 * of(buffer, LOWEST_MARKS[0]) >= 2 * touched, "{seen:?}");
        }
        assert!((0..2).all(|buffer| of(buffer, LOWEST_MARKS[0]) == 0));
        assert!((0..4).all(|buffer| of(buffer, CB_LOWEST) == 0));
    }

    /// About half of the pictures have chroma from row 64 on, and no luma byte is the highest there.
    #[test]
    fn chroma_from_row_64_on() {
        let mut r = Random::new(48);
        let far = |draft: &Draft| draft.frame.chroma_row >= 64;
        let drafts: Vec<Draft> = (0..10_000).map(|_| Draft::new(&mut r)).filter(far).collect();
        assert!((4_000..6_000).contains(&drafts.len()), "{}", drafts.len());
        let seen = count(drafts.iter().map(|draft| draft.batch.words()));
        assert!((0..4).all(|buffer| !seen.contains_key(&(buffer, MARKS[0]))), "{seen:?}");
    }
}
