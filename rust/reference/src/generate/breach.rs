//! The table of breaches: each rule of document 01 and of document 02's R-6, with a change that breaks it somewhere in a batch
//! that keeps them all.

use crate::batch_valid::pick;
use crate::command::{Answer, Command};
use crate::generate::draft::{At, Draft};
use crate::leaf::{bits, with_bits};
use crate::random::Random;

/// Breaks the rule and says at which place its number stands. None if the batch has no place for it.
type Change = dyn Fn(&mut Random, &mut Draft) -> Option<usize>;

pub struct Breach {
    /// The rule, in the documents' words or nearly so.
    pub rule: String,
    pub number: u8,
    change: Box<Change>,
}

impl Breach {
    pub fn new(rule: &str, number: u8, change: impl Fn(&mut Random, &mut Draft) -> Option<usize> + 'static) -> Breach {
        Breach { rule: rule.into(), number, change: Box::new(change) }
    }

    /// Breaks the rule in a batch, and gives the answer due if the batch kept every rule before. None if there is no place for
    /// it; the batch may then still have been changed.
    pub fn apply(&self, r: &mut Random, draft: &mut Draft) -> Option<Answer> {
        (self.change)(r, draft).map(|place| (self.number, place))
    }

    /// The rule broken in some batch that kept every rule.
    pub fn somewhere(&self, r: &mut Random) -> (Draft, Answer) {
        loop {
            let mut draft = Draft::new(r);
            if let Some(due) = self.apply(r, &mut draft) {
                return (draft, due);
            }
        }
    }
}

/// "A word's bits that must always have one value give 4": one of bits hi:lo of a word wrong, or several.
pub fn fixed(name: &'static str, word: usize, hi: u8, lo: u8) -> Breach {
    Breach::new(&format!("{name} word {word}, bits {hi}:{lo}"), 4, move |r, draft| {
        let command = draft.any(r, name)?;
        let (one, several) = (1 << r.within(0, (hi - lo).into()), r.within(1, (1 << (hi - lo + 1)) - 1) as u32);
        let wrong = pick(r, &[one, several]);
        draft.batch.0[command][word] ^= wrong << lo;
        Some(draft.batch.place(command, word))
    })
}

/// Bits hi:lo of a word of a state command set to a value.
pub fn put(draft: &mut Draft, command: usize, word: usize, hi: u8, lo: u8, value: u32) {
    let words = &mut draft.batch.0[command];
    words[word] = with_bits(words[word], hi, lo, value);
    assert_eq!(bits(words[word], hi, lo), value);
}

/// A rule whose number stands at a word of a MACROBLOCK command. The change gives the command that breaks it, or none where
/// this macroblock can't.
pub fn macroblock(
    rule: &str,
    number: u8,
    word: usize,
    change: impl Fn(&mut Random, &Draft, &At) -> Option<Command> + 'static,
) -> Breach {
    Breach::new(rule, number, move |r, draft| {
        let mut all = draft.macroblocks();
        let first = r.within(0, all.len() as i64) as usize;
        all.rotate_left(first);
        let (at, c) = all.iter().find_map(|at| Some((at, change(r, draft, at)?)))?;
        draft.batch.0[at.command] = c.into();
        Some(draft.batch.place(at.command, word))
    })
}

/// Any of the values that a test lets through.
pub fn any_value(r: &mut Random, values: impl Iterator<Item = u32>) -> Option<u32> {
    let all: Vec<u32> = values.collect();
    (!all.is_empty()).then(|| pick(r, &all))
}

/// Every rule of a batch.
pub fn table() -> Vec<Breach> {
    let mut all = crate::generate::break_sequence::breaches();
    all.extend(crate::generate::break_state::breaches());
    all.extend(crate::generate::break_macroblock::breaches());
    all.extend(crate::generate::break_vectors::breaches());
    all.extend(crate::generate::break_skip::breaches());
    all.extend(crate::generate::break_field::breaches());
    all
}

#[cfg(test)]
mod tests {
    use super::*;
    use crate::check::check;
    use std::collections::BTreeSet;

    /// Each rule gives its number at its place, in whatever batch it is broken; no two have one name.
    #[test]
    fn every_rule_is_broken() {
        let mut r = Random::new(40);
        let table = table();
        for breach in &table {
            for _ in 0..200 {
                let (draft, due) = breach.somewhere(&mut r);
                let report = check(&draft.batch.words(), draft.buffers);
                assert_eq!((report.number, report.place as usize), due, "{}", breach.rule);
            }
        }
        let names: BTreeSet<&str> = table.iter().map(|breach| &breach.rule[..]).collect();
        assert_eq!(names.len(), table.len());
        let numbers: BTreeSet<u8> = table.iter().map(|breach| breach.number).collect();
        assert!(numbers.into_iter().eq(1..=13));
    }
}
