//! Batches of every sort beside lengths of every sort: valid ones, ones that break a rule or several, damaged ones, and words
//! that are no batch.

use crate::batch_rules::{self, Named};
use crate::batch_valid::{once_in, pick};
use crate::check::{judge, lengths_of, Judged};
use crate::command::COMMANDS;
use crate::generate::breach::{self, Breach};
use crate::generate::draft::Draft;
use crate::random::Random;

/// A batch and the lengths beside it.
pub struct Batch {
    pub words: Vec<u32>,
    pub buffers: [u64; 4],
    /// What the words alone come to.
    pub judged: Judged,
    /// The rules that were broken in it, as numbers of the table of breaches; none for a valid batch and for damage.
    pub broken: Vec<usize>,
}

/// The generator, with its two tables: of breaches, and of the named rules that the stored cases are made from.
pub struct Batches {
    pub breaches: Vec<Breach>,
    named: Vec<Named>,
}

/// Buffers as long as is needed, a byte or all of it too short in some, or anything.
fn lengths(r: &mut Random, exact: [u64; 4]) -> [u64; 4] {
    match r.within(0, 7) {
        0..=2 => exact,
        3 => [u64::MAX; 4],
        4 => [0; 4],
        5 => exact.map(|length| if once_in(r, 3) { length.saturating_sub(1) } else { length }),
        6 => exact.map(|length| pick(r, &[length, length + 1, length.saturating_sub(1), 0, u64::MAX, length << 32])),
        _ => exact.map(|length| if once_in(r, 2) { r.next() } else { length }),
    }
}

/// A word that a batch may have, or any.
fn word(r: &mut Random, words: &[u32]) -> u32 {
    match r.within(0, 3) {
        0 => pick(r, &COMMANDS).0,
        1 if !words.is_empty() => pick(r, words),
        2 => pick(r, &[0, 1, u32::MAX, 1 << 31, 0x0500_0000]),
        _ => r.next() as u32,
    }
}

/// One change at any place: a bit or a word changed, its halves exchanged, words left out, put in, repeated or exchanged, or the
/// rest cut off.
pub fn damage(r: &mut Random, words: &mut Vec<u32>) {
    let place = |r: &mut Random, words: &[u32]| r.within(0, words.len() as i64 - 1) as usize;
    if words.is_empty() {
        return words.push(word(r, &[]));
    }
    let (at, other) = (place(r, words), place(r, words));
    match r.within(0, 9) {
        0..=2 => words[at] ^= 1 << r.within(0, 31),
        3 => words[at] = word(r, words),
        4 => words[at] = words[at].rotate_left(16),
        5 => words.truncate(at),
        6 => words.swap(at, other),
        7 => words.insert(at, word(r, words)),
        8 => drop(words.remove(at)),
        _ => {
            let (first, last) = (at.min(other), at.max(other).min(at.min(other) + 70));
            let again = words[first..last].to_vec();
            words.splice(first..first, again);
        }
    }
}

/// Words that are no batch: any words, headers with any words behind them, or zeros.
fn any_words(r: &mut Random) -> Vec<u32> {
    let count = r.within(0, 60) as usize;
    match r.within(0, 3) {
        0 => vec![0; count],
        1 => (0..count).map(|_| r.next() as u32).collect(),
        2 => (0..count).map(|_| word(r, &[])).collect(),
        _ => {
            let commands = (0..count % 9).flat_map(|_| {
                let (header, _, count) = pick(r, &COMMANDS);
                let body: Vec<u32> = (1..count).map(|_| word(r, &[])).collect();
                [vec![header], body].concat()
            });
            commands.collect()
        }
    }
}

impl Default for Batches {
    fn default() -> Batches {
        Batches { breaches: breach::table(), named: batch_rules::table() }
    }
}

impl Batches {
    /// The words, beside lengths that are drawn about the ones needed.
    fn beside_lengths(&self, r: &mut Random, words: Vec<u32>, broken: Vec<usize>) -> Batch {
        let judged = judge(&words);
        let buffers = lengths(r, judged.map_or([384; 4], lengths_of));
        Batch { words, buffers, judged, broken }
    }

    /// One rule broken, each as often as another. For 13 the lengths are those that break it.
    fn one_rule(&self, r: &mut Random) -> Batch {
        let rule = r.within(0, self.breaches.len() as i64 - 1) as usize;
        let (draft, due) = self.breaches[rule].somewhere(r);
        if due.0 != 13 {
            return self.beside_lengths(r, draft.batch.words(), vec![rule]);
        }
        let words = draft.batch.words();
        let judged = judge(&words);
        Batch { words, buffers: draft.buffers, judged, broken: vec![rule] }
    }

    /// Two to four rules broken, as far as each finds a place.
    fn several_rules(&self, r: &mut Random) -> Batch {
        let mut draft = Draft::new(r);
        let mut broken = Vec::new();
        for _ in 0..r.within(2, 4) {
            let rule = r.within(0, self.breaches.len() as i64 - 1) as usize;
            if self.breaches[rule].apply(r, &mut draft).is_some() {
                broken.push(rule);
            }
        }
        self.beside_lengths(r, draft.batch.words(), broken)
    }

    /// More words than a reader's buffer holds: a large picture, or very many zero words behind END; half of them with a bit
    /// wrong in their last quarter.
    pub fn long(&self, r: &mut Random) -> Batch {
        let mut words = if once_in(r, 2) {
            let (columns, rows) = (r.within(100, 256) as u32, r.within(5, 20) as u32);
            Draft::of_shape(r, columns, rows).batch.words()
        } else {
            [Draft::new(r).batch.words(), vec![0; r.within(10_000, 200_000) as usize]].concat()
        };
        if once_in(r, 2) {
            let last = words.len() as i64 - 1;
            words[r.within(3 * last / 4, last) as usize] ^= 1 << r.within(0, 31);
        }
        self.beside_lengths(r, words, vec![])
    }

    /// Any batch.
    pub fn next(&self, r: &mut Random) -> Batch {
        match r.within(0, 99) {
            0..=29 => {
                let words = Draft::new(r).batch.words();
                self.beside_lengths(r, words, vec![])
            }
            30..=71 => self.one_rule(r),
            72..=79 => self.several_rules(r),
            80..=87 => {
                let mut words = Draft::new(r).batch.words();
                (0..r.within(1, 3)).for_each(|_| damage(r, &mut words));
                self.beside_lengths(r, words, vec![])
            }
            88..=91 => {
                let mut words = Draft::new(r).batch.words();
                words.truncate(r.within(0, words.len() as i64) as usize);
                self.beside_lengths(r, words, vec![])
            }
            92..=95 => {
                let words = any_words(r);
                self.beside_lengths(r, words, vec![])
            }
            _ => {
                let named = &self.named[r.within(0, self.named.len() as i64 - 1) as usize];
                let judged = judge(&named.words);
                Batch { words: named.words.clone(), buffers: named.buffers, judged, broken: vec![] }
            }
        }
    }
}

#[cfg(test)]
mod tests {
    use super::*;
    use crate::batch_cases::{command_at, places_due};
    use crate::check::{beside, Report};
    use crate::command::{header, kind, Field, BOTTOM_CHOICE, DCT_TYPE, LAST_IN_GROUP, LAST_IN_SLICE, SKIP, TOP_CHOICE};
    use std::collections::{BTreeMap, BTreeSet};

    /// Every number from 0 to 13, numbers 2 to 11 at each word where one can stand, and every rule of the table broken alone
    /// with its number given.
    #[test]
    fn every_number_and_every_rule() {
        let (mut r, batches) = (Random::new(41), Batches::default());
        let mut numbers: BTreeMap<u8, usize> = BTreeMap::new();
        let mut rules = vec![0; batches.breaches.len()];
        let mut places = BTreeSet::new();
        for _ in 0..30_000 {
            let batch = batches.next(&mut r);
            let report = beside(batch.judged, batch.buffers);
            *numbers.entry(report.number).or_default() += 1;
            if (2..=11).contains(&report.number) {
                let (name, word) = command_at(&batch.words, report.place as usize).unwrap();
                places.insert((report.number, name, word));
            }
            if let [rule] = batch.broken[..] {
                rules[rule] += u32::from(report.number == batches.breaches[rule].number);
            }
        }
        assert!(numbers.keys().copied().eq(0..=13), "{numbers:?}");
        assert!(numbers.values().all(|count| *count >= 200), "{numbers:?}");
        assert_eq!(places, places_due());
        for (breach, count) in batches.breaches.iter().zip(rules) {
            assert!(count >= 20, "{}: {count}", breach.rule);
        }
    }

    /// Of the answers with lengths at least two in five have a first byte that is not 0, and so have the refusals by 13 alone.
    #[test]
    fn first_bytes() {
        let (mut r, batches) = (Random::new(50), Batches::default());
        let (mut reported, mut short) = ([0; 2], [0; 2]);
        for _ in 0..10_000 {
            let batch = batches.next(&mut r);
            let Report { number, firsts, .. } = beside(batch.judged, batch.buffers);
            let counted = usize::from(firsts != [0; 4]);
            reported[counted] += u32::from(matches!(number, 0 | 13));
            short[counted] += u32::from(number == 13);
        }
        for [zeros, others] in [reported, short] {
            assert!(others > 300 && 3 * others >= 2 * zeros, "{reported:?} {short:?}");
        }
    }

    /// Every rule can be broken where others are broken already.
    #[test]
    fn several_rules() {
        let (mut r, batches) = (Random::new(46), Batches::default());
        let several = (0..40_000).filter(|_| batches.several_rules(&mut r).broken.len() > 1).count();
        assert!(several > 10_000, "{several}");
    }

    /// Whatever a valid batch may have comes up: types, f codes, sizes at their ends, skips, slices and groups that end in
    /// mid-row, NOOPs, carried commands, zero words after END; PICTURE bit 10, dct types and fields of every sort.
    #[test]
    fn every_shape() {
        let mut r = Random::new(42);
        let mut seen: BTreeMap<String, usize> = BTreeMap::new();
        for _ in 0..20_000 {
            let draft = Draft::new(&mut r);
            let f = draft.frame;
            let mut see = |mark: String| *seen.entry(mark).or_default() += 1;
            see(format!("type {} fields {}", f.sort, f.fields));
            f.codes.iter().enumerate().for_each(|(n, code)| see(format!("code {n} {code}")));
            for (name, value, ends) in [
                ("columns", f.columns, [1, 256]),
                ("rows", f.rows, [1, 175]),
                ("width", f.width - 16 * (f.columns - 1), [1, 16]),
                ("height", f.height - 16 * (f.rows - 1), [1, 16]),
                ("pitch", f.pitch, [(16 * f.columns).next_multiple_of(128), 131072]),
                ("chroma row", f.chroma_row, [16 * f.rows, 32767]),
            ] {
                (0..2).for_each(|n| see(format!("{name} {} {}", ["least", "most"][n], value == ends[n])));
            }
            for at in draft.macroblocks() {
                let set = |field: Field| field.of(&at.c) == 1;
                let mid_row = at.k % f.columns != f.columns - 1;
                see(format!("kind {:?} skip {}", kind(&at.c), set(SKIP)));
                see(format!("kind {:?} dct type {} type {}", kind(&at.c), set(DCT_TYPE), f.sort));
                see(format!("kind {:?} choices {} {}", kind(&at.c), set(TOP_CHOICE), set(BOTTOM_CHOICE)));
                see(format!("slice in mid-row {}", mid_row && set(LAST_IN_SLICE)));
                see(format!("group in mid-row {}", mid_row && set(LAST_IN_GROUP)));
            }
            let end = draft.named("END")[0];
            see(format!("zeros after END {}", draft.batch.0.len() > end + 1));
            for words in &draft.batch.0[..end] {
                see(header(words[0]).map(|(name, count)| format!("{name} {count}")).unwrap());
            }
        }
        let mut due = vec!["slice in mid-row true", "group in mid-row true", "zeros after END true", "NOOP 1"];
        due.extend(["carried 5", "carried 61", "carried 26", "carried 10", "carried 18", "carried 34"]);
        let fields = (1..4).flat_map(|sort| [true, false].map(|fields| format!("type {sort} fields {fields}")));
        let kinds = [(0, 1), (0, 2), (0, 3), (1, 2), (1, 3), (2, 3), (3, 3), (4, 2)];
        let dct_types = kinds.into_iter().flat_map(|(kind, sort)| [true, false].map(|set| (kind, set, sort)));
        let dct_types = dct_types.map(|(kind, set, sort)| format!("kind Some({kind}) dct type {set} type {sort}"));
        let choices = (0..4).map(|n| format!("kind Some(4) choices {} {}", n % 2 == 1, n / 2 == 1));
        let skips = (1..4).map(|kind| format!("kind Some({kind}) skip true"));
        let codes = (1..10).flat_map(|code| (0..4).map(move |n| format!("code {n} {code}")));
        let sizes = ["columns", "rows", "width", "height", "pitch", "chroma row"];
        let ends = sizes.iter().flat_map(|name| ["least", "most"].map(|end| format!("{name} {end} true")));
        let by_fields = fields.chain(dct_types).chain(choices);
        for mark in due.into_iter().map(String::from).chain(skips).chain(codes).chain(ends).chain(by_fields) {
            assert!(seen.get(&mark).is_some_and(|count| *count >= 5), "{mark}: {seen:?}");
        }
    }
}
