//! Lists of calls: addings to one book, each with the bytes and the count that the last one returned, and questions between them.

use crate::batch_valid::{once_in, pick};
use crate::generate::boats::boats;
use crate::generate::mounts::{addition, good, question, Book};
use crate::mounts::{add, Record};
use crate::random::Random;

#[derive(Clone, Copy, Debug, PartialEq, Eq)]
pub enum Call {
    Ask { boat: u32, edition: u32 },
    Add { boat: u32, edition: u32, side: u32 },
}

/// A good book with room behind it, and the calls.
#[derive(Debug)]
pub struct List {
    pub book: Book,
    pub calls: Vec<Call>,
}

/// What is asked after an adding: what was just added or tried, editions that a boat already had, and anything. The first
/// record of the book is asked for again and again.
fn questions(r: &mut Random, records: &[Record], added: (u32, u32)) -> Vec<(u32, u32)> {
    let mut asked = vec![added];
    if !records.is_empty() {
        let stored = pick(r, records);
        asked.extend([(records[0].boat, records[0].edition), (stored.boat, stored.edition)]);
        let own: Vec<Record> = records.iter().filter(|record| record.boat == added.0).copied().collect();
        if !own.is_empty() {
            asked.push((added.0, pick(r, &own).edition));
        }
    }
    if once_in(r, 4) {
        asked.push(question(r, records));
    }
    asked
}

/// Up to so many addings, some of them refused, to a book of up to so many records.
fn list_of(r: &mut Random, stored: usize, addings: usize, most_boats: usize) -> List {
    let boats = boats(r, most_boats);
    let mut records = good(r, &boats, stored);
    let room = pick(r, &[16 * addings, 16 * addings + 40, 8 * addings, 8 * addings + 15, 0]);
    let mut sheets: Vec<u8> = records.iter().flat_map(Record::bytes).collect();
    sheets.extend((0..room).map(|_| r.next() as u8));
    let book = Book { sheets: sheets.clone(), count: stored as u64 };
    let (mut count, mut calls) = (book.count, Vec::new());
    for _ in 0..addings {
        let (mut boat, mut edition, side) = addition(r, &records);
        if once_in(r, 2) {
            boat = pick(r, &boats);
            edition = 1 + records.iter().filter(|record| record.boat == boat).count() as u32;
        }
        calls.push(Call::Add { boat, edition, side });
        let answer = add(&mut sheets, count, boat, edition, side);
        if answer.number == 0 {
            records.push(Record::new(boat, edition, side as u8));
        }
        count = answer.value;
        calls.extend(questions(r, &records, (boat, edition)).into_iter().map(|(boat, edition)| Call::Ask { boat, edition }));
    }
    List { book, calls }
}

/// Any list: from nothing, of few records or of some hundreds, with few addings or many.
pub fn list(r: &mut Random) -> List {
    let (stored, addings, boats) = match r.within(0, 19) {
        0..=4 => (0, r.within(1, 60), r.within(1, 5)),
        5..=17 => (r.within(0, 20), r.within(1, 30), r.within(1, 20)),
        18 => (r.within(0, 60), r.within(60, 150), r.within(1, 60)),
        _ => (r.within(200, 600), r.within(1, 10), r.within(100, 300)),
    };
    list_of(r, stored as usize, addings as usize, boats as usize)
}

#[cfg(test)]
mod tests {
    use super::*;
    use crate::mounts::{ask, Answer, Sheet};
    use std::collections::{BTreeMap, BTreeSet};

    /// "No later adding, with bytes and number handed on as returned, changes the answer for an edition the boat already has":
    /// every edition that was ever there is asked for after each adding, and its sheet is the one that was added.
    #[test]
    fn answers_stay() {
        let mut r = Random::new(95);
        let mut numbers = BTreeSet::new();
        for _ in 0..60 {
            let List { book: Book { mut sheets, mut count }, calls } = list(&mut r);
            let mut held: BTreeMap<(u32, u32), u8> = BTreeMap::new();
            held.extend(
                sheets.chunks_exact(16).take(count as usize).map(Record::read).map(|of| ((of.boat, of.edition), of.side)),
            );
            for call in calls.iter().take(60) {
                let Call::Add { boat, edition, side } = *call else { continue };
                let answer = add(&mut sheets, count, boat, edition, side);
                numbers.insert(answer.number);
                count = answer.value;
                if answer.number == 0 {
                    assert_eq!(held.insert((boat, edition), side as u8), None);
                }
                for ((boat, edition), side) in &held {
                    let due = Answer::accepted(Sheet { edition: *edition, side: *side });
                    assert_eq!(ask(&sheets, count, *boat, *edition), due);
                }
            }
        }
        assert!(numbers.into_iter().eq([0, 14, 21, 22]));
    }
}
