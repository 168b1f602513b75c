//! Mount sheets of every sort, and what is asked of them: good ones of few and of many boats, damaged ones, ones cut in a record,
//! and counts that are not what is stored.

use crate::batch_valid::{near_ends, once_in, pick};
use crate::generate::boats::{boats, near};
use crate::mounts::Record;
use crate::random::Random;
use std::collections::BTreeMap;

/// Lent bytes, and the number of records that comes with them.
#[derive(Clone, Debug)]
pub struct Book {
    pub sheets: Vec<u8>,
    pub count: u64,
}

/// So many good records of these boats: mixed at random, in turns, one boat after the other, or most of one boat.
pub fn good(r: &mut Random, boats: &[u32], count: usize) -> Vec<Record> {
    let mut newest = BTreeMap::new();
    let order = r.within(0, 4);
    let mut record = |n: usize| {
        let boat = match order {
            0 => boats[n % boats.len()],
            1 => boats[n * boats.len() / count],
            2 if !once_in(r, 5) => boats[0],
            _ => pick(r, boats),
        };
        let edition = newest.entry(boat).and_modify(|edition| *edition += 1).or_insert(1);
        Record::new(boat, *edition, r.within(0, 1) as u8)
    };
    (0..count).map(&mut record).collect()
}

/// How many records, and of how many boats at most: mostly few, some hundreds at times, thousands now and then.
fn size(r: &mut Random) -> (usize, usize) {
    let (records, boats) = match r.within(0, 399) {
        0..=19 => (r.within(0, 1), 1),
        20..=219 => (r.within(1, 8), r.within(1, 4)),
        220..=379 => (r.within(2, 60), r.within(1, 30)),
        380..=397 => (r.within(60, 400), r.within(1, 100)),
        _ => (r.within(1000, 3000), r.within(200, 700)),
    };
    (records as usize, boats as usize)
}

/// One field of a record changed, mostly to what it may not be.
fn damage_field(r: &mut Random, record: &mut Record) {
    let any = r.next() as u32;
    match r.within(0, 7) {
        0 | 1 => record.side = pick(r, &[2, 3, 128, 254, 255, (any % 254 + 2) as u8]),
        2 | 3 => record.filler[r.within(0, 6) as usize] = pick(r, &[1, 128, 255, 1 << (any % 8), (any % 255 + 1) as u8]),
        4 => record.boat = near(r, record.boat),
        _ => {
            let (edition, bit) = (record.edition, 1 << r.within(0, 31));
            let near = [1, 2, u32::MAX].map(|step| edition.wrapping_add(step));
            let others = [0, 1, edition ^ bit, edition.swap_bytes(), u32::MAX, any];
            record.edition = pick(r, &[&near[..], &others].concat());
        }
    }
}

/// One change at any place, often the first or the last: a field, two records exchanged, one repeated or left out.
pub fn damage(r: &mut Random, records: &mut Vec<Record>) {
    let Some(last) = records.len().checked_sub(1) else { return };
    let at = near_ends(r, 0, last as i64) as usize;
    let other = r.within(0, last as i64) as usize;
    match r.within(0, 9) {
        0 => records.swap(at, other),
        1 => records.insert(at, records[other]),
        2 => drop(records.remove(at)),
        _ => damage_field(r, &mut records[at]),
    }
}

/// Bytes behind the records: none, less than a record, one or more; zeros, anything, or a record that would be good.
fn behind(r: &mut Random, boats: &[u32]) -> Vec<u8> {
    let any = r.within(0, 100);
    let bytes = pick(r, &[0, 0, 0, 1, 8, 15, 16, 16, 17, 31, 32, any]) as usize;
    let record = Record::new(pick(r, boats), r.within(1, 3) as u32, r.within(0, 1) as u8).bytes();
    let sort = r.within(0, 3);
    let byte = |n: usize| match sort {
        0 => 0,
        1 => 0xff,
        2 => record[n % 16],
        _ => r.next() as u8,
    };
    (0..bytes).map(byte).collect()
}

/// Mostly the number of records; or fewer, or as many as the bytes hold, or more than that, up to numbers of which 16 times
/// goes past 64 bits.
fn count(r: &mut Random, records: usize, bytes: usize) -> u64 {
    let (records, held) = (records as u64, bytes as u64 / 16);
    match r.within(0, 19) {
        0..=13 => records,
        14 => r.within(0, records as i64) as u64,
        15 | 16 => held,
        17 => held + 1,
        18 => pick(r, &[u64::MAX, (1 << 32) + held, 1 << 60, (1 << 60) + held, (1 << 63) + held, u64::MAX / 16]),
        _ => held + r.within(1, 1000) as u64,
    }
}

/// Good records, some of them damaged, bytes behind them, and a count.
pub fn book(r: &mut Random) -> Book {
    let (records, most) = size(r);
    let boats = boats(r, most);
    let mut records = good(r, &boats, records);
    let damages = pick(r, &[0, 0, 0, 0, 0, 0, 1, 1, 1, 2]);
    (0..damages).for_each(|_| damage(r, &mut records));
    let mut sheets: Vec<u8> = records.iter().flat_map(Record::bytes).chain(behind(r, &boats)).collect();
    if once_in(r, 20) {
        sheets.truncate(r.within(0, sheets.len() as i64) as usize);
    }
    let count = count(r, records.len(), sheets.len());
    Book { sheets, count }
}

/// A good book of one boat with room for one more record, its boat and its newest edition, which 16 bits do not hold.
pub fn long_book(r: &mut Random) -> (Book, u32, u32) {
    let (boats, newest) = (boats(r, 1), r.within(65_536, 65_600) as u32);
    let records = good(r, &boats, newest as usize);
    let sheets = records.iter().flat_map(Record::bytes).chain([0xee; 16]).collect();
    (Book { sheets, count: newest.into() }, boats[0], newest)
}

impl Book {
    /// All whole records, counted or not.
    pub fn records(&self) -> Vec<Record> {
        self.sheets.chunks_exact(16).map(Record::read).collect()
    }
}

/// A boat that is there, one that is easily taken for it, or any; and the newest edition of it that is there, or 0.
fn boat(r: &mut Random, records: &[Record]) -> (u32, u32) {
    let boat = match r.within(0, 9) {
        0 => pick(r, &[0, u32::MAX, 1, 1 << 31]),
        1 => r.next() as u32,
        sort if !records.is_empty() => {
            let stored = pick(r, records).boat;
            if sort < 4 {
                near(r, stored)
            } else {
                stored
            }
        }
        _ => r.next() as u32,
    };
    let editions = records.iter().filter(|record| record.boat == boat).map(|record| record.edition);
    (boat, editions.max().unwrap_or(0))
}

/// A boat and an edition to ask for.
pub fn question(r: &mut Random, records: &[Record]) -> (u32, u32) {
    let (boat, newest) = boat(r, records);
    let (between, any) = (r.within(0, newest.into()) as u32, r.next() as u32);
    let editions = [between, between, between, newest, newest, newest.saturating_add(1), 0, 1, u32::MAX, any];
    (boat, pick(r, &editions))
}

/// A boat, an edition and a side to add: mostly the next edition and a side that there is.
pub fn addition(r: &mut Random, records: &[Record]) -> (u32, u32, u32) {
    let (boat, newest) = boat(r, records);
    let next = newest.wrapping_add(1);
    let (between, any) = (r.within(0, newest.into()) as u32, r.next() as u32);
    let others = [0, 1, between, newest, next.wrapping_add(1), next.swap_bytes(), u32::MAX, any];
    let edition = if once_in(r, 4) { pick(r, &others) } else { next };
    let sides = [2, 3, 255, 256, 257, 1 << 16, (1 << 16) + 1, 1 << 31, u32::MAX, any];
    let side = if once_in(r, 5) { pick(r, &sides) } else { any % 2 };
    (boat, edition, side)
}

#[cfg(test)]
mod tests {
    use super::*;
    use crate::mounts::{add, ask, judge};
    use crate::mounts_marks::{due, Reached};
    use crate::mounts_reached::{of_adding, of_asking};

    #[test]
    fn good_records_are_good() {
        let mut r = Random::new(92);
        for n in 0..300 {
            let boats = boats(&mut r, n % 50 + 1);
            let records = good(&mut r, &boats, n);
            assert_eq!(records.len(), n);
            let newest = judge(&records).unwrap();
            assert!(newest.keys().all(|boat| boats.contains(boat)));
            assert_eq!(newest.values().sum::<u32>() as usize, n);
        }
    }

    #[test]
    fn editions_of_17_bits() {
        let (book, boat, newest) = long_book(&mut Random::new(97));
        assert_eq!(ask(&book.sheets, book.count, boat, u32::MAX).value.edition, newest);
        assert!(newest >= 65_536);
        assert_eq!(add(&mut book.sheets.clone(), book.count, boat, newest + 1, 0).number, 0);
    }

    /// All that asking and adding can bring about comes up.
    #[test]
    fn every_mark() {
        let (mut r, mut reached) = (Random::new(93), Reached::default());
        for _ in 0..6000 {
            let book = book(&mut r);
            let records = book.records();
            let asked = question(&mut r, &records);
            let answer = ask(&book.sheets, book.count, asked.0, asked.1);
            reached.count("ask", of_asking(&book.sheets, book.count, asked, answer));
            let added = addition(&mut r, &records);
            let answer = add(&mut book.sheets.clone(), book.count, added.0, added.1, added.2);
            reached.count("add", of_adding(&book.sheets, book.count, added, answer));
        }
        for mark in due().into_iter().filter(|mark| ["ask", "add"].contains(&mark.0)) {
            assert!(reached.of(mark) >= 5, "{mark:?}: {}", reached.of(mark));
        }
    }

    /// Books of no byte and of thousands of records, good ones of several hundred boats among these.
    #[test]
    fn small_and_large() {
        let mut r = Random::new(94);
        let mut seen = [0; 4];
        for _ in 0..3000 {
            let records = book(&mut r).records();
            let boats = judge(&records).map_or(0, |newest| newest.len());
            let marks = [records.is_empty(), records.len() > 100, records.len() > 1000, records.len() > 1000 && boats > 200];
            (0..4).for_each(|mark| seen[mark] += u32::from(marks[mark]));
        }
        assert!(seen.iter().all(|count| *count >= 2), "{seen:?}");
    }
}
