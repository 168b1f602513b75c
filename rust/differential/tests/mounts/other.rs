//! Someone who answers about mount sheets as the second program does, but for one thing.

use differential::compare::Compare;
use differential::mounts::{CompareMounts, Mounts};
use differential::questions::{ask_mounts, ask_vectors, numbers};
use reference::mounts::{add, ask, vector, Answer, Record, Sheet};

/// The second program, with some of its functions replaced.
#[derive(Clone, Copy)]
pub struct Other {
    pub what: &'static str,
    pub ask: fn(&[u8], u64, u32, u32) -> Answer<Sheet>,
    pub add: fn(&mut [u8], u64, u32, u32, u32) -> Answer<u64>,
    pub vector: fn(u32, i16, i16) -> Answer<(i16, i16)>,
    pub fences_stand: bool,
}

pub const RIGHT: Other = Other { what: "nothing", ask, add, vector, fences_stand: true };

impl Mounts for Other {
    fn name(&self) -> &'static str {
        self.what
    }

    fn ask(&mut self, sheets: &[u8], count: u64, boat: u32, edition: u32) -> (Answer<Sheet>, Vec<u8>) {
        ((self.ask)(sheets, count, boat, edition), sheets.to_vec())
    }

    fn add(&mut self, sheets: &[u8], count: u64, boat: u32, edition: u32, side: u32) -> (Answer<u64>, Vec<u8>) {
        let mut lent = sheets.to_vec();
        ((self.add)(&mut lent, count, boat, edition, side), lent)
    }

    fn vector(&mut self, side: u32, x: i16, y: i16) -> Answer<(i16, i16)> {
        (self.vector)(side, x, y)
    }

    fn fences_stand(&mut self) -> bool {
        self.fences_stand
    }
}

/// The sheets as someone takes them who reads records in another way.
pub fn taken(sheets: &[u8], change: impl Fn(&mut Record)) -> Vec<u8> {
    let mut lent = sheets.to_vec();
    for bytes in lent.chunks_exact_mut(16) {
        let mut record = Record::read(bytes);
        change(&mut record);
        bytes.copy_from_slice(&record.bytes());
    }
    lent
}

fn asked_of(other: Other) -> Compare {
    let mut compare = Compare::default();
    compare.mounts = CompareMounts::of(other);
    compare
}

/// Whether one is found out by so many books and the lists with them.
pub fn found_by_books(other: Other, books: u64) -> bool {
    let mut compare = asked_of(other);
    (0..books).any(|index| ask_mounts(&mut compare, &mut numbers(3, index), index).is_err())
}

/// Whether one is found out by vectors.
pub fn found_by_vectors(other: Other) -> bool {
    ask_vectors(&mut asked_of(other)).is_err()
}
