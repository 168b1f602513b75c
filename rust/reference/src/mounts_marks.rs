//! What questions about mount sheets are to bring about: every number, every sort of place, and which fault stands in front of
//! which. For comparisons that count it.

use std::collections::BTreeMap;

/// An operation and what it reached.
pub type Mark = (&'static str, &'static str);

pub const ASK: [&str; 5] = [
    "0, the edition asked for",
    "0, an earlier edition",
    "19, a boat that has none",
    "19, edition 0 of a boat that has some",
    "19, no record at all",
];

pub const ADD: [&str; 16] = [
    "0, a new boat",
    "0, a boat that has some",
    "0, in the last 16 bytes",
    "0, with bytes behind",
    "14, no byte left",
    "14, 1 to 15 bytes left",
    "20, a side above 1 too",
    "20, no room too",
    "21, edition 0",
    "21, an edition that the boat has",
    "21, an edition beyond the next",
    "21, no room too",
    "22 alone",
    "22, a low byte that is a side",
    "22, another edition too",
    "22, no room too",
];

/// Of asking and of adding.
pub const BY_COUNT: [&str; 7] = [
    "20 by count, one too many",
    "20 by count, as many as 64 bits hold",
    "20 by count, 16 times it past 64 bits and then short enough",
    "20 by count, as many in 32 bits as are held",
    "20 by count, cut in a record",
    "20 by count, a bad record too",
    "20 by count, no record held",
];

pub const AT_RECORD: [&str; 5] = [
    "20 at the only record",
    "20 at the first record",
    "20 at a middle record",
    "20 at the last record",
    "20, a bad record behind it too",
];

pub const BY_SIDE: &str = "20 by side alone";

pub const BY_FILLER: [&str; 7] = [
    "20 by byte 9 alone",
    "20 by byte 10 alone",
    "20 by byte 11 alone",
    "20 by byte 12 alone",
    "20 by byte 13 alone",
    "20 by byte 14 alone",
    "20 by byte 15 alone",
];

pub const BY_EDITION: [&str; 4] = [
    "20 by edition 0 alone",
    "20 by a first edition above 1 alone",
    "20 by an edition that the boat has alone",
    "20 by an edition left out alone",
];

pub const BEHIND: &str = "not 20, a bad record behind the counted";

pub const VECTOR: [&str; 7] = [
    "0 on starboard",
    "0 on port",
    "0, x = -32768 on starboard",
    "0, y = -32768 on port",
    "22, x other than -32768",
    "22, x = -32768",
    "23",
];

/// Of lists of calls, each with the bytes and the count that the last one returned.
pub const LIST: [&str; 4] = [
    "an edition that the boat has, again after an adding to that boat",
    "an edition that the boat has, again after an adding to another boat",
    "an edition that the boat has, again after a refused adding",
    "an edition that was just added",
];

/// Everything that is to be reached.
pub fn due() -> Vec<Mark> {
    let judging = [&BY_COUNT[..], &AT_RECORD, &[BY_SIDE], &BY_FILLER, &BY_EDITION, &[BEHIND]].concat();
    let of = [("ask", &ASK[..]), ("ask", &judging), ("add", &ADD), ("add", &judging), ("vector", &VECTOR), ("list", &LIST)];
    of.into_iter().flat_map(|(operation, marks)| marks.iter().map(move |mark| (operation, *mark))).collect()
}

/// How often each mark was reached.
#[derive(Default)]
pub struct Reached(BTreeMap<Mark, u64>);

impl Reached {
    pub fn count(&mut self, operation: &'static str, marks: Vec<&'static str>) {
        marks.into_iter().for_each(|mark| *self.0.entry((operation, mark)).or_default() += 1);
    }

    pub fn of(&self, mark: Mark) -> u64 {
        self.0.get(&mark).copied().unwrap_or(0)
    }

    /// The marks that are due and were not reached so often.
    pub fn rarer_than(&self, least: u64) -> Vec<Mark> {
        due().into_iter().filter(|mark| self.of(*mark) < least).collect()
    }
}

#[cfg(test)]
mod tests {
    use super::*;
    use std::collections::BTreeSet;

    #[test]
    fn no_mark_twice() {
        let due = due();
        assert_eq!(due.iter().collect::<BTreeSet<_>>().len(), due.len());
        let mut reached = Reached::default();
        assert_eq!(reached.rarer_than(1), due);
        due[1..].iter().for_each(|(operation, mark)| reached.count(operation, vec![mark]));
        assert_eq!((reached.rarer_than(1), reached.rarer_than(2)), (vec![due[0]], due.clone()));
    }
}
