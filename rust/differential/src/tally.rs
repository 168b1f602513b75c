//! What was compared, by operation and number.

use std::collections::BTreeMap;
use std::fmt;

/// Document 01's numbers, 27 apart: that takes 16 GiB of words.
const BATCH_NUMBERS: [u8; 17] = [0, 1, 2, 3, 4, 5, 6, 7, 8, 9, 10, 11, 12, 13, 14, 15, 16];
const BATCH_OPERATIONS: [&str; 6] = ["whole", "parts", "decoding", "command", "record", "program"];

/// The numbers of document 02's R-9.
const MOUNT_NUMBERS: [u8; 7] = [0, 14, 19, 20, 21, 22, 23];
const MOUNT_OPERATIONS: [&str; 3] = ["ask", "add", "vector"];

pub struct Tally {
    /// Operations in the order in which they are shown.
    operations: &'static [&'static str],
    numbers: &'static [u8],
    counts: BTreeMap<(&'static str, u8), u64>,
}

impl Default for Tally {
    /// Of batches, commands and records.
    fn default() -> Tally {
        Tally { operations: &BATCH_OPERATIONS, numbers: &BATCH_NUMBERS, counts: BTreeMap::new() }
    }
}

impl Tally {
    pub fn of_mounts() -> Tally {
        Tally { operations: &MOUNT_OPERATIONS, numbers: &MOUNT_NUMBERS, counts: BTreeMap::new() }
    }

    pub fn count(&mut self, operation: &'static str, number: u8) {
        *self.counts.entry((operation, number)).or_default() += 1;
    }

    fn of(&self, operation: &'static str, number: u8) -> u64 {
        self.counts.get(&(operation, number)).copied().unwrap_or(0)
    }

    pub fn total(&self) -> u64 {
        self.counts.values().sum()
    }

    /// The numbers that no operation gave.
    pub fn missing(&self) -> Vec<u8> {
        let never = |number: &u8| self.operations.iter().all(|operation| self.of(operation, *number) == 0);
        self.numbers.iter().copied().filter(never).collect()
    }
}

impl fmt::Display for Tally {
    fn fmt(&self, f: &mut fmt::Formatter<'_>) -> fmt::Result {
        write!(f, "{:>8}", "number")?;
        self.operations.iter().try_for_each(|operation| write!(f, "{operation:>10}"))?;
        for number in self.numbers {
            write!(f, "\n{number:>8}")?;
            self.operations.iter().try_for_each(|operation| write!(f, "{:>10}", self.of(operation, *number)))?;
        }
        Ok(())
    }
}

#[cfg(test)]
mod tests {
    use super::*;

    #[test]
    fn missing_numbers() {
        let mut tally = Tally::default();
        assert!(tally.missing().into_iter().eq(0..=16));
        (0..=16).for_each(|number| tally.count(BATCH_OPERATIONS[usize::from(number) % 6], number));
        assert_eq!((tally.missing(), tally.total()), (vec![], 17));
        tally.counts.remove(&("command", 15));
        assert_eq!(tally.missing(), [15]);
        assert_eq!(Tally::of_mounts().missing(), [0, 14, 19, 20, 21, 22, 23]);
    }
}
