//! How a batch is handed in: its words in parts, the room of its log, and the program's bytes.

use crate::batch_valid::{once_in, pick};
use crate::generate::batches::Batch;
use crate::program::bytes_of;
use crate::random::Random;

/// The lengths of parts that make up so many words: mostly a few parts, empty ones among them, now and then word by word.
pub fn parts(r: &mut Random, words: usize) -> Vec<usize> {
    let most = pick(r, &[1, 3, 9, 40, words.max(1), words.max(1)]) as i64;
    let (mut left, mut parts) = (words, Vec::new());
    while left > 0 {
        let part = (if once_in(r, 6) { 0 } else { r.within(0, most) as usize }).min(left);
        parts.push(part);
        left -= part;
    }
    parts.extend(vec![0; r.within(0, 2) as usize]);
    parts
}

/// The program's standard input: the batch beside its lengths; now and then with bytes left over, cut off, or no batch at all.
pub fn bytes(r: &mut Random, batch: &Batch) -> Vec<u8> {
    let mut bytes = bytes_of(&batch.words, batch.buffers);
    match r.within(0, 19) {
        0..=3 => bytes.extend((0..r.within(1, 3)).map(|_| pick(r, &[0, 0, 5, 255]))),
        4 => bytes.truncate(r.within(0, bytes.len() as i64) as usize),
        5 => bytes.truncate(r.within(0, 40) as usize),
        6 => bytes = (0..r.within(0, 90)).map(|_| r.next() as u8).collect(),
        _ => {}
    }
    bytes
}

#[cfg(test)]
mod tests {
    use super::*;
    use crate::generate::batches::Batches;
    use crate::program::answer;
    use std::collections::BTreeSet;

    /// Parts make up the words, and there are lists of one, with empty parts, and word by word.
    #[test]
    fn parts_make_up_the_words() {
        let mut r = Random::new(44);
        let mut seen = [0; 3];
        for n in 0..3000 {
            let words = n % 50;
            let parts = parts(&mut r, words);
            assert_eq!(parts.iter().sum::<usize>(), words);
            let marks = [parts.len() == 1, parts.contains(&0), words > 1 && parts.iter().all(|part| *part <= 1)];
            (0..3).for_each(|mark| seen[mark] += u32::from(marks[mark]));
        }
        assert!(seen.iter().all(|count| *count > 50), "{seen:?}");
    }

    /// Every number that the program can give but 27, and leftover bytes behind batches of each.
    #[test]
    fn every_number() {
        let (mut r, batches) = (Random::new(45), Batches::default());
        let (mut numbers, mut with_leftover) = (BTreeSet::new(), BTreeSet::new());
        for _ in 0..10_000 {
            let batch = batches.next(&mut r);
            let bytes = bytes(&mut r, &batch);
            let number = answer(&bytes).number;
            numbers.insert(number);
            if bytes.len() >= 32 && !bytes.len().is_multiple_of(4) {
                with_leftover.insert(number);
            }
        }
        assert!(numbers.into_iter().eq((0..=13).chain([16])));
        assert!(with_leftover.into_iter().eq(1..=13));
    }
}
