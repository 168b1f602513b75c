//! Single commands and single records, each with the memory lent for the other.

use crate::batch_valid::{once_in, pick};
use crate::command::*;
use crate::command_cases::random_command;
use crate::random::Random;

/// Mostly room enough; now and then one too few, less, or none.
pub fn room(r: &mut Random, needed: usize) -> usize {
    let less = r.within(0, needed as i64) as usize;
    pick(r, &[needed, needed, needed, needed + 1, needed + 8, needed.saturating_sub(1), less, 0])
}

/// Another value in one or two of the fields that R-6 has rules of.
fn change_fields(r: &mut Random, words: &mut [u32]) {
    let mut c: Command = (&*words).try_into().unwrap();
    for _ in 0..r.within(1, 2) {
        let field = pick(r, &[DCT_TYPE, FIELD_FLAG, MODE, SKIP, TYPE, INTRA, TOP_CHOICE, BOTTOM_CHOICE]);
        let any = r.next() as u32;
        field.set(&mut c, pick(r, &[0, 1, 4, any]));
    }
    words.copy_from_slice(&c);
}

/// A run of words, and the bytes lent for its record: legal, some bits wrong, a word replaced, another header, too few words,
/// words behind the ninth, or any words.
pub fn command(r: &mut Random) -> (Vec<u32>, usize) {
    let mut words = random_command(r).to_vec();
    match r.within(0, 13) {
        0..=2 => {}
        12..=13 => change_fields(r, &mut words),
        3..=6 => (0..r.within(1, 3)).for_each(|_| words[r.within(1, 8) as usize] ^= 1 << r.within(0, 31)),
        7 => words[r.within(1, 8) as usize] = r.next() as u32,
        8 => {
            let (from, to) = (r.within(5, 8) as usize, r.within(5, 8) as usize);
            words[to] = pick(r, &[0, words[from], words[from].rotate_left(16)]);
        }
        9 => words[0] = if once_in(r, 2) { pick(r, &COMMANDS).0 } else { MACROBLOCK ^ 1 << r.within(0, 31) },
        10 => words.truncate(r.within(0, 8) as usize),
        _ => words = (0..r.within(0, 14)).map(|n| if n == 0 { MACROBLOCK } else { r.next() as u32 }).collect(),
    }
    if once_in(r, 4) {
        words.extend((0..r.within(0, 4)).map(|_| r.next() as u32));
    }
    (words, room(r, 24))
}

/// Any byte, often one at an end of what a byte of a record may hold.
fn byte(r: &mut Random) -> u8 {
    let any = r.next() as u8;
    pick(r, &[0, 1, 2, 3, 4, 31, 32, 62, 63, 64, 128, 255, any, any])
}

/// A run of bytes, and the words lent for its command: legal, some bytes wrong, another length, or any bytes.
pub fn record(r: &mut Random) -> (Vec<u8>, usize) {
    let mut bytes = record_of(&random_command(r)).unwrap().to_vec();
    match r.within(0, 9) {
        0..=2 => {}
        3..=6 => bytes[r.within(0, 23) as usize] = byte(r),
        7 => (0..r.within(2, 4)).for_each(|_| bytes[r.within(6, 23) as usize] = byte(r)),
        8 => {
            bytes.extend((0..16).map(|_| byte(r)));
            bytes.truncate(r.within(0, 40) as usize);
        }
        _ => bytes.iter_mut().for_each(|any| *any = byte(r)),
    }
    (bytes, room(r, 9))
}

#[cfg(test)]
mod tests {
    use super::*;
    use crate::cases::{read_answers, write_answers};
    use crate::record::write_alone;
    use std::collections::BTreeSet;

    #[test]
    fn every_number_at_every_place() {
        let mut r = Random::new(43);
        let (mut read, mut written) = (BTreeSet::new(), BTreeSet::new());
        let (mut by_fields, mut dct_types) = (BTreeSet::new(), BTreeSet::new());
        for _ in 0..20_000 {
            let (words, room) = command(&mut r);
            let answer = read_alone(&words, &mut vec![0; room]);
            read.insert(answer);
            if let Some((c, _)) = words.split_first_chunk().filter(|(c, _)| c[0] == MACROBLOCK) {
                by_fields.extend((kind(c) == Some(4)).then_some(answer));
                dct_types.extend((DCT_TYPE.of(c) == 1).then_some(answer));
            }
            let (bytes, room) = record(&mut r);
            written.insert(write_alone(&bytes, &mut vec![0; room]));
        }
        assert_eq!(read, read_answers());
        // type 04h: all but 5 at words 1 and 3, which intra and other types have, and 8 at words that hold a vector
        let never = |answer: &Answer| matches!(answer, (1 | 2, _) | (5, 1 | 3) | (8, 5 | 7));
        assert_eq!(by_fields, read_answers().into_iter().filter(|answer| !never(answer)).collect());
        // bit 15: all but 11, as it is wrong on a skipped macroblock
        let never = |answer: &Answer| matches!(answer, (1 | 2 | 11, _));
        assert_eq!(dct_types, read_answers().into_iter().filter(|answer| !never(answer)).collect());
        assert_eq!(written, write_answers());
    }
}
