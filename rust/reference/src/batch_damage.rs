//! Batches damaged in one place: a bit flipped, words cut off, words added.

use crate::batch::{moved, rows, small_b, small_f, still, Batch, Frame, END, SURFACE};
use crate::batch_cases::{needed, Cases};
use crate::batch_document::p1;
use crate::check::check;

/// Every bit of P1.
fn bits_of_p1(cases: &mut Cases) {
    for bit in 0..37 * 32 {
        let mut words = p1();
        words[bit / 32] ^= 1 << (bit % 32);
        cases.push(words, [384, 384, 0, 0]);
    }
}

/// Takes a damaged batch. One that is refused in a command is cut after that command, to keep the cases short: what follows
/// is not judged.
fn push(cases: &mut Cases, batch: &Batch, buffers: [u64; 4]) {
    let mut words = batch.words();
    let report = check(&words, buffers);
    if (2..=11).contains(&report.number) {
        let mut ends = (1..=batch.0.len()).map(|command| batch.place(command, 0));
        words.truncate(ends.find(|end| *end as u64 > report.place).unwrap());
    }
    assert_eq!(cases.push(words, buffers), report);
}

/// Those bits of a word flipped, one at a time.
fn bits_of_word(cases: &mut Cases, base: &Batch, command: usize, word: usize, bits: u32) {
    for bit in (0..32).filter(|bit| bits >> bit & 1 == 1) {
        push(cases, &base.flipped(command, word, 1 << bit), needed(&base.words()));
    }
}

/// Bits that are never read: command, word, bits.
const UNREAD: [(usize, usize, u32); 12] = [
    (0, 5, u32::MAX),
    (1, 2, !0x0000_0600),
    (1, 3, 0xff00_ff00),
    (1, 4, u32::MAX),
    (1, 5, u32::MAX),
    (1, 6, u32::MAX),
    (1, 7, u32::MAX),
    (1, 8, u32::MAX),
    (1, 9, u32::MAX),
    (1, 10, u32::MAX),
    (1, 11, u32::MAX),
    (1, 12, u32::MAX),
];

/// Every bit of SURFACE and PICTURE, alone if it is read. P1 has those never read alone; here a bit is flipped in all their
/// words at once.
fn bits_of_state(cases: &mut Cases, base: &Batch) {
    for (command, words) in [(0, 6), (1, 13)] {
        for word in 0..words {
            let unread = UNREAD.iter().find(|unread| (unread.0, unread.1) == (command, word)).map_or(0, |unread| unread.2);
            bits_of_word(cases, base, command, word, !unread);
        }
    }
    for bit in 0..32 {
        let all = UNREAD.iter().fold(base.clone(), |batch, unread| batch.flipped(unread.0, unread.1, unread.2 & 1 << bit));
        push(cases, &all, needed(&base.words()));
    }
}

fn bits_of_words(cases: &mut Cases, base: &Batch, command: usize, words: &[usize]) {
    for word in words {
        bits_of_word(cases, base, command, *word, u32::MAX);
    }
}

/// Cut at every word.
fn cuts(cases: &mut Cases) {
    for words in [p1(), small_b().words()] {
        let buffers = needed(&words);
        for given in 0..=words.len() {
            cases.push(words[..given].into(), buffers);
        }
    }
}

/// Followed by zero words, by END again, by a header, by nonsense.
fn tails(cases: &mut Cases) {
    let tails: [&[u32]; 8] = [&[0], &[0; 5], &[END], &[0, END], &[SURFACE], &[0xdead_beef], &[0, 0, 0, 1 << 31], &[1, 2]];
    for words in [p1(), small_b().words()] {
        for tail in tails {
            cases.push([&words[..], tail].concat(), needed(&words));
        }
    }
}

pub fn damage(cases: &mut Cases) {
    bits_of_p1(cases);
    for sort in [2, 3] {
        bits_of_state(cases, &still(&Frame::new(sort, 1, 1)));
    }
    // forward in P; skipped, and the vectors of both, in B
    let p = rows(&Frame::new(2, 2, 1), &[moved(1, 5, 0), moved(0, 0, 0)]);
    bits_of_words(cases, &p, 3, &[0, 1, 2, 3, 4, 5, 6, 7, 8]);
    bits_of_words(cases, &small_b(), 4, &[0, 1, 2, 3, 4, 5, 6, 7, 8]);
    bits_of_words(cases, &small_b(), 3, &[5, 6]);
    // by fields, and skipped, with PICTURE bit 10 = 0
    bits_of_words(cases, &small_f(), 3, &[1, 4, 7]);
    bits_of_words(cases, &small_f(), 4, &[1]);
    cuts(cases);
    tails(cases);
}
