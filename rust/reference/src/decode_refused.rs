//! Cases for decoding of batches that are refused: buffers too short and batches damaged, the room mostly long enough, so
//! that whoever writes before the whole batch is judged is seen.

use crate::batch::{small_b, small_f, small_i, small_p, Batch, Frame, END, SURFACE};
use crate::batch_cases::{made_by, needed};
use crate::batch_document::p1;
use crate::batch_rules::table;
use crate::batch_valid::random_batch;
use crate::check::check;
use crate::command::MACROBLOCK;
use crate::decode::log_bytes;
use crate::decode_cases::Cases;
use crate::random::Random;
use std::collections::BTreeMap;

/// Each type, several groups and slices, skipped ones, field prediction.
fn bases() -> Vec<Batch> {
    let mut r = Random::new(32);
    let mut batches = vec![small_i(), small_p(), small_b(), small_f()];
    batches.extend([1, 2, 3].map(|sort| random_batch(&mut r, &Frame::new(sort, 2, 2), 2, 0)));
    batches
}

/// 13, whatever the room; and buffers as long as any can be.
fn short_buffers(cases: &mut Cases) {
    for batch in bases() {
        let words = batch.words();
        let (exact, due) = (needed(&words), log_bytes(&words).unwrap());
        for n in (0..4).filter(|n| exact[*n] != 0) {
            let mut buffers = exact;
            buffers[n] -= 1;
            for room in [0, due - 1, due] {
                assert_eq!(cases.push(&words, buffers, room).number, 13);
            }
        }
        for (buffers, room, number) in
            [([0; 4], 0, 13), ([0; 4], due, 13), ([u64::MAX; 4], 0, 14), ([u64::MAX; 4], due - 1, 14), ([u64::MAX; 4], due, 0)]
        {
            assert_eq!(cases.push(&words, buffers, room).number, number);
        }
    }
}

/// Room for the picture's records, as long as that is short; now and then none, or a byte too few.
fn push(cases: &mut Cases, n: usize, words: &[u32], buffers: [u64; 4]) {
    let due = log_bytes(words).unwrap_or(24).min(96);
    let room = [due, due, due + 1, due, 0, due, due - 1][n % 7];
    assert_eq!(cases.push(words, buffers, room), check(words, buffers));
}

/// Every sixth of what the table of rules refuses, and every third of what it refuses after a whole macroblock.
fn named(cases: &mut Cases) {
    for (n, named) in table().into_iter().filter(|named| named.due.0 != 0).enumerate() {
        let late = named.words.iter().take(named.due.1).filter(|word| **word == MACROBLOCK).count() > 1;
        if n % 6 == 0 || (late && n % 3 == 0) {
            push(cases, n, &named.words, named.buffers);
        }
    }
}

/// Two faults at once, and random damage.
fn faults(cases: &mut Cases) {
    let made = made_by(&[crate::batch_faults::faults]);
    for (n, case) in made.iter().filter(|case| case.report.number != 0).enumerate().step_by(4) {
        push(cases, n, &case.words, case.buffers);
    }
}

/// For each number that a flipped bit gives, the last two such bits, in different words: everything before is sound.
fn late_bits(cases: &mut Cases) {
    for (n, batch) in bases().iter().enumerate() {
        let words = [batch.words(), vec![0]].concat();
        let mut found: BTreeMap<u8, Vec<usize>> = BTreeMap::new();
        for bit in (0..32 * words.len()).rev() {
            let mut damaged = words.clone();
            damaged[bit / 32] ^= 1 << (bit % 32);
            let number = check(&damaged, [u64::MAX; 4]).number;
            let at = found.entry(number).or_default();
            if number != 0 && at.len() < 2 && at.last() != Some(&(bit / 32)) {
                at.push(bit / 32);
                push(cases, n, &damaged, needed(&words));
            }
        }
    }
}

/// Cut at every word from the first macroblock on.
fn cuts(cases: &mut Cases) {
    let words = small_b().words();
    for given in small_b().place(3, 0)..words.len() {
        assert_eq!(cases.push(&words[..given], needed(&words), 72).number, 1);
    }
}

/// After END a word that is not zero, at the start and further on.
fn tails(cases: &mut Cases) {
    let tails: [&[u32]; 6] = [&[1], &[END], &[0, END], &[SURFACE], &[0, 0, 0, 1 << 31], &[MACROBLOCK, 0]];
    for words in [p1(), small_p().words(), small_b().words()] {
        for (n, tail) in tails.into_iter().enumerate() {
            push(cases, n, &[&words[..], tail].concat(), needed(&words));
        }
    }
}

pub fn refused(cases: &mut Cases) {
    short_buffers(cases);
    named(cases);
    faults(cases);
    late_bits(cases);
    cuts(cases);
    tails(cases);
}
