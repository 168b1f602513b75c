//! Cases of batches that keep every rule: all types, small shapes and large, every size at both its ends.

use crate::batch::{still, Batch, Frame};
use crate::batch_cases::{needed, Cases};
use crate::batch_valid::{random_batch, random_frame};
use crate::random::Random;

/// Accepted beside the lengths needed, and refused beside one that is a byte less.
pub fn both_ways(cases: &mut Cases, batch: &Batch, short: Option<usize>) {
    let words = batch.words();
    let exact = needed(&words);
    assert_eq!(cases.push(words.clone(), exact).number, 0);
    let touched = short.filter(|n| exact[*n] != 0);
    if let Some(n) = touched {
        let mut buffers = exact;
        buffers[n] -= 1;
        assert_eq!(cases.push(words, buffers).number, 13);
    }
}

/// Every type in every shape up to three by three.
fn small(cases: &mut Cases, r: &mut Random) {
    for sort in 1..4 {
        for n in 0..9 {
            let frame = random_frame(r, sort, n % 3 + 1, n / 3 + 1);
            both_ways(cases, &random_batch(r, &frame, n as usize % 4, 0), (n < 4).then_some(n as usize));
        }
    }
}

/// The six carried commands, before SURFACE, between, and after PICTURE.
fn carried(cases: &mut Cases, r: &mut Random) {
    for sort in 1..4 {
        let frame = random_frame(r, sort, 2, 1);
        both_ways(cases, &random_batch(r, &frame, 3, 6), None);
    }
}

/// Every f code in x and y, forward and backward.
fn codes(cases: &mut Cases, r: &mut Random) {
    for code in 1..10 {
        for sort in 2..4 {
            let mut frame = random_frame(r, sort, 3, 2);
            frame.codes = frame.codes.map(|before| if before == 15 { 15 } else { code });
            both_ways(cases, &random_batch(r, &frame, 0, 0), None);
        }
    }
}

/// Sizes at both ends of what one macroblock allows.
fn ends(cases: &mut Cases) {
    for sort in 1..4 {
        let base = Frame::new(sort, 1, 1);
        for frame in [
            Frame { width: 1, height: 1, ..base },
            Frame { pitch: 131072, chroma_row: 32767, ..base },
            Frame { pitch: 131072, ..base },
            Frame { chroma_row: 32767, ..base },
            Frame { pitch: 256, chroma_row: 17, height: 1, ..base },
        ] {
            both_ways(cases, &still(&frame), Some(sort as usize));
        }
    }
    // "any 64-bit numbers": samples past 2^32 bytes
    let words = still(&Frame { pitch: 131072, chroma_row: 32767, ..Frame::new(3, 1, 1) }).words();
    for length in [0, 0xffff_ffff, 0x1_0000_0000, 0xffff_ffff_ffff_ffff] {
        cases.push(words.clone(), [length; 4]);
    }
}

/// Up to 200 macroblocks: far vectors in x and in y, and the largest lengths.
fn large(cases: &mut Cases, r: &mut Random) {
    for (sort, columns, rows) in [(2, 200, 1), (3, 1, 175), (3, 12, 8), (1, 7, 8), (2, 5, 7), (3, 9, 4), (3, 3, 12)] {
        let mut frame = random_frame(r, sort, columns, rows);
        if columns * rows > 100 {
            frame.codes = frame.codes.map(|before| if before == 15 { 15 } else { 9 });
        }
        if rows == 175 {
            (frame.pitch, frame.chroma_row) = (131072, 32767);
        }
        let batch = loop {
            let batch = random_batch(r, &frame, 2, 0);
            if batch.words().len() <= 2000 {
                break batch;
            }
        };
        both_ways(cases, &batch, None);
    }
}

pub fn valid(cases: &mut Cases) {
    let mut r = Random::new(20);
    small(cases, &mut r);
    carried(cases, &mut r);
    codes(cases, &mut r);
    ends(cases);
    large(cases, &mut r);
}
