//! Cases for decoding: document 01's own, and batches that keep every rule, each with rooms of several lengths.

use crate::batch::{small_b, small_f, small_i, small_p};
use crate::batch_cases::{made_by, needed};
use crate::batch_document::p1;
use crate::batch_valid::{random_batch, random_frame};
use crate::check::check;
use crate::command::{header, COMMANDS, MACROBLOCK};
use crate::decode::log_bytes;
use crate::decode_cases::Cases;
use crate::random::Random;

/// P1 to P13, refused ones too. Those without PICTURE have P1's rooms.
pub fn document(cases: &mut Cases) {
    for case in made_by(&[crate::batch_document::document]) {
        let due = log_bytes(&case.words).unwrap_or(24);
        for room in [due, 0, 1, due - 1, due + 1, due + 30] {
            cases.push(&case.words, case.buffers, room);
        }
    }
}

/// Every second of the whole check's batches, up to 41 macroblocks, that keep every rule but perhaps the one on buffers.
fn checked(cases: &mut Cases) {
    for (n, case) in made_by(&[crate::valid_cases::valid]).into_iter().enumerate().step_by(2) {
        let due = log_bytes(&case.words).unwrap();
        match case.report.number {
            _ if due > 1000 => {}
            0 => cases.four_rooms(&case.words, case.buffers, 1 + n % 30),
            _ => assert_eq!(cases.push(&case.words, case.buffers, if n % 4 == 0 { 0 } else { due }).number, 13),
        }
    }
}

/// The batches in which tiles matter, each that is accepted with room exactly enough.
fn tiles(cases: &mut Cases) {
    for case in made_by(&[crate::tile_cases::tiles]).into_iter().filter(|case| case.report.number == 0) {
        assert_eq!(cases.push(&case.words, case.buffers, log_bytes(&case.words).unwrap()), case.report);
    }
}

/// The batches in which the lowest byte matters, each that is accepted with room exactly enough or a byte too small.
fn firsts(cases: &mut Cases) {
    let accepted = made_by(&[crate::first_cases::firsts]).into_iter().filter(|case| case.report.number == 0);
    for (n, case) in accepted.enumerate() {
        let due = log_bytes(&case.words).unwrap();
        // P and B go round
        let (room, number) = [(due, 0), (due - 1, 14)][n / 2 % 2];
        let report = cases.push(&case.words, case.buffers, room);
        assert_eq!((report.number, report.reported()), (number, case.report.reported()));
    }
}

/// The batches with PICTURE bit 10 = 0, up to 41 macroblocks: room exactly enough, a byte too small, longer, or none go round.
fn by_fields(cases: &mut Cases) {
    let accepted = made_by(&[crate::field_cases::fields]).into_iter().filter(|case| case.report.number == 0);
    for (n, case) in accepted.enumerate() {
        let due = log_bytes(&case.words).unwrap();
        let (room, number) = [(due, 0), (due - 1, 14), (due + 7, 0), (due, 0), (0, 14)][n % 5];
        if due < 1000 {
            assert_eq!(cases.push(&case.words, case.buffers, room).number, number);
        }
    }
}

/// Each type in shapes of up to 40 macroblocks, with NOOPs, carried commands, and zero words after END; far vectors in the
/// last two shapes.
fn shapes(cases: &mut Cases) {
    let mut r = Random::new(36);
    for (n, (columns, rows)) in [(1, 1), (2, 1), (1, 2), (3, 2), (7, 3), (13, 3), (8, 5), (40, 1), (1, 40)].iter().enumerate() {
        for sort in 1..4 {
            let mut frame = random_frame(&mut r, sort, *columns, *rows);
            if n > 6 {
                frame.codes = frame.codes.map(|code| code.max(9));
            }
            let mut words = random_batch(&mut r, &frame, 2 * n, n % 3).words();
            words.extend(vec![0; n % 4]);
            let buffers = if n % 2 == 0 { needed(&words) } else { [u64::MAX; 4] };
            cases.four_rooms(&words, buffers, 24 + n);
        }
    }
}

/// A NOOP before every command and some after END; the six carried commands before SURFACE and after PICTURE.
fn between(cases: &mut Cases) {
    for batch in [small_i(), small_p(), small_b(), small_f()] {
        let spaced: Vec<u32> = batch.0.iter().flat_map(|command| [&[0][..], command].concat()).collect();
        let carried: Vec<u32> = COMMANDS[6..].iter().flat_map(|&(header, _, count)| vec![header; count]).collect();
        let (state, groups) = (batch.0[..2].concat(), batch.0[2..].concat());
        let around = [&carried[..], &state, &carried, &groups].concat();
        for (words, zeros) in [(spaced, 9), (around, 1)] {
            let words = [words, vec![0; zeros]].concat();
            cases.four_rooms(&words, needed(&words), 24);
        }
    }
}

/// Unread words that would begin a MACROBLOCK, and unread words that hold a whole one.
fn looks_like_macroblocks(cases: &mut Cases) {
    for batch in [small_i(), small_p(), small_b()] {
        let whole: Vec<u32> = batch.0[4].clone();
        for pattern in [vec![MACROBLOCK], whole] {
            let mut filled = batch.clone();
            filled.0.insert(2, vec![0x7002_003b; 61]);
            for command in &mut filled.0 {
                let from = match header(command[0]).unwrap().0 {
                    "SURFACE" => 5,
                    "PICTURE" => 4,
                    "SLICEGROUP" | "carried" => 1,
                    _ => continue,
                };
                command[from..].iter_mut().zip(pattern.iter().cycle()).for_each(|(word, like)| *word = *like);
            }
            let words = filled.words();
            cases.four_rooms(&words, needed(&words), 48);
        }
    }
}

/// Every room up to 50 bytes for one macroblock, and rooms about each record's end for three.
fn rooms(cases: &mut Cases) {
    for room in 0..=50 {
        cases.push(&p1(), [384, 384, 0, 0], room);
    }
    for batch in [small_i(), small_p(), small_b()] {
        let words = batch.words();
        for room in [1, 23, 24, 25, 47, 48, 49, 71, 72, 73, 95, 96, 97] {
            cases.push(&words, needed(&words), room);
        }
    }
}

/// Every third of what the table of rules lets pass, up to four bytes to spare.
fn named(cases: &mut Cases) {
    for (n, named) in crate::batch_rules::table().into_iter().filter(|named| named.due.0 == 0).enumerate() {
        if n % 3 == 0 {
            let room = log_bytes(&named.words).unwrap() + n % 5;
            assert_eq!(cases.push(&named.words, named.buffers, room), check(&named.words, named.buffers));
        }
    }
}

pub fn valid(cases: &mut Cases) {
    checked(cases);
    tiles(cases);
    firsts(cases);
    by_fields(cases);
    shapes(cases);
    between(cases);
    looks_like_macroblocks(cases);
    rooms(cases);
    named(cases);
}
