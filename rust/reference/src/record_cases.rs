//! Cases for records written alone.

use crate::cases::Cases;
use crate::command::{record_of, Command, Record};
use crate::command_cases::{bases, distinct, random_command, skipped, P1};
use crate::random::Random;

fn legal(c: Command) -> Record {
    record_of(&c).unwrap()
}

fn with(mut r: Record, edits: &[(usize, u8)]) -> Record {
    for &(byte, value) in edits {
        r[byte] = value;
    }
    r
}

/// Each byte of four records set to values at and past the ends of what it may hold.
fn single_bytes(cases: &mut Cases) {
    for r in [distinct(0), distinct(1), skipped(2), skipped(3)].map(legal) {
        for byte in 0..24 {
            for value in [0, 1, 2, 3, 4, 5, 16, 26, 31, 32, 62, 63, 64, 127, 128, 255] {
                cases.write(&with(r, &[(byte, value)]));
            }
        }
    }
}

/// Each fault and clash alone, and with each other one: the lower byte is reported.
fn pairs_of_faults(cases: &mut Cases) {
    for kind in 0..4 {
        let r = legal(if kind == 0 { distinct(0) } else { skipped(kind) });
        let mut edits = vec![(6, 4), (7, 2), (8, 64), (11, 0), (11, 32), (12, 64), (13, 1), (15, 255)];
        // "Clashes are placed at byte 7 (skipped intra), 8 (pattern), 12 (skip with a slice end)", and absent vectors
        edits.extend(match kind {
            0 => vec![(7, 1), (8, 62), (8, 0), (16, 1), (23, 128)],
            1 => vec![(6, 0), (8, 1), (12, 1), (12, 2), (20, 1)],
            2 => vec![(6, 0), (8, 32), (12, 1), (12, 3), (19, 1)],
            _ => vec![(6, 0), (6, 1), (6, 2), (8, 63), (12, 0x3e), (12, 0x3d)],
        });
        for (n, &first) in edits.iter().enumerate() {
            cases.write(&with(r, &[first]));
            for &second in &edits[n + 1..] {
                cases.write(&with(r, &[first, second]));
            }
        }
    }
}

/// Lengths of 0 to 40 bytes, and rooms of 0 to 12 words.
fn lengths(cases: &mut Cases) {
    let illegal = with(legal(distinct(3)), &[(6, 9), (12, 255)]);
    for r in [legal(distinct(3)), illegal] {
        let long = [&r[..], &r[..16]].concat();
        for length in 0..=40 {
            cases.write(&long[..length]);
        }
    }
    let clash = with(legal(skipped(1)), &[(12, 1)]);
    for room in 0..=12 {
        for r in [legal(P1), legal(skipped(3)), illegal, clash] {
            cases.write_into(&r, room);
        }
        cases.write_into(&clash[..23], room);
    }
}

/// Legal ones, and legal ones with one to three bytes changed.
fn random_records(cases: &mut Cases) {
    let mut r = Random::new(5);
    for _ in 0..120 {
        cases.write(&legal(random_command(&mut r)));
    }
    for _ in 0..180 {
        let mut damaged = legal(random_command(&mut r));
        for _ in 0..r.within(1, 3) {
            let byte = r.within(6, 23) as usize;
            damaged[byte] = if r.within(0, 1) == 0 { r.next() as u8 } else { damaged[byte] ^ 1 << r.within(0, 7) };
        }
        cases.write(&damaged);
    }
}

pub fn records(cases: &mut Cases) {
    bases().into_iter().for_each(|c| cases.write(&legal(c)));
    single_bytes(cases);
    pairs_of_faults(cases);
    lengths(cases);
    random_records(cases);
}
