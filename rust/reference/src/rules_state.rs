//! Rules of SURFACE and PICTURE: 4 and 5.

use crate::batch::{lay_out, small_b, small_i, small_p, still, Frame};
use crate::batch_rules::Table;

/// Words of SURFACE (command 0) and PICTURE (command 1), and bits of them that have one value.
const FIXED: [(usize, usize, &[u8]); 5] = [
    (0, 1, &[0, 16, 31]),
    (0, 2, &[0, 1, 2, 3]),
    (0, 3, &[31, 30, 29, 28, 27, 26, 23, 20, 2, 1, 0]),
    (0, 4, &[15, 16, 31]),
    (1, 1, &[13, 12, 9, 5, 3, 0]),
];

fn fixed(t: &mut Table, commands: usize) {
    for (command, word, bits) in FIXED.iter().filter(|fixed| fixed.0 == commands) {
        for bit in *bits {
            t.flip(&format!("command {command} word {word} bit {bit}"), &small_p(), *command, *word, 1 << bit, 4);
        }
    }
}

pub fn surface(t: &mut Table) {
    fixed(t, 0);
    t.flip("SURFACE word 3, all fixed bits wrong", &small_p(), 0, 3, 0xfff0_0007, 4);
    let base = Frame::new(1, 1, 1);
    for pitch in [1, 64, 127, 129, 144, 192, 131071, 131008] {
        let frame = Frame { pitch, ..base };
        t.refused(&format!("pitch {pitch} is no multiple of 128"), &still(&frame), 5, 0, 3);
    }
    for pitch in [128, 256, 384, 65536, 131072] {
        t.passes(&format!("pitch {pitch}"), &still(&Frame { pitch, ..base }));
    }
    t.passes("SURFACE word 5 is unread", &small_p().flipped(0, 5, u32::MAX));
}

/// f codes, forward and backward.
type Codes = [&'static [u32]; 2];

/// Codes that a picture of a type may not have, and some that it may.
const CODES: [(u32, Codes, Codes); 3] = [
    (1, [&[0, 1, 9, 14], &[0, 1, 9, 14]], [&[15], &[15]]),
    (2, [&[0, 10, 15], &[0, 1, 9, 14]], [&[1, 5, 9], &[15]]),
    (3, [&[0, 10, 15], &[0, 10, 15]], [&[1, 6, 9], &[1, 7, 9]]),
];

fn codes(t: &mut Table) {
    for (sort, bad, good) in CODES {
        for n in 0..4 {
            let with = |code: u32| {
                let mut frame = Frame::new(sort, 1, 1);
                frame.codes[n] = code;
                still(&frame)
            };
            let name = format!("type {sort}, {}", ["forward x", "forward y", "backward x", "backward y"][n]);
            for code in bad[n / 2] {
                t.refused(&format!("{name} f code {code}"), &with(*code), 5, 1, 2);
            }
            for code in good[n / 2] {
                t.passes(&format!("{name} f code {code}"), &with(*code));
            }
        }
    }
}

/// Each size relation on both sides of its limit, with no macroblock: what keeps them all gets as far as END.
fn sizes(t: &mut Table) {
    let base = Frame::new(2, 2, 3);
    let wide = Frame { pitch: 128, ..Frame::new(2, 8, 1) };
    let high_definition = Frame { height: 1080, ..Frame::new(2, 120, 68) };
    let large = Frame::new(2, 256, 175);
    let high = Frame { columns: 1, width: 1, height: 2816, chroma_row: 32767, rows: 176, ..base };
    let relations = [
        ("width", Frame { width: 16, ..base }, Frame { width: 17, ..base }),
        ("width", Frame { width: 33, ..base }, Frame { width: 32, ..base }),
        ("height", Frame { height: 32, ..base }, Frame { height: 33, ..base }),
        ("height", Frame { height: 49, ..base }, Frame { height: 48, ..base }),
        ("pitch", Frame { columns: 9, width: 144, ..wide }, wide),
        ("chroma row", Frame { chroma_row: 47, ..base }, Frame { chroma_row: 48, ..base }),
        ("chroma row", Frame { chroma_row: 0, ..base }, Frame { chroma_row: 32767, ..base }),
        ("chroma row, little height", Frame { height: 33, chroma_row: 47, ..base }, Frame { height: 33, ..base }),
        ("1080 in 1088 rows", Frame { chroma_row: 1087, ..high_definition }, high_definition),
        ("at most 175 rows", high, Frame { rows: 175, height: 2800, ..high }),
        ("at most 175 rows", Frame { rows: 256, height: 4096, chroma_row: 32767, ..large }, large),
        ("largest width", Frame { width: 4097, ..large }, Frame { width: 4081, ..large }),
        ("largest pitch", Frame { pitch: 3968, ..large }, Frame { pitch: 131072, ..large }),
        ("widths of no picture", Frame { width: 16384, pitch: 131072, ..large }, Frame { height: 2785, ..large }),
        ("heights of no picture", Frame { height: 16384, ..large }, Frame { chroma_row: 2800, ..large }),
    ];
    for (name, beyond, limit) in relations {
        t.refused(&format!("{name} beyond"), &lay_out(&beyond, &[]), 5, 1, 3);
        t.refused(&format!("{name} at the limit"), &lay_out(&limit, &[]), 3, 2, 0);
    }
    t.passes("pitch of 16W", &still(&wide));
}

pub fn picture(t: &mut Table) {
    fixed(t, 1);
    codes(t);
    sizes(t);
    // "1 I, 2 P, 3 B": no type 0, and each other one with the f codes of another
    for (base, sort) in [(small_i(), 1), (small_p(), 2), (small_b(), 3)] {
        for other in (0..4).filter(|other| *other != sort) {
            t.flip(&format!("type {other} in place of {sort}"), &base, 1, 2, (sort ^ other) << 9, 5);
        }
    }
    let mut free = small_p();
    free.0[1][1] ^= 0x0000_cdc0;
    free.0[1][2] ^= !0x0000_0600;
    free.0[1][3] ^= 0xff00_ff00;
    free.0[1][4..].fill(u32::MAX);
    t.passes("free and unread bits of PICTURE", &free);
}
