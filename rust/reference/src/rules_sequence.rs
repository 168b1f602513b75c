//! Rules on headers, on the order of commands, and on where a batch ends: 1, 2, 3 and 12.

use crate::batch::{lay_out, moved, small_b, small_p, Batch, End, Frame, END, SLICEGROUP, SURFACE};
use crate::batch_document::p1;
use crate::batch_rules::Table;
use crate::command::{COMMANDS, MACROBLOCK};

/// "The whole header must match", and "in each 2, then 1, then 3".
pub fn headers(t: &mut Table) {
    for (header, name, count) in COMMANDS {
        let wrong = if header % 0x1_0000 == 0 { vec![header + 1] } else { vec![header - 1, header + 1] };
        for word in wrong {
            let alone = [vec![word], vec![0; count - 1]].concat();
            t.answer(&format!("{name} {header:08x} as {word:08x}"), alone, (2, 0));
        }
    }
    let base = small_p();
    for command in [0, 1, 2, 3, 5, 6] {
        t.flip("a header in its place, bit 0", &base, command, 0, 1, 2);
        t.flip("a header in its place, bit 31", &base, command, 0, 1 << 31, 2);
    }
    let cut = &p1()[..36];
    for word in [1, MACROBLOCK + 1, SURFACE - 1, u32::MAX] {
        t.answer("unknown header as the last word", [cut, &[word]].concat(), (2, 36));
    }
    t.answer("unknown header alone", vec![0x7349_0006], (2, 0));
}

/// S SURFACE, P PICTURE, G SLICEGROUP, a b c the three macroblocks in one group; the same three otherwise: d is c in a group
/// left open; x ends its slice and group, y begins both and z ends them. E END, N NOOP, 0 to 5 the carried commands.
fn letter(letter: char) -> Vec<u32> {
    let frame = Frame::new(2, 3, 1);
    let three = |ends: [End; 3]| lay_out(&frame, &ends.map(|end| (moved(1, 0, 0), end))).0;
    let together = three([End::Nothing, End::Nothing, End::Group]);
    let left_open = three([End::Nothing, End::Nothing, End::Slice]);
    let apart = three([End::Group, End::Nothing, End::Group]);
    match letter {
        'S' => frame.surface(),
        'P' => frame.picture(),
        'G' => vec![SLICEGROUP, 1, 2, 3, 4, 5, 6, 7],
        'a' | 'b' | 'c' => together[3 + (letter as usize - 'a' as usize)].clone(),
        'd' => left_open[5].clone(),
        'x' => apart[3].clone(),
        'y' | 'z' => apart[5 + (letter as usize - 'y' as usize)].clone(),
        'E' => vec![END],
        'N' => vec![0],
        _ => {
            let (header, _, count) = COMMANDS[6 + letter.to_digit(10).unwrap() as usize];
            [vec![header], vec![END; count - 1]].concat()
        }
    }
}

/// Orders that document 01 forbids, each with the command at fault.
const FORBIDDEN: [(&str, &[(&str, usize)]); 16] = [
    ("second SURFACE", &[("SSPGabcE", 1), ("SPSGabcE", 2), ("SPGSabcE", 3), ("SPGaSbcE", 4), ("SPGabcSE", 6)]),
    ("second PICTURE", &[("SPPGabcE", 2), ("SPGPabcE", 3), ("SPGaPbcE", 4), ("SPGabcPE", 6)]),
    ("PICTURE first", &[("PSGabcE", 0), ("NPE", 1), ("3PS", 1)]),
    ("SLICEGROUP before PICTURE", &[("GSPabcE", 0), ("SGPabcE", 1), ("NSNGP", 3)]),
    ("SLICEGROUP in an open group", &[("SPGGabcE", 3), ("SPGaGbcE", 4), ("SPGxGGyzE", 5), ("SPGabdGE", 6)]),
    ("SLICEGROUP after the last macroblock", &[("SPGabcGE", 6), ("SPGxGyzGE", 7)]),
    ("carried in a group", &[("SPG0abcE", 3), ("SPGa1bcE", 4), ("SPGabd2E", 6)]),
    ("carried between groups", &[("SPGx3GyzE", 4), ("SPGx0GyzE", 4)]),
    ("carried after the last macroblock", &[("SPGabc4E", 6), ("SPGabc5E", 6)]),
    ("MACROBLOCK before everything", &[("aSPGabcE", 0), ("SaPGabcE", 1), ("Na", 1)]),
    ("MACROBLOCK before SLICEGROUP", &[("SPaGabcE", 2), ("SP1a", 3)]),
    ("MACROBLOCK between groups", &[("SPGxyzE", 4), ("SPGxbcE", 4)]),
    ("MACROBLOCK beyond the last, the group open", &[("SPGabdaE", 6), ("SPGabddE", 6), ("SPGabdNcE", 7)]),
    ("MACROBLOCK beyond the last, no group open", &[("SPGabcaE", 6), ("SPGxGyzzE", 7)]),
    ("END early", &[("E", 0), ("SE", 1), ("SPE", 2), ("0E", 1), ("SPGxE", 4)]),
    ("END with the group open", &[("SPGE", 3), ("SPGaE", 4), ("SPGabdE", 6), ("SPGxGE", 5), ("SPGabE", 5)]),
];

/// Orders that it allows.
const ALLOWED: [(&str, &[&str]); 4] = [
    ("the plain order", &["SPGabcE", "SPGxGyzE"]),
    ("NOOP anywhere", &["NSNPNGNaNbNcNENN", "NNNSPGxNGyNzNE", "SPGabcENNN"]),
    ("carried before the first SLICEGROUP", &["54N3210SPGabcE", "S012345PGabcE", "SP012345GxGyzE", "0S0P0GabcE"]),
    ("NOOP after PICTURE", &["SPNNNNNNNNNGabcE"]),
];

fn batch(order: &str) -> Batch {
    Batch(order.chars().map(letter).collect())
}

pub fn sequence(t: &mut Table) {
    for (name, orders) in FORBIDDEN {
        for (order, command) in orders {
            t.refused(&format!("{name}: {order}"), &batch(order), 3, *command, 0);
        }
    }
    for (name, orders) in ALLOWED {
        for order in orders {
            t.passes(&format!("{name}: {order}"), &batch(order));
        }
    }
}

/// "Words run out in a command or before END", and "after END only zero words may follow".
pub fn ends(t: &mut Table) {
    t.answer("no words", vec![], (1, 0));
    t.answer("NOOP alone", vec![0], (1, 1));
    t.answer("no END", batch("SPGabcNN").words(), (1, batch("SPGabcNN").words().len()));
    for (header, name, count) in COMMANDS.into_iter().filter(|command| command.2 > 1) {
        for given in [1, count - 1] {
            let cut = [vec![header], vec![u32::MAX; given - 1]].concat();
            t.answer(&format!("{name} {header:08x} cut at {given}"), cut, (1, given));
        }
        // "2, then 1, then 3": each of them stands out of sequence here
        let late = [&p1()[..36], &[header]].concat();
        t.answer(&format!("{name} {header:08x} cut, out of sequence"), late, (1, 37));
    }
    for base in [p1(), small_b().words()] {
        let length = base.len();
        for (tail, place) in [(&[1][..], 0), (&[0, 0, u32::MAX], 2), (&[END], 0), (&[0, SURFACE], 1), (&[MACROBLOCK, 0], 0)] {
            t.answer("non-zero word after END", [&base, tail].concat(), (12, length + place));
        }
        for zeros in 1..4 {
            t.answer("zero words after END", [&base[..], &[0; 4][..zeros]].concat(), (0, 0));
        }
    }
}
