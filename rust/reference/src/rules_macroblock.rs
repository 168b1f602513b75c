//! Rules of MACROBLOCK's words 1 to 4: 4, 5, 6, 7 and 11.

use crate::batch::{lay_out, moved, rows, skip, small_b, small_i, small_p, still, Batch, End, Frame};
use crate::batch_rules::Table;
use crate::command::*;

/// Words 1, 3 and 4, and bits of them that have one value with PICTURE bit 10 = 1.
const FIXED: [(usize, &[u8]); 3] = [(1, &[15, 14, 7, 5, 3, 1, 0]), (3, &[15, 13, 12, 5, 2, 0]), (4, &[29, 28, 23, 20, 14, 5])];

fn fixed_bits(t: &mut Table) {
    for (base, command) in [(small_i(), 3), (small_b(), 5)] {
        for (word, bits) in FIXED {
            for bit in bits {
                t.flip(&format!("MACROBLOCK word {word} bit {bit}"), &base, command, word, 1 << bit, 4);
            }
        }
    }
}

/// "Intra: type 1Ah, skip zero. Inter: 1 forward, 2 backward, 3 both. I allows intra only, P intra and 1, B all."
fn types(t: &mut Table) {
    for other in [0, 1, 2, 3, 0x0a, 0x12, 0x18, 0x1b, 0x1e] {
        t.set(&format!("intra of type {other}"), &small_i(), 4, TYPE, other, 5);
    }
    for other in [0, 4, 5, 6, 9, 0x11, 0x1a, 0x1f] {
        t.set(&format!("inter of type {other}"), &small_b(), 5, TYPE, other, 5);
    }
    for (sort, kinds) in [(1, &[1, 2, 3][..]), (2, &[2, 3])] {
        for kind in kinds {
            let batch = rows(&Frame::new(sort, 1, 1), &[moved(*kind, 0, 0)]);
            t.refused(&format!("kind {kind} in type {sort}"), &batch, 5, 3, 1);
        }
    }
    for (sort, kinds) in [(1, &[0][..]), (2, &[0, 1]), (3, &[0, 1, 2, 3])] {
        for kind in kinds {
            t.passes(&format!("kind {kind} in type {sort}"), &rows(&Frame::new(sort, 1, 1), &[moved(*kind, 0, 0)]));
        }
    }
    for base in [small_i(), rows(&Frame::new(3, 3, 1), &[moved(0, 0, 0); 3])] {
        t.set("skipped intra", &base, 4, SKIP, 1, 5);
    }
}

fn positions(t: &mut Table) {
    for (base, command, place) in [(small_p(), 3, 0), (small_p(), 5, 2), (still(&Frame::new(3, 2, 2)), 5, 0x1_0000)] {
        for other in [0, 1, 2, 0x1_0000, 0x1_0001, 0x2_0000, 0x0000_ffff] {
            if other != place {
                t.flip(&format!("position {other:x} in place of {place:x}"), &base, command, 2, other ^ place, 6);
            }
        }
    }
}

pub fn words(t: &mut Table) {
    fixed_bits(t);
    types(t);
    positions(t);
    for pattern in [0, 31, 62] {
        t.set(&format!("intra of pattern {pattern}"), &small_p(), 5, PATTERN, pattern, 5);
    }
    for (base, command) in [(small_i(), 3), (small_p(), 4), (small_b(), 5)] {
        t.set("quantiser 0", &base, command, QUANTISER, 0, 5);
    }
    t.set("no skip conversion in I", &small_i(), 4, NO_CONVERSION, 1, 5);
    t.passes("no skip conversion in P", &small_p().set(4, NO_CONVERSION, 1));
    t.passes("no skip conversion in B", &small_b().set(5, NO_CONVERSION, 1));
}

/// Flags of macroblock 0, of one in a slice, of the last in a row, and of those that follow the end of a slice or a group.
/// Bits 31 last in slice, 30 first in slice, 26 last in group, 24 first in group.
pub fn flags(t: &mut Table) {
    let three = |ends: [End; 3]| lay_out(&Frame::new(2, 3, 1), &ends.map(|end| (moved(1, 0, 0), end)));
    let one = three([End::Nothing, End::Nothing, End::Group]);
    let slices = three([End::Slice, End::Slice, End::Group]);
    let groups = three([End::Group, End::Nothing, End::Group]);
    let two_rows = still(&Frame::new(2, 2, 2));
    let table: [(&str, &Batch, usize, u32); 16] = [
        ("first in slice missing at the start", &one, 3, 1 << 30),
        ("first in slice missing after a slice", &slices, 4, 1 << 30),
        ("first in slice missing after a row", &two_rows, 5, 1 << 30),
        ("first in slice missing after a group", &groups, 5, 1 << 30),
        ("first in slice in an open slice", &one, 4, 1 << 30),
        ("first in slice in an open slice's last", &one, 5, 1 << 30),
        ("last in slice missing in the last column", &two_rows, 4, 1 << 31),
        ("last in slice and in group missing in the last column", &one, 5, 1 << 31 | 1 << 26),
        ("last in slice missing, last in group there", &one, 5, 1 << 31),
        ("first in group missing at the start", &one, 3, 1 << 24),
        ("first in group missing after a group", &groups, 5, 1 << 24),
        ("first in group in a group", &one, 4, 1 << 24),
        ("first in group after a slice", &slices, 4, 1 << 24),
        ("first in group after a row", &two_rows, 5, 1 << 24),
        ("last in group without last in slice", &one, 3, 1 << 26),
        ("last in group without last in slice, skipped", &small_b(), 4, 1 << 26),
    ];
    for (name, base, command, bits) in table {
        t.flip(name, base, command, 4, bits, 7);
    }
    for batch in [one, slices, groups, two_rows] {
        t.passes("flags", &batch);
        t.passes("clamp is free", &batch.set(3, CLAMP, 1));
    }
}

/// "Skip: neither first nor last in slice; pattern zero", and P's rule.
fn skips_in_p(t: &mut Table) {
    let base = small_p();
    t.passes("skipped in P", &base);
    t.refused("skipped first in slice", &base.set(4, FIRST_IN_SLICE, 1), 11, 4, 1);
    t.refused("skipped last in slice", &base.set(4, LAST_IN_SLICE, 1), 11, 4, 1);
    for pattern in [1, 32, 63] {
        t.refused("skipped with a pattern", &base.set(4, PATTERN, pattern), 11, 4, 1);
    }
    for vector in [1, 0xffff, 4, 0x1_0000] {
        let mut moving = small_p();
        moving.0[4][5..].fill(vector);
        t.refused("skipped with vectors in P", &moving, 11, 4, 1);
    }
    for word in 5..9 {
        t.refused("skipped with one vector word in P", &base.flipped(4, word, 1), 11, 4, 1);
    }
    t.refused("the first of P skipped", &base.set(3, SKIP, 1).set(3, PATTERN, 0), 11, 3, 1);
    t.refused("the last of P skipped", &rows(&Frame::new(2, 1, 2), &[moved(1, 0, 0), skip(1, 0, 0)]), 11, 4, 1);
    // at word 1, so before 6 and 4 that stand further on
    t.refused("skip rule before position", &base.set(4, PATTERN, 1).set(4, COLUMN, 7), 11, 4, 1);
    t.refused("skip rule before fixed bits", &base.set(4, PATTERN, 1).flipped(4, 3, 1), 11, 4, 1);
}

/// "In B the macroblock before it is inter with the same type and the same words 5 to 8."
fn skips_in_b(t: &mut Table) {
    let three = |before: Command, c: Command| rows(&Frame::new(3, 3, 1), &[before, c, moved(0, 0, 0)]);
    for (kind, forward, backward) in [(1, 6, 0), (2, 0, 6), (3, 6, 9), (1, 0, 0), (2, 0, 0), (3, 0, 0)] {
        let c = skip(kind, forward, backward);
        t.passes(&format!("skipped in B, kind {kind}"), &three(moved(kind, forward, backward), c));
        let alone = three(c, c).set(3, FIRST_IN_SLICE, 0);
        t.refused("skipped in B, none before", &alone, 11, 3, 1);
        t.refused("skipped in B, intra before", &three(moved(0, 0, 0), c), 11, 4, 1);
        for other in (1..4).filter(|other| *other != kind) {
            let same = moved(other, c[5], c[6]);
            t.refused("skipped in B, another type before", &three(same, c), 11, 4, 1);
        }
        t.refused("skipped in B, other words before", &three(moved(kind, c[5] ^ 1, c[6] ^ 2), c), 11, 4, 1);
        if kind == 3 {
            t.refused("skipped in B, another word 5 before", &three(moved(3, c[5] ^ 1, c[6]), c), 11, 4, 1);
            t.refused("skipped in B, another word 6 before", &three(moved(3, c[5], c[6] ^ 1), c), 11, 4, 1);
        }
    }
    let four = |a: Command, b: Command| rows(&Frame::new(3, 4, 1), &[moved(3, 6, 9), a, b, moved(0, 0, 0)]);
    t.passes("skipped in B after a skipped one", &four(skip(3, 6, 9), skip(3, 6, 9)));
    t.refused("skipped in B after another", &four(moved(3, 6, 8), skip(3, 6, 9)), 11, 5, 1);
    t.refused("skipped, its block outside", &three(moved(1, 40, 0), skip(1, 40, 0)), 10, 4, 5);
}

/// The macroblock before may be in another slice, row or group. A skipped one that follows it breaks 7 and, only if it
/// differs, 11.
fn skips_over_borders(t: &mut Table) {
    let like = moved(1, 0, 0);
    for (columns, end, command) in [(3, End::Slice, 4), (3, End::Group, 5), (1, End::Slice, 4), (1, End::Group, 5)] {
        let frame = Frame::new(3, columns, 3 / columns);
        for (before, number, word) in [(like, 7, 4), (moved(2, 0, 0), 11, 1), (moved(0, 0, 0), 11, 1)] {
            let batch = lay_out(&frame, &[(before, end), (skip(1, 0, 0), End::Nothing), (like, End::Group)]);
            t.refused("skipped, another slice before", &batch.set(command, FIRST_IN_SLICE, 0), number, command, word);
        }
    }
    let p = lay_out(&Frame::new(2, 3, 1), &[(like, End::Slice), (skip(1, 0, 0), End::Nothing), (like, End::Group)]);
    t.refused("skipped in P, another slice before", &p.set(4, FIRST_IN_SLICE, 0), 7, 4, 4);
}

pub fn skips(t: &mut Table) {
    skips_in_p(t);
    skips_in_b(t);
    skips_over_borders(t);
}
