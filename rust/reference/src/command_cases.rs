//! Cases for headers and for commands read alone, and the commands from which the cases for records are made.

use crate::cases::Cases;
use crate::command::*;
use crate::leaf::{with_bits, word_of};
use crate::random::Random;

/// Document 01's case P1, from its word 27 on.
pub const P1: Command = [0x7349_0007, 0x0000_3a00, 0, 0xfc0, 0xc500_0001, 0, 0, 0, 0];

/// The kind is the record's. Quantiser 1, pattern 63 if intra, the vectors that the kind has, and zero in the rest.
pub fn plain(kind: u32, forward: u32, backward: u32) -> Command {
    let mut c = [MACROBLOCK, 0, 0, 0, 1, 0, 0, 0, 0];
    if kind == 0 {
        INTRA.set(&mut c, 1);
        PATTERN.set(&mut c, 63);
    }
    TYPE.set(&mut c, [0x1a, 1, 2, 3][kind as usize]);
    let (five, six) = [(0, 0), (forward, forward), (backward, backward), (forward, backward)][kind as usize];
    c[5..].copy_from_slice(&[five, six, five, six]);
    c
}

/// Type 04h with its bits 14 and 1:0, the top field's vector and the bottom's, and zero in the rest: both are predicted from the
/// reference's top field.
pub fn by_fields(top: u32, bottom: u32) -> Command {
    let mut c = plain(1, top, 0);
    for (f, value) in [(TYPE, 4), (FIELD_FLAG, 1), (MODE, 1)] {
        f.set(&mut c, value);
    }
    c[7] = bottom;
    c
}

/// Coded, no flags, no two fields alike.
pub fn distinct(kind: u32) -> Command {
    let mut c = plain(kind, word_of(-3, 7), word_of(5, -2));
    for (f, value) in [(CARRIED, 0x1234), (COLUMN, 0x5678), (ROW, 0x9abc), (MAXIMUM, 0xde), (TARGET, 0xf1), (QUANTISER, 17)] {
        f.set(&mut c, value);
    }
    if kind != 0 {
        PATTERN.set(&mut c, 0b101100);
    }
    c
}

/// Skipped inter: as before, with no pattern and the flags that it may have.
pub fn skipped(kind: u32) -> Command {
    let mut c = distinct(kind);
    for (f, value) in [(SKIP, 1), (PATTERN, 0), (FIRST_IN_GROUP, 1), (LAST_IN_GROUP, 1), (CLAMP, 1), (NO_CONVERSION, 1)] {
        f.set(&mut c, value);
    }
    c
}

/// Predicted by fields and coded, no flags, no two fields alike.
pub fn distinct_fields() -> Command {
    let mut c = distinct(1);
    for (f, value) in [(TYPE, 4), (FIELD_FLAG, 1), (MODE, 1), (BOTTOM_CHOICE, 1)] {
        f.set(&mut c, value);
    }
    c[7] = word_of(5, -2);
    c
}

/// The command with a field set.
fn with(mut c: Command, field: Field, value: u32) -> Command {
    field.set(&mut c, value);
    c
}

/// Coded, every field at its largest, every flag set, vectors at the ends of sixteen bits.
fn full(kind: u32) -> Command {
    let mut c = plain(kind, word_of(-32768, 32767), word_of(32767, -32768));
    for f in [CARRIED, COLUMN, ROW, MAXIMUM, TARGET, PATTERN, QUANTISER].iter().chain(&FLAGS) {
        f.set(&mut c, u32::MAX);
    }
    c
}

/// Commands of every kind that are accepted when they are read alone, P1's first.
pub fn bases() -> Vec<Command> {
    let mut all = vec![P1, plain(3, word_of(-1, 1), word_of(-1, 1)), plain(3, word_of(-1, 1), 0), plain(3, 0, word_of(1, -1))];
    for kind in 0..4 {
        all.extend([plain(kind, 0, 0), distinct(kind), full(kind)]);
    }
    for kind in 1..4 {
        let mut still = plain(kind, 0, 0);
        SKIP.set(&mut still, 1);
        all.extend([skipped(kind), still]);
    }
    all.extend(field_bases());
    all
}

/// The same by fields: both unmoved, both alike, and with each choice; every field at its largest; and the dct type set on
/// each kind.
fn field_bases() -> Vec<Command> {
    let (one, other) = (word_of(-1, 1), word_of(32767, -32768));
    let mut all = vec![by_fields(0, 0), by_fields(one, one), by_fields(one, 0), by_fields(0, one), by_fields(other, one)];
    all.extend((0..4).map(|n| with(with(distinct_fields(), TOP_CHOICE, n), BOTTOM_CHOICE, n >> 1)));
    let filled = [CARRIED, DCT_TYPE, COLUMN, ROW, MAXIMUM, TARGET, PATTERN, QUANTISER, TOP_CHOICE, BOTTOM_CHOICE];
    all.push(filled.iter().chain(&FLAGS).fold(by_fields(one, other), |c, field| with(c, *field, u32::MAX)));
    all.extend((0..4).map(|kind| with(distinct(kind), DCT_TYPE, 1)));
    all
}

/// Any command that is accepted when it is read alone.
pub fn random_command(r: &mut Random) -> Command {
    let kind = r.within(0, 4) as u32;
    let mut component = || if r.within(0, 1) == 0 { r.within(-4, 4) } else { r.within(-32768, 32767) };
    let (one, other) = (word_of(component(), component()), word_of(component(), component()));
    let mut c = if kind == 4 { by_fields(one, other) } else { plain(kind, one, other) };
    for f in [CARRIED, COLUMN, ROW, MAXIMUM, TARGET].iter().chain(&FLAGS) {
        f.set(&mut c, r.next() as u32);
    }
    QUANTISER.set(&mut c, r.within(1, 31) as u32);
    DCT_TYPE.set(&mut c, u32::from(r.within(0, 2) == 0));
    if kind != 0 {
        PATTERN.set(&mut c, r.next() as u32);
    }
    if kind == 4 {
        TOP_CHOICE.set(&mut c, r.next() as u32);
        BOTTOM_CHOICE.set(&mut c, r.next() as u32);
    } else if kind != 0 && r.within(0, 2) == 0 {
        for (f, value) in [(SKIP, 1), (DCT_TYPE, 0), (PATTERN, 0), (FIRST_IN_SLICE, 0), (LAST_IN_SLICE, 0)] {
            f.set(&mut c, value);
        }
    }
    c
}

/// The twelve, each with one bit flipped (every bit of two of them, every seventh of the rest), and others.
pub fn headers(cases: &mut Cases) {
    for (word, ..) in COMMANDS {
        cases.header(word);
    }
    for (word, name, _) in COMMANDS {
        let step = if matches!(name, "MACROBLOCK" | "PICTURE") { 1 } else { 7 };
        for bit in (0..32).step_by(step) {
            cases.header(word ^ 1 << bit);
        }
    }
    let mut r = Random::new(3);
    for _ in 0..20 {
        cases.header(r.next() as u32);
        cases.header(0x7000_0000 + r.next() as u32 % 0x0010_0040);
    }
    cases.header(1);
    cases.header(u32::MAX);
}

/// Every single bit of five commands flipped.
fn single_bits(cases: &mut Cases) {
    for c in [distinct(0), distinct(1), skipped(2), skipped(3), distinct_fields()] {
        for bit in 0..288 {
            let mut flipped = c;
            flipped[bit / 32] ^= 1 << (bit % 32);
            cases.read(&flipped);
        }
    }
}

/// One or two of words 5 to 8 changed: in a bit, to zero ("Missing vectors left zero"), or with their halves exchanged.
fn broken_copies(cases: &mut Cases) {
    let changes: [fn(u32) -> u32; 3] = [|word| word ^ 0x0001_0000, |_| 0, |word| word.rotate_left(16)];
    let each = (0..4).map(distinct).chain([distinct_fields()]);
    let coded = each.flat_map(|c| changes.map(|change| (c, change)));
    let skipped = (1..4).map(|kind| (skipped(kind), changes[0]));
    for (c, change) in coded.chain(skipped) {
        for first in 5..9 {
            for second in first..9 {
                let mut broken = c;
                broken[first] = change(c[first]);
                broken[second] = change(c[second]);
                cases.read(&broken);
            }
        }
    }
}

/// Every type with and without the intra bit, skipped and not; every quantiser.
fn types_and_quantisers(cases: &mut Cases) {
    for n in 0..128 {
        let mut c = if n < 64 { plain(0, 0, 0) } else { plain(1, 0, 0) };
        SKIP.set(&mut c, n >> 6);
        INTRA.set(&mut c, n >> 5);
        TYPE.set(&mut c, n);
        cases.read(&c);
    }
    for (base, quantisers) in [(distinct(0), 0..32), (skipped(1), 0..32), (distinct(2), 0..2), (distinct(3), 0..2)] {
        for quantiser in quantisers {
            let mut c = base;
            QUANTISER.set(&mut c, quantiser);
            cases.read(&c);
        }
    }
}

/// Patterns that intra and skipped macroblocks may not have, and skipped macroblocks at the ends of a slice.
fn patterns_and_slice_ends(cases: &mut Cases) {
    for (base, patterns) in [(distinct(0), 0..63), (skipped(1), 1..64), (skipped(2), 60..64), (skipped(3), 31..34)] {
        for pattern in patterns {
            let mut c = base;
            PATTERN.set(&mut c, pattern);
            cases.read(&c);
        }
    }
    for kind in 1..4 {
        for n in 1..8 {
            let mut c = skipped(kind);
            FIRST_IN_SLICE.set(&mut c, n);
            LAST_IN_SLICE.set(&mut c, n >> 1);
            PATTERN.set(&mut c, n >> 2 << 5);
            cases.read(&c);
        }
    }
}

/// "Intra, other types, and 04h where not allowed keep bits 14 and 1:0 zero": every value of bits 15, 14, skip and 1:0 by
/// fields, forward and intra, and every type with the bits of 04h.
fn bits_of_fields(cases: &mut Cases) {
    let still = with(plain(1, 0, 0), SKIP, 1);
    for base in [distinct_fields(), by_fields(0, 0), still, plain(0, 0, 0)] {
        for n in 0..32 {
            let values = [(DCT_TYPE, n), (FIELD_FLAG, n >> 1), (SKIP, n >> 2), (MODE, n >> 3)];
            cases.read(&values.into_iter().fold(base, |c, (field, value)| with(c, field, value)));
        }
    }
    for n in 0..64 {
        cases.read(&with(with(by_fields(0, 0), INTRA, n >> 5), TYPE, n));
    }
}

/// "Word 4 bits 16 and 18 choose the reference field for the two, 17 and 19 stay zero": every value of the four, by fields,
/// forward and intra.
fn choices(cases: &mut Cases) {
    for base in [distinct_fields(), distinct(1), distinct(0)] {
        for n in 0..16 {
            let mut c = base;
            c[4] = with_bits(c[4], 19, 16, n);
            cases.read(&c);
        }
    }
}

/// "6 and 8 copy 5": copies of other words, and the two vectors exchanged.
fn copies_of_other_words(cases: &mut Cases) {
    let c = distinct_fields();
    for sources in
        [[5, 7, 7, 7], [5, 5, 7, 7], [5, 7, 7, 5], [7, 5, 5, 7], [7, 7, 5, 7], [5, 5, 5, 5], [7, 5, 7, 5], [5, 7, 5, 7]]
    {
        let mut other = c;
        (0..4).for_each(|n| other[5 + n] = c[sources[n]]);
        cases.read(&other);
    }
}

/// A skipped macroblock of type 04h "gives 11, read alone too": with and without vectors and choices, and beside other faults.
fn skipped_fields(cases: &mut Cases) {
    let bare = with(with(by_fields(0, 0), SKIP, 1), BOTTOM_CHOICE, 1);
    let moving = with(with(distinct_fields(), SKIP, 1), PATTERN, 0);
    for base in [by_fields(0, 0), bare, moving, with(distinct_fields(), SKIP, 1)] {
        let c = with(base, SKIP, 1);
        let others = [(CARRIED, 7), (DCT_TYPE, 1), (FIELD_FLAG, 0), (MODE, 0), (TYPE, 5), (INTRA, 1), (LAST_IN_SLICE, 1)];
        cases.read(&c);
        others.into_iter().for_each(|(field, value)| cases.read(&with(c, field, value)));
        for (word, bits) in [(3, 1), (4, 1 << 17), (6, 1), (7, 1 << 16), (8, 1)] {
            let mut faulty = c;
            faulty[word] ^= bits;
            cases.read(&faulty);
        }
    }
}

/// Two faults at once: "words upwards, and in a word the smaller number first".
fn pairs_of_faults(cases: &mut Cases) {
    for kind in 0..5 {
        let c = [distinct(0), skipped(1), skipped(2), skipped(3), distinct_fields()][kind];
        let mut faults = vec![
            (1, 1 << 14),
            (1, TYPE.of(&c) << 8),
            (3, 1 << 12),
            (3, 1 << 6),
            (4, 1 << 28),
            (4, QUANTISER.of(&c)),
            (5, 1),
            (6, 1 << 16),
            (7, 1 << 31),
            (8, 1),
        ];
        faults.extend(match kind {
            0 => vec![(1, 1 << 2), (3, 1), (4, 1 << 16)],
            4 => vec![(1, 1 << 2), (1, 3), (4, 1 << 19)],
            1 => vec![(1, 1 << 15), (4, 1 << 30), (4, 1 << 31), (4, 1 << 18)],
            _ => vec![(4, 1 << 30), (4, 1 << 31)],
        });
        for (n, &(first, first_bits)) in faults.iter().enumerate() {
            for &(second, second_bits) in &faults[n + 1..] {
                let mut faulty = c;
                faulty[first] ^= first_bits;
                faulty[second] ^= second_bits;
                cases.read(&faulty);
            }
        }
    }
}

/// Runs of 0 to 12 words, and rooms of 0 to 32 bytes.
fn lengths(cases: &mut Cases) {
    let mut faulty = distinct(3);
    QUANTISER.set(&mut faulty, 0);
    let mut fixed = P1;
    fixed[1] |= 1;
    let other = |word: u32| [&[word], &P1[1..]].concat();
    let picture = other(0x7300_000b);
    let by_fields = distinct_fields();
    for c in [&P1[..], &distinct(3), &skipped(2), &by_fields, &faulty, &fixed, &picture, &other(0), &other(0x7349_0006)] {
        let long = [c, &[MACROBLOCK, u32::MAX, 0x0500_0000]].concat();
        for count in 0..=12 {
            cases.read(&long[..count]);
        }
    }
    for room in 0..=32 {
        cases.read_into(&P1, room);
        cases.read_into(&skipped(3), room);
        cases.read_into(&faulty, room);
    }
    for room in [0, 1, 23, 24, 25] {
        for words in [&[][..], &fixed, &picture, &P1[..8], &distinct(1), &by_fields] {
            cases.read_into(words, room);
        }
    }
}

/// Legal ones, and legal ones with one to three bits flipped.
fn random_commands(cases: &mut Cases) {
    let mut r = Random::new(4);
    for _ in 0..180 {
        cases.read(&random_command(&mut r));
    }
    for _ in 0..260 {
        let mut c = random_command(&mut r);
        for _ in 0..r.within(1, 3) {
            c[r.within(1, 8) as usize] ^= 1 << r.within(0, 31);
        }
        cases.read(&c);
    }
}

pub fn commands(cases: &mut Cases) {
    bases().iter().for_each(|c| cases.read(c));
    single_bits(cases);
    broken_copies(cases);
    types_and_quantisers(cases);
    bits_of_fields(cases);
    choices(cases);
    copies_of_other_words(cases);
    skipped_fields(cases);
    patterns_and_slice_ends(cases);
    pairs_of_faults(cases);
    lengths(cases);
    random_commands(cases);
}
