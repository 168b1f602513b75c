//! Document 01's commands one at a time: what a word begins, and one MACROBLOCK command read alone; with document 02's R-6, field
//! prediction.

use crate::leaf::{bits, with_bits};

pub const MACROBLOCK: u32 = 0x7349_0007;

/// "Words that begin a command": header, name, words.
pub const COMMANDS: [(u32, &str, usize); 12] = [
    (0x0000_0000, "NOOP", 1),
    (0x0500_0000, "END", 1),
    (0x7001_0004, "SURFACE", 6),
    (0x7300_000B, "PICTURE", 13),
    (0x7343_0006, "SLICEGROUP", 8),
    (MACROBLOCK, "MACROBLOCK", 9),
    (0x7000_0003, "carried", 5),
    (0x7002_003B, "carried", 61),
    (0x7003_0018, "carried", 26),
    (0x7004_0008, "carried", 10),
    (0x7007_0010, "carried", 18),
    (0x7008_0020, "carried", 34),
];

/// "The whole header must match": the command's name and its words, or none.
pub fn header(word: u32) -> Option<(&'static str, usize)> {
    COMMANDS.iter().find(|command| command.0 == word).map(|&(_, name, words)| (name, words))
}

/// A MACROBLOCK command, header and all.
pub type Command = [u32; 9];
/// The log record of one macroblock.
pub type Record = [u8; 24];
/// Number and place.
pub type Answer = (u8, usize);
/// A word of a command, the number of a rule that stands there, and whether it is kept.
pub type Rule = (usize, u8, bool);

/// Bits hi:lo of a word of the command.
#[derive(Clone, Copy)]
pub struct Field {
    pub word: usize,
    pub hi: u8,
    pub lo: u8,
}

const fn field(word: usize, hi: u8, lo: u8) -> Field {
    Field { word, hi, lo }
}

impl Field {
    pub fn of(self, c: &Command) -> u32 {
        bits(c[self.word], self.hi, self.lo)
    }

    pub fn set(self, c: &mut Command, value: u32) {
        c[self.word] = with_bits(c[self.word], self.hi, self.lo, value);
    }
}

pub const CARRIED: Field = field(1, 31, 16);
pub const DCT_TYPE: Field = field(1, 15, 15);
/// Source document 000's names of bits 14 and 1:0 are FieldMbFlag and InterMbMode.
pub const FIELD_FLAG: Field = field(1, 14, 14);
pub const INTRA: Field = field(1, 13, 13);
pub const TYPE: Field = field(1, 12, 8);
pub const SKIP: Field = field(1, 2, 2);
pub const MODE: Field = field(1, 1, 0);
pub const ROW: Field = field(2, 31, 16);
pub const COLUMN: Field = field(2, 15, 0);
pub const MAXIMUM: Field = field(3, 31, 24);
pub const TARGET: Field = field(3, 23, 16);
pub const PATTERN: Field = field(3, 11, 6);
pub const LAST_IN_SLICE: Field = field(4, 31, 31);
pub const FIRST_IN_SLICE: Field = field(4, 30, 30);
pub const CLAMP: Field = field(4, 27, 27);
pub const LAST_IN_GROUP: Field = field(4, 26, 26);
pub const NO_CONVERSION: Field = field(4, 25, 25);
pub const FIRST_IN_GROUP: Field = field(4, 24, 24);
/// "Word 4 bits 16 and 18 choose the reference field for the two": 1 is the bottom field.
pub const TOP_CHOICE: Field = field(4, 16, 16);
pub const BOTTOM_CHOICE: Field = field(4, 18, 18);
pub const QUANTISER: Field = field(4, 4, 0);

/// Record byte 12, "flags, bits 0 to 5: first slice, last slice, first group, last group, clamp, no conversion".
pub const FLAGS: [Field; 6] = [FIRST_IN_SLICE, LAST_IN_SLICE, FIRST_IN_GROUP, LAST_IN_GROUP, CLAMP, NO_CONVERSION];

/// The bits that must be zero in every command: "7:3 zero"; "15:12 zero", "5:0 zero"; "all else zero", where "17 and 19 stay
/// zero".
const ZERO_1: [Field; 1] = [field(1, 7, 3)];
const ZERO_3: [Field; 2] = [field(3, 15, 12), field(3, 5, 0)];
const ZERO_4: [Field; 4] = [field(4, 29, 28), field(4, 23, 19), field(4, 17, 17), field(4, 15, 5)];

/// "Intra: type 1Ah", "Inter: 1 forward, 2 backward, 3 both", as the record's kind; and type 04h, field prediction, as 4.
pub fn kind(c: &Command) -> Option<u8> {
    match (INTRA.of(c), TYPE.of(c)) {
        (1, 0x1a) => Some(0),
        (0, inter @ 1..=4) => Some(inter as u8),
        _ => None,
    }
}

/// What R-6 allows: that bit 15 is free, unless the macroblock is skipped; type 04h.
#[derive(Clone, Copy)]
pub struct Allowed {
    pub dct_type: bool,
    pub field: bool,
}

/// "One command read alone may be of either sort."
pub const ALONE: Allowed = Allowed { dct_type: true, field: true };

/// Whether a macroblock is of type 04h, and that is allowed.
fn is_field(c: &Command, allowed: Allowed) -> bool {
    kind(c) == Some(4) && allowed.field
}

/// The bits of word 1 that have one value. "Word 1 bit 15 (dct type) is free on macroblocks that are not skipped, and type 04h
/// is allowed in P with bit 14 = 1 and bits 1:0 = 1"; "intra, other types, and 04h where not allowed keep bits 14 and 1:0 zero".
fn fixed_1(c: &Command, allowed: Allowed) -> bool {
    let due = u32::from(is_field(c, allowed));
    let free = allowed.dct_type && SKIP.of(c) == 0;
    ZERO_1.iter().all(|f| f.of(c) == 0) && (FIELD_FLAG.of(c), MODE.of(c)) == (due, due) && (free || DCT_TYPE.of(c) == 0)
}

/// The same of word 4: "bits 16 or 18 set on another type" are wrong.
fn fixed_4(c: &Command, allowed: Allowed) -> bool {
    let chosen = TOP_CHOICE.of(c) == 1 || BOTTOM_CHOICE.of(c) == 1;
    ZERO_4.iter().all(|f| f.of(c) == 0) && (is_field(c, allowed) || !chosen)
}

/// Words 5 to 8 as they must be. "A missing vector is a copy: intra, all zero; forward only or backward only, all four
/// equal; both, 7 = 5 and 8 = 6." By fields, "word 5 is the top field's vector, word 7 the bottom's, 6 and 8 copy 5". What is
/// there and not missing is the word itself.
fn vectors_due(c: &Command) -> [u32; 4] {
    let (forward, backward, bottom) = (c[5], c[6], c[7]);
    match kind(c) {
        Some(0) => [0; 4],
        Some(1) => [forward; 4],
        Some(2) => [backward; 4],
        Some(4) => [forward, forward, bottom, forward],
        _ => [forward, backward, forward, backward],
    }
}

/// Every rule that a command keeps past its header where so much is allowed, whatever else its picture is.
pub fn rules(c: &Command, allowed: Allowed) -> [Rule; 14] {
    let zero = |fields: &[Field]| fields.iter().all(|f| f.of(c) == 0);
    let (intra, skip, pattern) = (INTRA.of(c) == 1, SKIP.of(c) == 1, PATTERN.of(c));
    let due = vectors_due(c);
    [
        (1, 4, fixed_1(c, allowed)),
        (1, 5, kind(c).is_some_and(|kind| kind != 4 || allowed.field)),
        // "Intra: type 1Ah, skip zero."
        (1, 5, !(intra && skip)),
        // "Skip: neither first nor last in slice (bits 30 and 31 of word 4 zero); pattern zero"
        (1, 11, !skip || zero(&[FIRST_IN_SLICE, LAST_IN_SLICE])),
        (1, 11, !skip || pattern == 0),
        // "a skipped type 04h gives 11, read alone too"
        (1, 11, !skip || kind(c) != Some(4)),
        (3, 4, zero(&ZERO_3)),
        // "Intra: pattern 63."
        (3, 5, !intra || pattern == 63),
        (4, 4, fixed_4(c, allowed)),
        // "quantiser 1 to 31"
        (4, 5, QUANTISER.of(c) != 0),
        (5, 8, c[5] == due[0]),
        (6, 8, c[6] == due[1]),
        (7, 8, c[7] == due[2]),
        (8, 8, c[8] == due[3]),
    ]
}

/// "The log has no room for bit 15 and type 04h before R-7": the macroblock that is recorded, "left to the program until then",
/// in place of one that uses them. Bit 15 is dropped, and 04h becomes forward with word 5's vector.
pub fn recordable(c: &Command) -> Command {
    let mut recorded = *c;
    DCT_TYPE.set(&mut recorded, 0);
    if kind(c) == Some(4) {
        TYPE.set(&mut recorded, 1);
        for f in [FIELD_FLAG, MODE, TOP_CHOICE, BOTTOM_CHOICE] {
            f.set(&mut recorded, 0);
        }
        recorded[5..].fill(c[5]);
    }
    recorded
}

/// The record of a command that keeps every rule.
fn record(c: &Command) -> Option<Record> {
    let c = &recordable(c);
    let kind = kind(c)?;
    let half = |f: Field| (f.of(c) as u16).to_le_bytes();
    let byte = |f: Field| f.of(c) as u8;
    let mut r = [0; 24];
    r[0..2].copy_from_slice(&half(COLUMN));
    r[2..4].copy_from_slice(&half(ROW));
    r[4..6].copy_from_slice(&half(CARRIED));
    r[6] = kind;
    r[7] = byte(SKIP);
    r[8] = byte(PATTERN);
    r[9] = byte(MAXIMUM);
    r[10] = byte(TARGET);
    r[11] = byte(QUANTISER);
    r[12] = (0..6).map(|bit| byte(FLAGS[bit]) << bit).sum();
    // "16 forward x, 18 forward y, 20 backward x, 22 backward y, zero when absent"; x is the low half of a vector's word
    if kind == 1 || kind == 3 {
        r[16..20].copy_from_slice(&c[5].to_le_bytes());
    }
    if kind == 2 || kind == 3 {
        r[20..24].copy_from_slice(&c[6].to_le_bytes());
    }
    Some(r)
}

/// "Words upwards, and in a word the smaller number first": the least place and number of all the rules not kept.
pub fn first_broken(rules: &[Rule]) -> Option<Answer> {
    let broken = rules.iter().filter(|rule| !rule.2).map(|&(place, number, _)| (place, number)).min();
    broken.map(|(place, number)| (number, place))
}

/// The record that one command read alone gives, or the refusal. "An empty run gets 1 at 0, any header but MACROBLOCK's
/// gets 2, and words after the ninth aren't read"; "2, then 1", then the rules of the words.
pub fn record_of(words: &[u32]) -> Result<Record, Answer> {
    let first = *words.first().ok_or((1, 0))?;
    let Some(("MACROBLOCK", count)) = header(first) else { return Err((2, 0)) };
    let c: &Command = words.get(..count).ok_or((1, words.len()))?.try_into().unwrap();
    match first_broken(&rules(c, ALONE)) {
        Some(refusal) => Err(refusal),
        None => Ok(record(c).unwrap()),
    }
}

/// One command read alone, its record put into the lent bytes. "14 follows all these."
pub fn read_alone(words: &[u32], lent: &mut [u8]) -> Answer {
    match record_of(words) {
        Err(refusal) => refusal,
        Ok(_) if lent.len() < 24 => (14, 24),
        Ok(record) => {
            lent[..24].copy_from_slice(&record);
            (0, 0)
        }
    }
}

#[cfg(test)]
mod tests {
    use super::*;

    /// "31:29 = 3, 28:27 = 2, [...] the low bits hold total words less 2", NOOP and END apart.
    #[test]
    fn headers_name_their_words() {
        for (word, name, words) in &COMMANDS[2..] {
            assert_eq!((bits(*word, 31, 29), bits(*word, 28, 27)), (3, 2), "{name}");
            assert_eq!(bits(*word, 15, 0) as usize + 2, *words, "{name} {word:08x}");
        }
        assert_eq!(header(0x7349_0006), None);
    }

    /// Every bit of words 1 to 4 belongs to one field or must be zero.
    #[test]
    fn fields_fill_the_words() {
        let mut seen = [0u32; 9];
        let named = [CARRIED, INTRA, TYPE, SKIP, ROW, COLUMN, MAXIMUM, TARGET, PATTERN, QUANTISER];
        let of_fields = [DCT_TYPE, FIELD_FLAG, MODE, TOP_CHOICE, BOTTOM_CHOICE];
        for f in named.iter().chain(&of_fields).chain(&FLAGS).chain(&ZERO_1).chain(&ZERO_3).chain(&ZERO_4) {
            assert_eq!(f.of(&seen), 0);
            f.set(&mut seen, u32::MAX);
        }
        assert_eq!(seen[1..5], [u32::MAX; 4]);
    }

    /// P1's macroblock, and P6 and P7, which break it.
    #[test]
    fn document_01() {
        let p1 = [0x7349_0007, 0x0000_3a00, 0, 0xfc0, 0xc500_0001, 0, 0, 0, 0];
        let mut lent = [0xee; 26];
        assert_eq!(read_alone(&p1, &mut lent), (0, 0));
        assert_eq!(lent[..13], [0, 0, 0, 0, 0, 0, 0, 0, 0x3f, 0, 0, 1, 0x0f]);
        assert_eq!(lent[13..], [0, 0, 0, 0, 0, 0, 0, 0, 0, 0, 0, 0xee, 0xee]);
        let mut p6 = p1;
        p6[5] = 1;
        assert_eq!(record_of(&p6), Err((8, 5)));
        let mut p7 = p1;
        p7[4] = 0xc500_0000;
        assert_eq!(record_of(&p7), Err((5, 4)));
    }

    /// One of words 5 to 8 changed in a bit, for each kind: the place is the lowest missing vector that is not its copy.
    #[test]
    fn missing_vectors() {
        let both = [0x0007_fffd, 0xfffe_0005];
        let kinds = [(0x3a00, [0, 0], [5, 6, 7, 8]), (0x100, [both[0]; 2], [6, 6, 7, 8]), (0x200, [both[1]; 2], [5, 5, 7, 8])];
        for (word_1, [five, six], places) in kinds.into_iter().chain([(0x300, both, [7, 8, 7, 8])]) {
            let c = [0x7349_0007, word_1, 0, 0xfc0, 1, five, six, five, six];
            assert!(record_of(&c).is_ok());
            for (broken, place) in (5..9).zip(places) {
                let mut c = c;
                c[broken] ^= 0x8000;
                assert_eq!(record_of(&c), Err((8, place)), "{word_1:x} {broken}");
            }
        }
    }

    /// "Words upwards, and in a word the smaller number first": faults are mended one by one, the reported one each time.
    #[test]
    fn order() {
        let mut c = [0x7349_0007, 0x0000_2107, 0, 0x0000_1fc1, 0xd000_0020, 1, 2, 3, 4];
        let mut mended = |word: usize, value: u32| {
            c[word] = value;
            record_of(&c).map_err(|(number, place)| (place, number))
        };
        assert_eq!(mended(1, 0x0000_2107), Err((1, 4)));
        assert_eq!(mended(1, 0x0000_2104), Err((1, 5)));
        assert_eq!(mended(1, 0x0000_0104), Err((1, 11)));
        assert_eq!(mended(4, 0x1000_0020), Err((1, 11)));
        assert_eq!(mended(3, 0x0000_1001), Err((3, 4)));
        assert_eq!(mended(1, 0x0000_3a00), Err((3, 4)));
        assert_eq!(mended(3, 0x0000_0f80), Err((3, 5)));
        assert_eq!(mended(3, 0x0000_0fc0), Err((4, 4)));
        assert_eq!(mended(4, 0x0000_0000), Err((4, 5)));
        assert_eq!(mended(4, 0x0000_001f), Err((5, 8)));
    }

    /// One command of type 04h read alone, and what becomes of it as its words change.
    #[test]
    fn by_fields() {
        let c = [0x7349_0007, 0x0000_4401, 0, 0x0000_0980, 0x0005_0001, 0x0007_fffd, 0x0007_fffd, 0xfffe_0005, 0x0007_fffd];
        let with = |word: usize, value: u32| {
            let mut c = c;
            c[word] = value;
            record_of(&c)
        };
        // legal in the sense of before R-6: forward, with word 5's vector
        let record = [0, 0, 0, 0, 0, 0, 1, 0, 0x26, 0, 0, 1, 0, 0, 0, 0, 0xfd, 0xff, 0x07, 0, 0, 0, 0, 0];
        assert_eq!(record_of(&c), Ok(record));
        assert_eq!(with(1, 0x0000_c401), Ok(record));
        assert_eq!([0x0001_0001, 0x0004_0001, 1].map(|four| with(4, four)), [Ok(record); 3]);
        assert_eq!([0, 1, 0x0007_fffd].map(|seven| with(7, seven)), [Ok(record); 3]);
        // bit 14, bits 1:0, the intra bit, and other types with the bits of this one
        for one in [0x0401, 0x4400, 0x4402, 0x4403, 0x0400, 0x6401, 0x4101, 0x4301, 0x4501, 0x7a01, 0x0101, 0x4100, 0x0102] {
            assert_eq!(with(1, one), Err((4, 1)), "{one:x}");
        }
        for one in [0x0500, 0x0600, 0x1400, 0x1900, 0x2400] {
            assert_eq!(with(1, one), Err((5, 1)), "{one:x}");
        }
        // skipped, with a pattern and without; with bit 15
        assert_eq!(with(1, 0x0000_4405), Err((11, 1)));
        assert_eq!(with(1, 0x0000_c405), Err((4, 1)));
        let mut bare = [0x7349_0007, 0x0000_4405, 0, 0, 1, 0, 0, 0, 0];
        assert_eq!(record_of(&bare), Err((11, 1)));
        bare[1] = 0x0000_c101;
        assert_eq!(record_of(&bare), Err((4, 1)));
        // bits 17 and 19; on another type 16 and 18
        assert_eq!([0x0002_0001, 0x0008_0001, 0x000f_0001].map(|four| with(4, four)), [Err((4, 4)); 3]);
        for (one, four) in [(0x0100, 0x0001_0001), (0x3a00, 0x0004_0001), (0x8300, 0x0005_0001)] {
            let pattern = if one == 0x3a00 { 0xfc0 } else { 0 };
            assert_eq!(record_of(&[0x7349_0007, one, 0, pattern, four, 0, 0, 0, 0]), Err((4, 4)), "{one:x}");
        }
        // "6 and 8 copy 5"
        assert_eq!((with(5, 0), with(6, 0xfffe_0005)), (Err((8, 6)), Err((8, 6))));
        assert_eq!((with(8, 0xfffe_0005), with(8, 0)), (Err((8, 8)), Err((8, 8))));
    }

    /// Bit 15 alone: "free on macroblocks that are not skipped", and the record doesn't have it.
    #[test]
    fn dct_type() {
        for (one, three) in [(0x3a00, 0xfc0), (0x100, 0x40), (0x200, 0), (0x300, 0xfc0)] {
            let alone = |one: u32| record_of(&[0x7349_0007, one, 0, three, 1, 0, 0, 0, 0]);
            assert!(alone(one).is_ok());
            assert_eq!(alone(one | 0x8000), alone(one));
            assert_eq!(alone(one | 0x8004), Err((4, 1)));
        }
    }

    /// "14 follows all these", and no refusal writes.
    #[test]
    fn refusals_write_nothing() {
        let faulty = [0x7349_0007, 0x0000_3a00, 0, 0xfc0, 0xc500_0000, 0, 0, 0, 0];
        let legal = [0x7349_0007, 0x0000_3a00, 0, 0xfc0, 0xc500_0001, 0, 0, 0, 0];
        let mut lent = [7; 23];
        assert_eq!(read_alone(&faulty, &mut lent), (5, 4));
        assert_eq!(read_alone(&legal, &mut lent), (14, 24));
        assert_eq!(lent, [7; 23]);
    }
}
