//! The checker in C gives the second program's answers: number, place, the four lengths and the four first bytes.

use benchmark::batch_check::{check, check_up_to};
use benchmark::pictures::Picture;
use reference::batch::{moved, moved_fields, rows, Frame};
use reference::batch_cases::{made_by, needed};
use reference::batch_damage::damage;
use reference::batch_document::{document, p1};
use reference::batch_faults::faults;
use reference::batch_rules::rule_table;
use reference::batch_valid::pick;
use reference::check::{beside, judge, lengths_of, Judged, Report};
use reference::command::COMMANDS;
use reference::command_cases::plain;
use reference::generate::batches::Batches;
use reference::generate::draft::Draft;
use reference::leaf::word_of;
use reference::random::Random;
use reference::valid_cases::valid;
use std::collections::BTreeMap;

/// Holds the answer against the second program's, and gives its number.
fn same(words: &[u32], buffers: [u64; 4], judged: Judged) -> u8 {
    let due = beside(judged, buffers);
    assert_eq!(check(words, buffers), due, "{words:x?} {buffers:?}");
    due.number
}

/// The same beside lengths as they are needed, a byte more and a byte less in each buffer, none, and the longest.
fn same_beside_all(words: &[u32]) -> u8 {
    let judged = judge(words);
    let exact = judged.map_or([384; 4], lengths_of);
    for n in 0..4 {
        let with = |length: u64| std::array::from_fn(|m| if m == n { length } else { exact[m] });
        same(words, with(exact[n].saturating_sub(1)), judged);
        same(words, with(exact[n] + 1), judged);
    }
    same(words, [0; 4], judged);
    same(words, [u64::MAX; 4], judged);
    same(words, exact, judged)
}

/// "P1 to P13", 21 batches of them.
#[test]
fn document_01() {
    let cases = made_by(&[document]);
    assert_eq!(cases.len(), 21);
    for case in cases {
        assert_eq!(check(&case.words, case.buffers), case.report);
        same_beside_all(&case.words);
    }
}

/// What is stored as cases for the proved checker.
#[test]
fn cases() {
    let cases = made_by(&[document, rule_table, valid, damage, faults]);
    assert!(cases.len() > 3500, "{}", cases.len());
    for case in cases {
        assert_eq!(check(&case.words, case.buffers), case.report, "{:x?} {:?}", case.words, case.buffers);
    }
}

/// Generated batches of every sort: all numbers from 0 to 13, and each rule of the table broken alone with its number given.
#[test]
fn generated_batches() {
    let (mut r, batches) = (Random::new(71), Batches::default());
    let mut numbers: BTreeMap<u8, u32> = BTreeMap::new();
    let mut alone = vec![0; batches.breaches.len()];
    for _ in 0..20_000 {
        let batch = batches.next(&mut r);
        let number = same(&batch.words, batch.buffers, batch.judged);
        *numbers.entry(number).or_default() += 1;
        if let [rule] = batch.broken[..] {
            alone[rule] += u32::from(number == batches.breaches[rule].number);
        }
        if batch.words.len() < 2000 {
            same_beside_all(&batch.words);
        }
    }
    assert!(numbers.keys().copied().eq(0..=13), "{numbers:?}");
    for (breach, count) in batches.breaches.iter().zip(alone) {
        assert!(count >= 3, "{}: {count}", breach.rule);
    }
}

/// A value that means something somewhere in a batch, or is next to one.
fn interesting(r: &mut Random, words: &[u32], at: usize) -> u32 {
    let word = words[at];
    match r.within(0, 9) {
        0 => pick(r, &[0, 1, u32::MAX, 1 << 31, 1 << 30, 1 << 26, 1 << 24, 4, 0x1a00, 0x2000, 0x4401, 0xc401, 0x400]),
        1 => pick(r, &COMMANDS).0,
        2 => pick(r, &COMMANDS).0 ^ 1 << r.within(0, 31),
        3 => word.rotate_left(16),
        4 => word.wrapping_add(pick(r, &[1, 0x1_0000, u32::MAX, 0xffff_0000])),
        5 => pick(r, words),
        6 => word_of(pick(r, &[0, 31, 32, 33, -1, -32, 4095, 4096, -4096, -32768]), pick(r, &[0, 1, 15, 16, -1, 32767])),
        7 => {
            word ^ pick(r, &[0x100, 0x200, 0x300, 0x2000, 0x3a00, 4, 0x204, 0x8000, 0x4000, 0x4401, 0x4501, 3, 1 << 16, 1 << 18])
        }
        _ => word ^ 1 << r.within(0, 31),
    }
}

/// Batches that keep every rule, with one to three words changed; some of the time the same change in words that are copies.
#[test]
fn changed_words() {
    let mut r = Random::new(72);
    let mut numbers: BTreeMap<u8, u32> = BTreeMap::new();
    for _ in 0..20_000 {
        let (columns, rows) = (r.within(1, 4) as u32, r.within(1, 3) as u32);
        let mut words = Draft::of_shape(&mut r, columns, rows).batch.words();
        for _ in 0..r.within(1, 3) {
            let at = r.within(0, words.len() as i64 - 1) as usize;
            let (old, new) = (words[at], interesting(&mut r, &words, at));
            let last = if r.within(0, 1) == 0 { at } else { (at + 3).min(words.len() - 1) };
            words[at..=last].iter_mut().filter(|word| **word == old).for_each(|word| *word = new);
        }
        let judged = judge(&words);
        *numbers.entry(same(&words, judged.map_or([0; 4], lengths_of), judged)).or_default() += 1;
    }
    assert!(numbers.keys().copied().eq(0..=12) && numbers.values().all(|count| *count >= 10), "{numbers:?}");
}

/// Every prefix of batches with NOOPs, carried commands, several groups and words after END.
#[test]
fn prefixes() {
    let mut r = Random::new(73);
    for _ in 0..30 {
        let (columns, rows) = (r.within(1, 4) as u32, r.within(1, 3) as u32);
        let words = Draft::of_shape(&mut r, columns, rows).batch.words();
        for length in 0..=words.len() {
            let judged = judge(&words[..length]);
            same(&words[..length], [u64::MAX; 4], judged);
        }
    }
}

/// Runs of 0 to 40 NOOPs before any command and behind END: whole, cut off within, and with a word in them that is not zero.
#[test]
fn runs_of_noops() {
    let mut r = Random::new(75);
    for n in 0..2000 {
        let mut batch = Draft::of_shape(&mut r, 3, 2).batch;
        let command = r.within(0, batch.0.len() as i64) as usize;
        let (first, length) = (batch.place(command, 0), n % 41);
        batch.0.insert(command, vec![0; length]);
        let mut words = batch.words();
        assert_eq!(same_beside_all(&words), 0);
        let within = first + r.within(0, length as i64) as usize;
        same_beside_all(&words[..within]);
        if within < words.len() {
            words[within] = pick(&mut r, &[1, 1 << 31, 0x7349_0007, 0x0500_0000, 0x7004_0008]);
            same_beside_all(&words);
        }
    }
}

/// Every vector that a macroblock in the middle of a picture may have and many that it may not, both ways; one block is touched.
#[test]
fn vectors() {
    let frame = Frame { codes: [3; 4], ..Frame::new(3, 3, 3) };
    for (x, y) in (-70..70).flat_map(|x: i64| (-70..70).step_by(3).map(move |y| (x, y + x.rem_euclid(3)))) {
        for (kind, direction) in [(1, 2), (2, 3)] {
            let still = moved(0, 0, 0);
            let vector = word_of(x, y);
            let macroblocks: Vec<_> = (0..9).map(|k| if k == 4 { plain(kind, vector, vector) } else { still }).collect();
            let words = rows(&frame, &macroblocks).words();
            let judged = judge(&words);
            let number = same(&words, [u64::MAX; 4], judged);
            assert_eq!(number == 0, judged.is_ok_and(|windows| windows[direction].is_some()), "{x} {y}");
        }
    }
}

/// The same by fields, in either field of the reference, for word 5 and for word 7, at three f codes.
#[test]
fn field_vectors() {
    let mut numbers: BTreeMap<u8, u32> = BTreeMap::new();
    for (x, y) in (-70..70).flat_map(|x: i64| (-40..40).step_by(2).map(move |y| (x, y + x.rem_euclid(2)))) {
        for n in 0..12 {
            let code = n / 4 + 1;
            let frame = Frame { codes: [code, code, 15, 15], chroma_row: 48 + n, ..Frame::with_fields(2, 3, 3) };
            let (vector, still) = ((word_of(x, y), n & 1), (0, n >> 1 & 1));
            let c = if n & 2 == 0 { moved_fields(vector, still) } else { moved_fields(still, vector) };
            let macroblocks: Vec<_> = (0..9).map(|k| if k == 4 { c } else { moved(0, 0, 0) }).collect();
            let words = rows(&frame, &macroblocks).words();
            *numbers.entry(same(&words, [u64::MAX; 4], judge(&words))).or_default() += 1;
        }
    }
    assert!(numbers.keys().copied().eq([0, 9, 10]) && numbers.values().all(|count| *count > 5000), "{numbers:?}");
}

/// Every lower half of a macroblock's word 1 in each picture type, with PICTURE bit 10 set and not, and with other words that
/// intra, skipped or field macroblocks may have.
#[test]
fn halves() {
    let mut numbers: BTreeMap<(u32, bool, u8), u32> = BTreeMap::new();
    let bodies = [(0xfc0, 0, [0; 4]), (0, 0, [0; 4]), (0, 5 << 16, [4, 4, 8, 4])];
    for (sort, fields) in (1..4).flat_map(|sort| [(sort, false), (sort, true)]) {
        let frame = Frame { fields, ..Frame::new(sort, 3, 1) };
        for (half, (three, choices, vectors)) in (0..=0xffff).flat_map(|half| bodies.map(|body| (half, body))) {
            let mut c = moved(0, 0, 0);
            (c[1], c[3], c[4]) = (half, three, c[4] | choices);
            c[5..].copy_from_slice(&vectors);
            let words = rows(&frame, &[moved(0, 0, 0), c, moved(0, 0, 0)]).words();
            *numbers.entry((sort, fields, same(&words, [u64::MAX; 4], judge(&words)))).or_default() += 1;
        }
    }
    // In P with bit 10 zero: intra, forward and by fields, with bit 15 and without, on the bodies that suit them, and skipped.
    for (sort, fields, due) in [(1, false, 1), (1, true, 2), (2, false, 4), (2, true, 13), (3, false, 7), (3, true, 14)] {
        assert_eq!(numbers[&(sort, fields, 0)], due, "{numbers:?}");
    }
}

/// Pictures of so many macroblocks that the lengths are raised by blocks in many rows, and the first bytes lowered by several: the
/// benchmark's own, with near and far vectors, and ones of any pitch and first chroma row.
#[test]
fn large_pictures() {
    let mut r = Random::new(74);
    for seed in 0..6 {
        for near in Picture::all(30, 20).into_iter().chain([Picture::forward(30, 20)]) {
            let words = Picture { f_code: [4, 1, 9][seed as usize % 3], ..near }.words(seed);
            assert_eq!(same_beside_all(&words), 0);
        }
    }
    for _ in 0..40 {
        let (columns, rows) = (r.within(1, 40) as u32, r.within(1, 25) as u32);
        assert_eq!(same_beside_all(&Draft::of_shape(&mut r, columns, rows).batch.words()), 0);
    }
    let batches = Batches::default();
    for _ in 0..20 {
        let batch = batches.long(&mut r);
        same(&batch.words, batch.buffers, batch.judged);
    }
}

/// "27 stands in place of 1 and comes before 13, and no word beyond is judged", with fewer words in place of 4294967295.
#[test]
fn too_many_words() {
    let (exact, zeros) = (needed(&p1()), [&p1()[..], &[0, 0]].concat());
    let refused = |number: u8, place: u64| Report { number, place, ..Report::default() };
    assert_eq!(check_up_to(39, &zeros, exact), Report { lengths: exact, ..Report::default() });
    for most in 0..39 {
        assert_eq!(check_up_to(most, &zeros, [0; 4]), refused(27, most as u64));
    }
    let late = [&zeros[..], &[7]].concat();
    assert_eq!(check_up_to(40, &late, exact), refused(12, 39));
    assert_eq!(check_up_to(39, &late, exact), refused(27, 39));
    let mut broken = zeros;
    broken[31] = 0xc500_0000;
    for most in 0..39 {
        let due = if most < 36 { refused(27, most as u64) } else { refused(5, 31) };
        assert_eq!(check_up_to(most, &broken, exact), due);
    }
}
