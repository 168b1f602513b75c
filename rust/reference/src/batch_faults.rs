//! Two faults in one batch, and random damage.

use crate::batch::{small_b, small_f, small_i, small_p, Batch, END};
use crate::batch_cases::{needed, Cases};
use crate::batch_valid::{once_in, pick, random_batch, random_frame};
use crate::check::check;
use crate::command::{COMMANDS, MACROBLOCK};
use crate::random::Random;
use std::collections::BTreeMap;

#[derive(Clone)]
enum Fault {
    /// Bits of a word of a command.
    Flip(usize, usize, u32),
    /// A command put before another.
    Insert(usize, Vec<u32>),
    /// Words after END.
    Tail(Vec<u32>),
    /// So many words given.
    Cut(usize),
    /// No buffer has a byte.
    Empty,
}

/// Every single bit of a batch that is refused alone, by number.
fn flips(base: &Batch) -> Vec<Vec<Fault>> {
    let mut found: BTreeMap<u8, Vec<Fault>> = BTreeMap::new();
    for (command, words) in base.0.iter().enumerate() {
        for bit in 0..32 * words.len() {
            let (word, bits) = (bit / 32, 1 << (bit % 32));
            let number = check(&base.flipped(command, word, bits).words(), [u64::MAX; 4]).number;
            found.entry(number).or_default().push(Fault::Flip(command, word, bits));
        }
    }
    found.into_iter().filter(|(number, _)| *number != 0).map(|(_, faults)| faults).collect()
}

fn any_of<'a, T>(r: &mut Random, list: &'a [T]) -> &'a T {
    &list[r.within(0, list.len() as i64 - 1) as usize]
}

/// A fault of any sort, each number of a flip as often as another.
fn random_fault(r: &mut Random, base: &Batch, flips: &[Vec<Fault>]) -> Fault {
    match r.within(0, 11) {
        0 => Fault::Insert(r.within(0, base.0.len() as i64 - 1) as usize, any_of(r, &base.0).clone()),
        1 => Fault::Tail(vec![0, pick(r, &[1, END, MACROBLOCK])]),
        2 => Fault::Cut(r.within(1, base.words().len() as i64 - 1) as usize),
        3 => Fault::Empty,
        _ => {
            let of_a_number = any_of(r, flips);
            any_of(r, of_a_number).clone()
        }
    }
}

/// Faults that are flips of one word, or both of another sort, are not two.
fn apart(faults: &[Fault; 2]) -> bool {
    match faults {
        [Fault::Flip(a, b, _), Fault::Flip(c, d, _)] => (a, b) != (c, d),
        [one, other] => std::mem::discriminant(one) != std::mem::discriminant(other),
    }
}

/// The batch with both faults: flips first, then what is put in, then the words after END, then the cut.
fn with_faults(base: &Batch, mut faults: [Fault; 2]) -> (Vec<u32>, [u64; 4]) {
    let rank = |fault: &Fault| match fault {
        Fault::Flip(..) => 0,
        Fault::Insert(..) => 1,
        _ => 2,
    };
    faults.sort_by_key(rank);
    let (mut batch, mut tail, mut given, mut buffers) = (base.clone(), vec![], usize::MAX, [u64::MAX; 4]);
    for fault in faults {
        match fault {
            Fault::Flip(command, word, bits) => batch = batch.flipped(command, word, bits),
            Fault::Insert(command, words) => batch.0.insert(command, words),
            Fault::Tail(words) => tail = words,
            Fault::Cut(at) => given = given.min(at),
            Fault::Empty => buffers = [0; 4],
        }
    }
    let mut words = [batch.words(), tail].concat();
    words.truncate(given);
    (words, buffers)
}

fn pairs(cases: &mut Cases) {
    let mut r = Random::new(21);
    for (base, count) in [(small_i(), 30), (small_p(), 60), (small_b(), 70), (small_f(), 60)] {
        let flips = flips(&base);
        for _ in 0..count {
            let mut fault = || random_fault(&mut r, &base, &flips);
            let both = std::iter::repeat_with(|| [fault(), fault()]).find(apart).unwrap();
            let (words, buffers) = with_faults(&base, both);
            cases.push(words, buffers);
        }
    }
}

/// A bit flipped, a word replaced, or words cut off, in batches that kept every rule.
fn random_damage(cases: &mut Cases) {
    let mut r = Random::new(22);
    for _ in 0..140 {
        let (sort, columns, rows) = pick(&mut r, &[(1, 2, 1), (2, 2, 2), (2, 3, 1), (3, 2, 2), (3, 3, 1), (3, 1, 2)]);
        let frame = random_frame(&mut r, sort, columns, rows);
        let noops = r.within(0, 2) as usize;
        let mut words = random_batch(&mut r, &frame, noops, 0).words();
        let buffers = needed(&words);
        let at = r.within(0, words.len() as i64 - 1) as usize;
        match r.within(0, 5) {
            0 => words.truncate(at),
            1 => words[at] = r.next() as u32,
            2 => words[at] = pick(&mut r, &COMMANDS).0,
            _ => words[at] ^= 1 << r.within(0, 31),
        }
        cases.push(words, if once_in(&mut r, 4) { [0; 4] } else { buffers });
    }
}

pub fn faults(cases: &mut Cases) {
    pairs(cases);
    random_damage(cases);
}
