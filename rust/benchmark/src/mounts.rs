//! Mount sheets: asking for one beside a plain function with a map and one in C that looks back, by the number of boats; and the
//! vector of a shift.

use crate::ask_mount::{by_map, in_c};
use hromulice::{Mount, Refusal};
use reference::mounts::{Answer, Record, Sheet};
use reference::random::Random;
use std::collections::{BTreeMap, BTreeSet};
use std::fmt;
use std::hint::black_box;
use std::time::Instant;

/// Of one book.
const SIZES: [usize; 3] = [1000, 10_000, 100_000];

/// As many different books of each sort as have so many sheets together, as with pictures.
const SHEETS: usize = 100_000;

/// A sort of book is run so often, but not again after so many seconds.
const RUNS: u32 = 20;
const SECONDS: f64 = 1.0;

/// The boats of a book. The proved function looks back from the last record whose boat's number has the same remainder.
#[derive(Clone, Copy)]
enum Boats {
    /// So many, of any numbers.
    Any(usize),
    /// So many, of numbers that agree modulo 509.
    Alike(usize),
    /// One for each sheet.
    OneEach,
}

const BOATS: [Boats; 5] = [Boats::Any(1), Boats::Any(20), Boats::Any(300), Boats::Alike(300), Boats::OneEach];

impl fmt::Display for Boats {
    fn fmt(&self, f: &mut fmt::Formatter<'_>) -> fmt::Result {
        match self {
            Boats::Any(count) => f.pad(&count.to_string()),
            Boats::Alike(count) => f.pad(&format!("{count} alike")),
            Boats::OneEach => f.pad("one each"),
        }
    }
}

impl Boats {
    fn numbers(self, r: &mut Random, sheets: usize) -> Vec<u32> {
        let (count, step) = match self {
            Boats::Any(count) => (count, 1),
            Boats::Alike(count) => (count, 509),
            Boats::OneEach => (sheets, 1),
        };
        let (first, most) = (r.within(0, step - 1), i64::from(u32::MAX) / step - 1);
        let mut numbers = BTreeSet::new();
        while numbers.len() < count {
            numbers.insert((first + step * r.within(0, most)) as u32);
        }
        numbers.into_iter().collect()
    }
}

/// A good book, and what is found when the newest sheet of one of its boats is asked for.
struct Book {
    sheets: Vec<u8>,
    boat: u32,
    newest: Sheet,
}

impl Book {
    /// As many sheets of each boat, mixed. The boat that is asked for is the middle record's.
    fn new(r: &mut Random, boats: Boats, sheets: usize) -> Book {
        let numbers = boats.numbers(r, sheets);
        let mut order: Vec<u32> = numbers.into_iter().cycle().take(sheets).collect();
        (1..sheets).for_each(|last| order.swap(last, r.within(0, last as i64) as usize));
        let mut newest: BTreeMap<u32, Sheet> = BTreeMap::new();
        let mut bytes = Vec::with_capacity(16 * sheets);
        for boat in &order {
            let sheet = newest.entry(*boat).or_default();
            *sheet = Sheet { edition: sheet.edition + 1, side: r.within(0, 1) as u8 };
            bytes.extend(Record::new(*boat, sheet.edition, sheet.side).bytes());
        }
        let boat = order[sheets / 2];
        Book { sheets: bytes, boat, newest: newest[&boat] }
    }

    fn count(&self) -> usize {
        self.sheets.len() / 16
    }

    fn asked(&self, contender: &Contender) -> Answer<Sheet> {
        (contender.call)(black_box(&self.sheets), self.count() as u64, self.boat, self.newest.edition)
    }

    /// Fails unless all contenders tell the same of damage: side, filler and edition of one record, the first byte of each. The
    /// record stands so early that as many boats as sheets do not take long.
    fn agree_on_damage(&mut self) {
        let number = self.count() / 10;
        for byte in [8, 9, 4] {
            self.sheets[16 * number + byte] ^= 2;
            for contender in &CONTENDERS {
                assert_eq!(self.asked(contender), Answer::refused(20, number as u64), "{}", contender.name);
            }
            self.sheets[16 * number + byte] ^= 2;
        }
    }
}

struct Contender {
    name: &'static str,
    call: fn(&[u8], u64, u32, u32) -> Answer<Sheet>,
}

const CONTENDERS: [Contender; 3] =
    [Contender { name: "ask", call: ask }, Contender { name: "hash", call: hash }, Contender { name: "c", call: c }];

#[inline(never)]
fn ask(sheets: &[u8], count: u64, boat: u32, edition: u32) -> Answer<Sheet> {
    match hromulice::ask_mount(sheets, count, boat, edition) {
        Ok(Mount { edition, side }) => Answer::accepted(Sheet { edition, side: side.number() }),
        Err(Refusal { reason, place }) => Answer::refused(reason.number(), place),
    }
}

#[inline(never)]
fn hash(sheets: &[u8], count: u64, boat: u32, edition: u32) -> Answer<Sheet> {
    by_map(sheets, count, boat, edition)
}

#[inline(never)]
fn c(sheets: &[u8], count: u64, boat: u32, edition: u32) -> Answer<Sheet> {
    in_c(sheets, count, boat, edition)
}

/// Books of one sort, the least time of each contender for all of them in seconds, and how long all runs took.
struct Sample {
    boats: Boats,
    books: Vec<Book>,
    times: [f64; 3],
    runs: u32,
    taken: f64,
}

impl Sample {
    fn new(boats: Boats, sheets: usize) -> Sample {
        let mut r = Random::new(9);
        let mut books: Vec<Book> = (0..SHEETS / sheets).map(|_| Book::new(&mut r, boats, sheets)).collect();
        books.iter_mut().for_each(Book::agree_on_damage);
        Sample { boats, books, times: [f64::INFINITY; 3], runs: 0, taken: 0.0 }
    }

    /// Runs each contender once, in turn. Fails unless it finds what there is.
    fn round(&mut self) {
        for (time, contender) in self.times.iter_mut().zip(&CONTENDERS) {
            let now = Instant::now();
            for book in &self.books {
                assert_eq!(book.asked(contender), Answer::accepted(book.newest), "{}", contender.name);
            }
            let taken = now.elapsed().as_secs_f64();
            *time = time.min(taken);
            self.taken += taken;
        }
        self.runs += 1;
    }

    fn print(&self) {
        let [ask, hash, c] = self.times;
        print!("{:>10}  {:>10}  {:>5} ", self.books[0].count(), self.boats, self.runs);
        print!("  {:>8.2}  {:>8.2} ", ask / hash, ask / c);
        self.times.iter().for_each(|time| print!(" {:>9.2}", time / SHEETS as f64 * 1e9));
        println!();
    }
}

fn sheets() {
    let sorts = BOATS.into_iter().flat_map(|boats| SIZES.map(|sheets| (boats, sheets)));
    let mut samples: Vec<Sample> = sorts.map(|(boats, sheets)| Sample::new(boats, sheets)).collect();
    for _ in 0..RUNS {
        samples.iter_mut().filter(|sample| sample.taken < SECONDS).for_each(Sample::round);
    }
    println!("Mount sheets: a boat's newest sheet asked for in a book of so many sheets and boats. Ratios of times, and");
    println!("nanoseconds a sheet; the least of so many runs of each, in turn. 'Alike': boats whose numbers agree modulo 509.");
    print!("{:>10}  {:>10}  {:>5}   {:>8}  {:>8} ", "sheets", "boats", "runs", "ask/hash", "ask/c");
    CONTENDERS.iter().for_each(|contender| print!(" {:>9}", contender.name));
    println!();
    samples.iter().for_each(Sample::print);
}

/// On each side.
const SHIFTS: usize = 50_000;

/// Side, x and y.
type Shift = (u32, i16, i16);

fn called((side, x, y): Shift) -> Option<(i16, i16)> {
    hromulice::mount_vector(side, x, y).ok()
}

fn expression((side, x, y): Shift) -> Option<(i16, i16)> {
    match side {
        0 => Some((x, y)),
        1 => x.checked_neg().map(|x| (x, y)),
        _ => None,
    }
}

/// Nanoseconds a shift, the least of RUNS runs.
fn by_shift(shifts: &[Shift], vector: impl Fn(Shift) -> Option<(i16, i16)>) -> f64 {
    let times = (0..RUNS).map(|_| {
        let now = Instant::now();
        for shift in shifts {
            black_box(vector(black_box(*shift)));
        }
        now.elapsed().as_secs_f64()
    });
    times.fold(f64::INFINITY, f64::min) / shifts.len() as f64 * 1e9
}

fn vectors() {
    let mut r = Random::new(9);
    let shift = |n: usize| ((n / SHIFTS) as u32, r.next() as i16, r.next() as i16);
    let shifts: Vec<Shift> = (0..2 * SHIFTS).map(shift).collect();
    assert!(shifts.iter().all(|shift| called(*shift) == expression(*shift)));
    let (call, plain) = (by_shift(&shifts, called), by_shift(&shifts, expression));
    println!("Vectors of {SHIFTS} shifts on starboard and as many on port, the least of {RUNS} runs: {call:.1} nanoseconds a");
    println!("shift by mount_vector, {plain:.1} by the plain expression, which is no call.");
}

pub fn print() {
    sheets();
    vectors();
}
