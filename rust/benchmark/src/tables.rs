//! The tables of speeds and ratios over whole pictures.

use crate::contenders::{C, CHECK, CONTENDERS, DECODE, PARTS, PLAIN, SUM};
use crate::pictures::Picture;
use crate::timing::{measure, Caches, Sample};

/// Columns and rows, in macroblocks: 720 by 576, 1920 by 1088 and 4096 by 2800 samples.
pub const SIZES: [(u32, u32); 3] = [(45, 36), (120, 68), (256, 175)];

/// Chroma begins in row 32, with a row of tiles, and in row 48, within one: there a luma byte can be the highest.
const LOW_SIZES: [(u32, u32); 2] = [(120, 2), (120, 3)];

/// The f code of far vectors: from −4096 to 4095 half samples.
const FAR: u32 = 9;

const ROUNDS: u32 = 100;
const CLEARED_ROUNDS: u32 = 10;

/// Of two contenders' times.
const RATIOS: [(&str, usize, usize); 7] = [
    ("check/c", CHECK, C),
    ("check/plain", CHECK, PLAIN),
    ("parts/check", PARTS, CHECK),
    ("decode/check", DECODE, CHECK),
    ("plain/c", PLAIN, C),
    ("c/sum", C, SUM),
    ("check/sum", CHECK, SUM),
];

/// Pictures of each sort in these sizes.
fn pictures<const N: usize>(sizes: [(u32, u32); N]) -> Vec<Picture> {
    (0..4).flat_map(|sort| sizes.map(|(columns, rows)| Picture::all(columns, rows)[sort])).collect()
}

/// Their times.
pub fn measured(pictures: &[Picture]) -> Vec<Sample> {
    let mut samples: Vec<Sample> = pictures.iter().map(|picture| Sample::new(picture.several(), &CONTENDERS)).collect();
    measure(&mut samples, ROUNDS, || {});
    samples
}

/// Pictures that are not like most.
fn print_others() {
    let low = pictures(LOW_SIZES);
    println!();
    println!("Low pictures, as in the first table. With three rows of macroblocks a luma byte can be the highest.");
    table(&low, &measured(&low));

    let predicted = pictures(SIZES).into_iter().filter(|picture| picture.coding != 1);
    let far: Vec<Picture> = predicted.map(|picture| Picture { f_code: FAR, ..picture }).collect();
    println!();
    println!("Far vectors, as in the first table, with f code {FAR}: a block may start nearly anywhere in the picture.");
    table(&far, &measured(&far));
}

pub fn print() {
    let pictures = pictures(SIZES);
    let samples = measured(&pictures);
    println!("Pictures: millions of words a second, and ratios of times; the least of {} runs of each, in turn.", 2 * ROUNDS);
    println!("Buffers not cleared first: the words and the log are in memory and in what cache holds them from the run before.");
    table(&pictures, &samples);
    growth(&pictures, &samples);

    let pictures: Vec<Picture> = pictures.into_iter().skip(SIZES.len() - 1).step_by(SIZES.len()).collect();
    let mut samples: Vec<Sample> = samples.into_iter().skip(SIZES.len() - 1).step_by(SIZES.len()).collect();
    samples.iter_mut().for_each(Sample::reset);
    let mut caches = Caches::default();
    measure(&mut samples, CLEARED_ROUNDS, || caches.clear());
    println!();
    println!("The same with the caches cleared before each run, the least of {} runs.", 2 * CLEARED_ROUNDS);
    table(&pictures, &samples);
    print_others();
}

fn table(pictures: &[Picture], samples: &[Sample]) {
    print!("{:>13}  {:>7} ", "picture", "words");
    CONTENDERS.iter().for_each(|contender| print!(" {:>6}", contender.name));
    print!(" ");
    RATIOS.iter().for_each(|(name, ..)| print!("  {name:>12}"));
    println!();
    for (picture, sample) in pictures.iter().zip(samples) {
        print!("{:>13}  {:>7} ", picture.to_string(), sample.work.batches[0].len());
        sample.times.iter().for_each(|time| print!(" {:>6.0}", sample.words() as f64 / time / 1e6));
        print!(" ");
        RATIOS.iter().for_each(|(_, above, below)| print!("  {:>12.2}", sample.times[*above] / sample.times[*below]));
        println!();
    }
}

/// Time by word at each size: the same at all of them if the time grows as the words do.
fn growth(pictures: &[Picture], samples: &[Sample]) {
    println!();
    println!("Growth: nanoseconds a word at the three sizes, and the last divided by the first.");
    for n in [C, CHECK, PARTS, DECODE] {
        for (picture, of_type) in pictures.iter().step_by(SIZES.len()).zip(samples.chunks(SIZES.len())) {
            let by_word: Vec<f64> = of_type.iter().map(|sample| sample.times[n] / sample.words() as f64 * 1e9).collect();
            let shown: Vec<String> = by_word.iter().map(|ns| format!("{ns:6.3}")).collect();
            println!("{:>10} {:>5}  {}  {:.2}", CONTENDERS[n].name, picture.name(), shown.join(" "), by_word[2] / by_word[0]);
        }
    }
}
