//! Field prediction beside frame prediction, by vector.

use crate::contenders::{C, CHECK, CONTENDERS, DECODE, PARTS, PLAIN};
use crate::pictures::Picture;
use crate::tables::{measured, SIZES};
use crate::timing::Sample;

/// Those that judge vectors.
const JUDGES: [usize; 5] = [C, PLAIN, CHECK, PARTS, DECODE];

/// What a picture's vectors take, in nanoseconds each.
fn by_vector(picture: &Picture, sample: &Sample) -> Vec<f64> {
    let vectors = f64::from(picture.vectors()) * sample.work.batches.len() as f64;
    JUDGES.iter().map(|n| sample.times[*n] / vectors * 1e9).collect()
}

fn row(what: &str, vectors: &str, figures: impl Iterator<Item = f64>) {
    print!("{what:>15}  {vectors:>7} ");
    figures.for_each(|figure| print!(" {figure:>6.2}"));
    println!();
}

/// A field picture beside two of frame prediction, of one size.
fn size(columns: u32, rows: u32) {
    let pictures = [Picture::new(2, columns, rows), Picture::forward(columns, rows), Picture::field(columns, rows)];
    let samples = measured(&pictures);
    let times: Vec<Vec<f64>> = pictures.iter().zip(&samples).map(|(picture, sample)| by_vector(picture, sample)).collect();
    for (picture, times) in pictures.iter().zip(&times) {
        row(&picture.to_string(), &picture.vectors().to_string(), times.iter().copied());
    }
    for (frame, times_of_frame) in pictures.iter().zip(&times).take(2) {
        let ratios = times[2].iter().zip(times_of_frame).map(|(field, frame)| field / frame);
        row(&format!("field/{}", frame.name()), "", ratios);
    }
}

pub fn print() {
    println!(
        "Field prediction beside frame prediction: nanoseconds a vector, and ratios of them. A field macroblock has two vectors,"
    );
    println!(
        "each other one counts as one. `forward` is a P picture of forward macroblocks alone. As in the first table of pictures."
    );
    print!("{:>15}  {:>7} ", "picture", "vectors");
    JUDGES.iter().for_each(|n| print!(" {:>6}", CONTENDERS[*n].name));
    println!();
    SIZES.iter().for_each(|(columns, rows)| size(*columns, *rows));
}
