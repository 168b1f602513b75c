//! Writes questions to begin with: `corpus DIR COUNT SEED` writes COUNT files of at most 4096 bytes.

use differential::fuzzing::seed;
use reference::generate::batches::Batches;
use reference::random::Random;
use std::path::Path;

fn main() -> std::io::Result<()> {
    let words: Vec<String> = std::env::args().skip(1).collect();
    let [dir, count, first] = &words[..] else { panic!("usage: corpus DIR COUNT SEED") };
    let (mut r, batches) = (Random::new(first.parse().expect("a seed")), Batches::default());
    let mut written = 0;
    while written < count.parse().expect("a count") {
        let question = seed(&mut r, &batches);
        if question.len() <= 4096 {
            std::fs::write(Path::new(dir).join(format!("seed-{written:05}")), question)?;
            written += 1;
        }
    }
    Ok(())
}
