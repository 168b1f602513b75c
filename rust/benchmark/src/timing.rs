//! Times of several contenders on the same batches.

use crate::contenders::{Contender, Work};
use std::hint::black_box;
use std::time::Instant;

/// Batches, and the least time so far, in seconds, of each contender.
pub struct Sample {
    pub work: Work,
    contenders: Vec<Contender>,
    pub times: Vec<f64>,
}

impl Sample {
    /// Fails unless all contenders give the same answers.
    pub fn new(mut work: Work, contenders: &[Contender]) -> Sample {
        work.agree(contenders);
        Sample { work, contenders: contenders.to_vec(), times: vec![f64::INFINITY; contenders.len()] }
    }

    /// Forgets the times.
    pub fn reset(&mut self) {
        self.times.fill(f64::INFINITY);
    }

    /// Runs each contender once, in turn.
    fn round(&mut self, before: &mut impl FnMut()) {
        for (time, contender) in self.times.iter_mut().zip(&self.contenders) {
            before();
            let now = Instant::now();
            self.work.run(contender);
            *time = time.min(now.elapsed().as_secs_f64());
        }
    }

    pub fn words(&self) -> usize {
        self.work.words()
    }
}

/// The least times of so many rounds. A round takes every sample, twice in succession, and in it every contender, so that what
/// else runs on the machine meets all of them.
pub fn measure(samples: &mut [Sample], rounds: u32, mut before: impl FnMut()) {
    for _ in 0..rounds {
        for sample in &mut *samples {
            sample.round(&mut before);
            sample.round(&mut before);
        }
    }
}

/// Memory that is larger than the caches. Going through it puts everything else out of them.
pub struct Caches(Vec<u64>);

impl Default for Caches {
    fn default() -> Caches {
        Caches(vec![1; 16 << 20])
    }
}

impl Caches {
    pub fn clear(&mut self) {
        for line in self.0.chunks_mut(8) {
            line[0] = black_box(line[0].wrapping_add(1));
        }
    }
}
