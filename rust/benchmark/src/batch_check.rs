//! The checker in C, tests/benchmark/c.

use reference::check::Report;

#[repr(C)]
struct Answer {
    number: u64,
    place: u64,
    lengths: [u64; 4],
    firsts: [u64; 4],
}

extern "C" {
    fn batch_check(words: *const u32, count: usize, lengths: *const u64) -> Answer;
    fn batch_check_up_to(most: usize, words: *const u32, count: usize, lengths: *const u64) -> Answer;
}

impl From<Answer> for Report {
    fn from(answer: Answer) -> Report {
        Report { number: answer.number as u8, place: answer.place, lengths: answer.lengths, firsts: answer.firsts }
    }
}

/// The answer to a batch beside buffers of these lengths.
pub fn check(words: &[u32], buffers: [u64; 4]) -> Report {
    // SAFETY: so many words and four lengths can be read there.
    unsafe { batch_check(words.as_ptr(), words.len(), buffers.as_ptr()) }.into()
}

/// The same with another number in place of 4294967295.
pub fn check_up_to(most: usize, words: &[u32], buffers: [u64; 4]) -> Report {
    // SAFETY: so many words and four lengths can be read there.
    unsafe { batch_check_up_to(most, words.as_ptr(), words.len(), buffers.as_ptr()) }.into()
}
