//! What libFuzzer calls: a question to the library and the second program (`differential::fuzzing`), and a change of one.

use differential::compare::Compare;
use differential::fuzzing::{ask, words_of};
use reference::batch_valid::once_in;
use reference::generate::batches::damage;
use reference::random::Random;
use std::cell::RefCell;

extern "C" {
    fn LLVMFuzzerMutate(data: *mut u8, size: usize, most: usize) -> usize;
}

thread_local! {
    static COMPARE: RefCell<Compare> = RefCell::default();
}

/// Asks for a record first: the second program reads every command once before it finds one.
///
/// # Safety
/// Nothing is read.
#[no_mangle]
pub unsafe extern "C" fn LLVMFuzzerInitialize(_: *mut i32, _: *mut *mut *mut i8) -> i32 {
    assert_eq!(reference::record::command_of(&[0; 24]), Err(8));
    0
}

/// Asks, and aborts on an answer that is not the one due.
///
/// # Safety
/// As many bytes are lent as are counted.
#[no_mangle]
pub unsafe extern "C" fn LLVMFuzzerTestOneInput(data: *const u8, size: usize) -> i32 {
    let bytes: &[u8] = if size == 0 { &[] } else { std::slice::from_raw_parts(data, size) };
    let asked = COMPARE.with_borrow_mut(|compare| ask(compare, bytes));
    if let Err(mismatch) = asked {
        eprintln!("mismatch: {}\n  due:   {}\n  given: {}", mismatch.question, mismatch.due, mismatch.given);
        std::process::abort();
    }
    0
}

/// Words of a batch are changed as words, half of the time; all else as libFuzzer changes bytes.
///
/// # Safety
/// `most` bytes are lent, and the first `size` of them are the question.
#[no_mangle]
pub unsafe extern "C" fn LLVMFuzzerCustomMutator(data: *mut u8, size: usize, most: usize, seed: u32) -> usize {
    let mut r = Random::new(seed.into());
    if size < 8 || *data != 0 || once_in(&mut r, 2) {
        return LLVMFuzzerMutate(data, size, most);
    }
    let bytes = std::slice::from_raw_parts_mut(data, most);
    let mut words = words_of(&bytes[4..size]);
    (0..r.within(1, 3)).for_each(|_| damage(&mut r, &mut words));
    words.truncate((most - 4) / 4);
    for (word, place) in words.iter().zip(bytes[4..].chunks_exact_mut(4)) {
        place.copy_from_slice(&word.to_le_bytes());
    }
    4 + 4 * words.len()
}
