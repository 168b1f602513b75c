//! Any bytes as a question, for coverage-guided fuzzing:
//!
//!     0    operation: 0 a batch whole, in parts and decoded, 1 a command, 2 a record, 3 a state of any content, 4 mount sheets
//!     1    the room that is lent, or how many mount sheets are counted
//!     2    the lengths beside a batch
//!     3    how a batch is parted
//!     4..  the words, little-endian (of a record its bytes, of a state its 128 64-bit words and then a part; before mount sheets
//!          boat, edition and side)

use crate::compare::{Compare, Compared};
use crate::interface::{Interface, STATE_WORDS};
use reference::batch_valid::once_in;
use reference::check::{beside, judge, lengths_of};
use reference::decode::log_bytes;
use reference::generate::batches::Batches;
use reference::generate::{input, mounts, single};
use reference::random::Random;

pub const OPERATIONS: u8 = 5;

pub fn words_of(bytes: &[u8]) -> Vec<u32> {
    bytes.chunks_exact(4).map(|word| u32::from_le_bytes(word.try_into().unwrap())).collect()
}

fn bytes_of(words: &[u32]) -> Vec<u8> {
    words.iter().flat_map(|word| word.to_le_bytes()).collect()
}

/// Lengths as needed; a byte, or all of it, too short in some of the buffers; or all as long as can be.
fn lengths(exact: [u64; 4], choice: u8) -> [u64; 4] {
    let chosen = |n: usize| choice >> (2 + n) & 1 == 1;
    let length = |n: usize| match choice % 4 {
        1 => u64::MAX,
        2 if chosen(n) => exact[n].saturating_sub(1),
        3 if chosen(n) => 0,
        _ => exact[n],
    };
    [0, 1, 2, 3].map(length)
}

fn ask_batch(compare: &mut Compare, [room, buffers, parting]: [u8; 3], words: &[u32]) -> Compared {
    let judged = judge(words);
    let buffers = lengths(judged.map_or([384; 4], lengths_of), buffers);
    let due = beside(judged, buffers);
    compare.whole(words, buffers, due)?;
    let mut r = Random::new(parting.into());
    let parts = input::parts(&mut r, words.len());
    let one_in = parts.len() as i64 + 1;
    let parts: Vec<(usize, bool)> = parts.into_iter().map(|length| (length, once_in(&mut r, one_in))).collect();
    compare.parts(words, buffers, &parts, r.next(), due)?;
    let needed = log_bytes(words).unwrap_or(24);
    let room = match room % 4 {
        0 => needed,
        1 => needed - 1,
        2 => needed + usize::from(room / 4),
        _ => usize::from(room / 4),
    };
    compare.decoded(words, buffers, room, due)
}

/// Asks for a sheet and adds one, with as many sheets as the bytes hold, some fewer or some more.
fn ask_mounts(compare: &mut Compare, counted: u8, bytes: &[u8]) -> Compared {
    let Some((question, sheets)) = bytes.split_first_chunk::<12>() else { return Ok(()) };
    let [boat, edition, side] = words_of(question)[..] else { unreachable!("12 bytes are three words") };
    let (held, step) = (sheets.len() as u64 / 16, u64::from(counted / 4));
    let count = match counted % 4 {
        0 => held,
        1 => held.saturating_sub(step),
        2 => held + step,
        _ => u64::MAX - step,
    };
    compare.mounts.ask(sheets, count, (boat, edition))?;
    compare.mounts.add(sheets, count, (boat, edition, side))
}

/// Asks the question that these bytes are. Fewer than four are none.
pub fn ask(compare: &mut Compare, bytes: &[u8]) -> Compared {
    let Some(([operation, room, buffers, parting], rest)) = bytes.split_first_chunk() else { return Ok(()) };
    match operation % OPERATIONS {
        0 => ask_batch(compare, [*room, *buffers, *parting], &words_of(rest)),
        1 => compare.command(&words_of(rest), usize::from(room % 64)),
        2 => compare.record(rest, usize::from(room % 16)),
        4 => ask_mounts(compare, *room, rest),
        _ => {
            let mut state = [0; STATE_WORDS];
            let words: Vec<u64> = rest.chunks_exact(8).map(|word| u64::from_le_bytes(word.try_into().unwrap())).collect();
            let filled = words.len().min(STATE_WORDS);
            state[..filled].copy_from_slice(&words[..filled]);
            compare.any_state(&state, &words_of(&rest[8 * filled..]))
        }
    }
}

/// The state after some words of a batch, a few bits of it wrong, and the words that follow.
fn state(r: &mut Random, batches: &Batches) -> Vec<u8> {
    let words = batches.next(r).words;
    let (first, rest) = words.split_at(r.within(0, words.len() as i64) as usize);
    let mut interface = Interface::default();
    interface.begin([u64::MAX; 4], 0);
    interface.hand_over(first);
    let mut state = interface.state();
    for _ in 0..r.within(0, 3) {
        state[r.within(0, STATE_WORDS as i64 - 1) as usize] ^= 1 << r.within(0, 63);
    }
    state.iter().flat_map(|word| word.to_le_bytes()).chain(bytes_of(rest)).collect()
}

/// A question about mount sheets.
fn mount_sheets(r: &mut Random) -> Vec<u8> {
    let book = mounts::book(r);
    let (boat, edition, side) = mounts::addition(r, &book.records());
    [bytes_of(&[boat, edition, side]), book.sheets].concat()
}

/// A generated question, for a fuzzer to begin with.
pub fn seed(r: &mut Random, batches: &Batches) -> Vec<u8> {
    let [room, buffers, parting] = [0; 3].map(|_| r.next() as u8);
    let (operation, rest) = match r.within(0, 15) {
        0 => (1, bytes_of(&single::command(r).0)),
        1 => (2, single::record(r).0),
        2 => (3, state(r, batches)),
        3 => (4, mount_sheets(r)),
        _ => (0, bytes_of(&batches.next(r).words)),
    };
    [vec![operation, room, buffers, parting], rest].concat()
}

#[cfg(test)]
mod tests {
    use super::*;

    /// Generated questions, and any bytes, are asked and answered as is due; each operation comes up.
    #[test]
    fn questions() {
        let (mut r, batches, mut compare) = (Random::new(50), Batches::default(), Compare::default());
        let mut operations = [0; OPERATIONS as usize];
        for n in 0..3000 {
            let mut bytes = seed(&mut r, &batches);
            operations[usize::from(bytes[0])] += 1;
            if n % 2 == 1 {
                bytes.truncate(r.within(0, bytes.len() as i64) as usize);
                bytes.iter_mut().for_each(|byte| *byte ^= u8::from(once_in(&mut r, 200)) << r.within(0, 7));
            }
            ask(&mut compare, &bytes).unwrap();
        }
        assert!(operations.iter().all(|count| *count > 100), "{operations:?}");
    }
}
