//! Number 27: more words than are judged. The words are zero pages, which take no memory until they are written.

use crate::compare::{Compared, Mismatch};
use crate::interface::{check_in_place, check_parts_in_place};
use crate::program::run_with;
use reference::batch_document::p1;
use reference::check::line;
use reference::program::{answer_to, bytes_of};
use std::io::Write;
use std::path::Path;

const MOST: usize = 4_294_967_295;
const BUFFERS: [u64; 4] = [384, 384, 0, 0];

/// P1 and zero words behind it, all zero but perhaps one, so many words in all, and bytes left over.
struct Long {
    seven: Option<usize>,
    count: usize,
    leftover: usize,
}

const LONG: [Long; 7] = [
    Long { seven: None, count: MOST, leftover: 0 },
    Long { seven: None, count: MOST, leftover: 3 },
    Long { seven: None, count: MOST + 1, leftover: 0 },
    Long { seven: None, count: MOST + 2, leftover: 1 },
    Long { seven: Some(MOST), count: MOST + 1, leftover: 0 },
    Long { seven: Some(MOST - 1), count: MOST, leftover: 0 },
    Long { seven: Some(MOST - 1), count: MOST + 2, leftover: 2 },
];

impl Long {
    fn same(&self, operation: &str, due: String, given: String) -> Compared {
        if due == given {
            return Ok(());
        }
        let Long { seven, count, leftover } = self;
        let question = format!("{operation} of P1 and zeros, {count} words and {leftover} bytes, word {seven:?} is 7");
        Err(Mismatch { question, due, given })
    }

    fn ask(&self, words: &[u32], program: Option<&Path>) -> Compared {
        let due = format!("{:?}", answer_to(words, BUFFERS, 0));
        self.same("check", due.clone(), format!("{:?}", check_in_place(words, BUFFERS)))?;
        self.same("check in parts", due, format!("{:?}", check_parts_in_place(words, BUFFERS, 1_000_000_007)))?;
        let Some(program) = program else { return Ok(()) };
        let due = line(&answer_to(words, BUFFERS, self.leftover)) + "\n";
        let given = run_with(program, |mut pipe| {
            pipe.write_all(&bytes_of(&[], BUFFERS))?;
            for part in words.chunks(1 << 18) {
                pipe.write_all(&part.iter().flat_map(|word| word.to_le_bytes()).collect::<Vec<u8>>())?;
            }
            pipe.write_all(&[0; 3][..self.leftover])
        });
        self.same("program", due, given.unwrap_or_else(|e| e.to_string()))
    }
}

/// Each of them checked whole and in parts, and by the program if it is given. Every answer is held against the second
/// program's, which reads the same words.
pub fn limit(program: Option<&Path>) -> Result<usize, Mismatch> {
    let mut words = vec![0u32; MOST + 2];
    words[..37].copy_from_slice(&p1());
    for long in &LONG {
        words[MOST - 1..].fill(0);
        if let Some(place) = long.seven {
            words[place] = 7;
        }
        long.ask(&words[..long.count], program)?;
    }
    Ok(LONG.len())
}
