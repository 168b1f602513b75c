//! Cases for commands and records one at a time. A case is 52 bytes:
//!
//!     0      sort: 0 header of a word, 1 command read alone, 2 record written alone
//!     1      how many words (sort 1) or bytes (sort 2) are handed in
//!     2      how many bytes (sort 1) or words (sort 2) are lent
//!     3      filler: what each lent byte holds before, four times in a word
//!     4..52  the words (little-endian) or bytes handed in, then zeros; for sort 0 the word, and zeros in 1 to 3

use crate::command::{header, read_alone, Answer};
use crate::command_cases::{commands, headers};
use crate::record::write_alone;
use crate::record_cases::records;
use std::collections::{BTreeSet, HashSet};
use std::path::Path;

pub struct Case {
    sort: u8,
    count: u8,
    room: u8,
    filler: u8,
    input: Vec<u8>,
}

impl Case {
    fn words(&self) -> Vec<u32> {
        self.input.chunks(4).map(|b| u32::from_le_bytes(b.try_into().unwrap())).collect()
    }

    fn bytes(&self) -> [u8; 52] {
        let mut b = [0; 52];
        b[..4].copy_from_slice(&[self.sort, self.count, self.room, self.filler]);
        b[4..4 + self.input.len()].copy_from_slice(&self.input);
        b
    }

    /// Number and place, and the lent memory afterwards in hexadecimal.
    fn answer(&self) -> (Answer, String) {
        if self.sort == 1 {
            let mut lent = vec![self.filler; self.room.into()];
            let answer = read_alone(&self.words(), &mut lent);
            (answer, lent.iter().map(|byte| format!("{byte:02x}")).collect())
        } else {
            let mut lent = vec![u32::from_le_bytes([self.filler; 4]); self.room.into()];
            let answer = write_alone(&self.input, &mut lent);
            (answer, lent.iter().map(|word| format!("{word:08x}")).collect())
        }
    }

    fn line(&self) -> String {
        if self.sort == 0 {
            let word = self.words()[0];
            return match header(word) {
                Some((name, words)) => format!("header {word:08x} {name} {words}\n"),
                None => format!("header {word:08x} none\n"),
            };
        }
        let ((number, place), lent) = self.answer();
        let verb = if self.sort == 1 { "read" } else { "write" };
        format!("{verb} {number} {place} {lent}\n")
    }
}

/// A list without duplicates: no two cases hand in the same with the same room.
#[derive(Default)]
pub struct Cases {
    list: Vec<Case>,
    seen: HashSet<(u8, u8, Vec<u8>)>,
}

impl Cases {
    fn push(&mut self, sort: u8, count: usize, room: u8, input: Vec<u8>) {
        if self.seen.insert((sort, room, input.clone())) {
            let filler = if sort == 0 { 0 } else { [0xa5, 0xff, 0x3c, 0x5a][self.list.len() % 4] };
            self.list.push(Case { sort, count: count as u8, room, filler, input });
        }
    }

    pub fn header(&mut self, word: u32) {
        self.push(0, 0, 0, word.to_le_bytes().into());
    }

    pub fn read_into(&mut self, words: &[u32], room: u8) {
        self.push(1, words.len(), room, words.iter().flat_map(|word| word.to_le_bytes()).collect());
    }

    /// With two bytes to spare, which must stay.
    pub fn read(&mut self, words: &[u32]) {
        self.read_into(words, 26);
    }

    pub fn write_into(&mut self, bytes: &[u8], room: u8) {
        self.push(2, bytes.len(), room, bytes.into());
    }

    /// With one word to spare, which must stay.
    pub fn write(&mut self, bytes: &[u8]) {
        self.write_into(bytes, 10);
    }
}

fn cases() -> Vec<Case> {
    let mut cases = Cases::default();
    headers(&mut cases);
    commands(&mut cases);
    records(&mut cases);
    cases.list
}

pub fn write(dir: &Path) -> std::io::Result<()> {
    let cases = cases();
    let lines = cases.iter().map(Case::line).collect();
    crate::store(dir, cases.iter().flat_map(Case::bytes).collect(), lines)
}

/// Document 01's numbers and places for one command read alone. Word 2 has no rule when it is read alone.
pub fn read_answers() -> BTreeSet<Answer> {
    let words_run_out = (0..9).map(|place| (1, place));
    let copies = (5..9).map(|place| (8, place));
    let rest = [(0, 0), (2, 0), (4, 1), (4, 3), (4, 4), (5, 1), (5, 3), (5, 4), (11, 1), (14, 24)];
    words_run_out.chain(copies).chain(rest).collect()
}

/// The same for one record written alone. Column, row, word 1's upper half and the sizes (0 to 5, 9, 10) are free.
pub fn write_answers() -> BTreeSet<Answer> {
    let bad_bytes = [0, 6, 7, 8].into_iter().chain(11..24).map(|place| (15, place));
    bad_bytes.chain([(0, 0), (14, 9)]).collect()
}

#[cfg(test)]
mod tests {
    use super::*;
    use crate::command::COMMANDS;
    use crate::command_cases::P1;

    #[test]
    fn every_number_at_every_place() {
        let cases = cases();
        let of = |sort: u8| cases.iter().filter(|c| c.sort == sort).map(|c| c.answer().0).collect::<BTreeSet<_>>();
        assert_eq!(of(1), read_answers());
        assert_eq!(of(2), write_answers());
        for (word, ..) in COMMANDS {
            assert!(cases.iter().any(|c| c.sort == 0 && c.words()[0] == word));
        }
    }

    /// "No refusal writes into lent memory", and an acceptance writes 24 bytes or nine words.
    #[test]
    fn lent_memory() {
        for c in cases().iter().filter(|c| c.sort != 0) {
            let ((number, _), lent) = c.answer();
            let (unit, written) = if c.sort == 1 { (2, 48) } else { (8, 72) };
            let before = format!("{:02x}", c.filler).repeat(unit / 2 * usize::from(c.room));
            let from = if number == 0 { written } else { 0 };
            assert_eq!(lent[from..], before[from..]);
        }
    }

    #[test]
    fn form_of_the_cases() {
        let cases = cases();
        let different: HashSet<[u8; 52]> = cases.iter().map(Case::bytes).collect();
        assert_eq!(different.len(), cases.len());
        assert!((4000..=5680).contains(&cases.len()), "{}", cases.len());
        for c in &cases {
            let (counts, rooms, unit) = [(0..=0, 0..=0, 0), (0..=12, 0..=32, 4), (0..=40, 0..=12, 1)][c.sort as usize].clone();
            assert!(counts.contains(&c.count) && rooms.contains(&c.room));
            assert!(c.sort == 0 || c.input.len() == unit * usize::from(c.count));
        }
    }

    #[test]
    fn lines() {
        let mut cases = Cases::default();
        for word in [0x7349_0007, 0x7000_0003, 1] {
            cases.header(word);
        }
        cases.read_into(&P1, 24);
        cases.read_into(&P1, 0);
        cases.write_into(&[0; 24], 1);
        let due = [
            "header 73490007 MACROBLOCK 9\n",
            "header 70000003 carried 5\n",
            "header 00000001 none\n",
            "read 0 0 00000000000000003f0000010f0000000000000000000000\n",
            "read 14 24 \n",
            "write 15 8 ffffffff\n",
        ];
        assert!(cases.list.iter().map(Case::line).eq(due));
    }
}
