//! Lists of calls on one book: every call gets the bytes and the count that the last one returned. Answers are held against the
//! second program's, and those for editions that a boat has also against the library's own before.

use crate::compare::{same, Compared};
use crate::mounts::{CompareMounts, Mounts};
use reference::generate::mount_lists::{Call, List};
use reference::generate::mounts::Book;
use reference::mounts::{Answer, Sheet};
use reference::mounts_marks::LIST;
use std::collections::BTreeMap;

/// What one library has returned so far.
struct Returned {
    book: Book,
    /// Its first answer for each edition that it said a boat has.
    held: BTreeMap<(u32, u32), Answer<Sheet>>,
}

impl Returned {
    fn ask(&mut self, library: &mut dyn Mounts, n: usize, asked: (u32, u32), due: Answer<Sheet>) -> Compared {
        let (given, sheets) = library.ask(&self.book.sheets, self.book.count, asked.0, asked.1);
        let question = || format!("{}: call {n}, ask for {asked:?} of {} sheets", library.name(), self.book.count);
        if let Some(before) = self.held.get(&asked) {
            same(|| question() + ", that the boat has", before, &given)?;
        }
        same(question, &(due, &self.book.sheets), &(given, &sheets))?;
        if given.number == 0 && given.value.edition == asked.1 {
            self.held.entry(asked).or_insert(given);
        }
        Ok(())
    }

    fn add(&mut self, library: &mut dyn Mounts, n: usize, added: (u32, u32, u32), due: &(Answer<u64>, Vec<u8>)) -> Compared {
        let given = library.add(&self.book.sheets, self.book.count, added.0, added.1, added.2);
        let question = || format!("{}: call {n}, add {added:?} to {} sheets", library.name(), self.book.count);
        same(question, due, &given)?;
        self.book = Book { count: given.0.value, sheets: given.1 };
        Ok(())
    }
}

/// What the second program has come to: its book, the editions that were found, and the last adding with its number.
struct Course {
    book: Book,
    found: Vec<(u32, u32)>,
    last: Option<(u32, u32, u8)>,
}

impl Course {
    /// What a question about an edition that the boat has reaches.
    fn marks(&mut self, asked: (u32, u32), due: Answer<Sheet>) -> Vec<&'static str> {
        let Some((boat, edition, number)) = self.last else { return vec![] };
        if due.number != 0 || due.value.edition != asked.1 {
            return vec![];
        }
        if !self.found.contains(&asked) {
            self.found.push(asked);
            return if (boat, edition, number) == (asked.0, asked.1, 0) { vec![LIST[3]] } else { vec![] };
        }
        vec![LIST[if number != 0 { 2 } else { usize::from(boat != asked.0) }]]
    }
}

impl CompareMounts {
    pub fn list(&mut self, list: &List) -> Compared {
        let mut course = Course { book: list.book.clone(), found: vec![], last: None };
        let begin = || Returned { book: list.book.clone(), held: BTreeMap::new() };
        let mut returned: Vec<Returned> = self.asked.iter().map(|_| begin()).collect();
        for (n, call) in list.calls.iter().enumerate() {
            match *call {
                Call::Ask { boat, edition } => {
                    let due = self.ask_due(&course.book.sheets, course.book.count, (boat, edition));
                    self.reached.count("list", course.marks((boat, edition), due));
                    for (library, returned) in self.asked.iter_mut().zip(&mut returned) {
                        returned.ask(library.as_mut(), n, (boat, edition), due)?;
                    }
                }
                Call::Add { boat, edition, side } => {
                    let due = self.add_due(&course.book.sheets, course.book.count, (boat, edition, side));
                    for (library, returned) in self.asked.iter_mut().zip(&mut returned) {
                        returned.add(library.as_mut(), n, (boat, edition, side), &due)?;
                    }
                    course.last = Some((boat, edition, due.0.number));
                    course.book = Book { count: due.0.value, sheets: due.1 };
                }
            }
        }
        Ok(())
    }
}

#[cfg(test)]
mod tests {
    use super::*;
    use reference::mounts::Record;

    /// Answers every question with another side than the last one.
    struct Turning(u8);

    impl Mounts for Turning {
        fn name(&self) -> &'static str {
            "turning"
        }

        fn ask(&mut self, sheets: &[u8], _: u64, _: u32, edition: u32) -> (Answer<Sheet>, Vec<u8>) {
            self.0 ^= 1;
            (Answer::accepted(Sheet { edition, side: self.0 }), sheets.to_vec())
        }

        fn add(&mut self, _: &[u8], _: u64, _: u32, _: u32, _: u32) -> (Answer<u64>, Vec<u8>) {
            unreachable!("nothing is added")
        }

        fn vector(&mut self, _: u32, _: i16, _: i16) -> Answer<(i16, i16)> {
            unreachable!("no vector is asked for")
        }
    }

    /// An answer that has changed is seen, even where the second program's had changed in the same way.
    #[test]
    fn changed_answers() {
        let book = Book { sheets: Record::new(7, 1, 1).bytes().to_vec(), count: 1 };
        let mut returned = Returned { book, held: BTreeMap::new() };
        let mut library = Turning(0);
        let due = |side: u8| Answer::accepted(Sheet { edition: 1, side });
        returned.ask(&mut library, 0, (7, 1), due(1)).unwrap();
        assert!(returned.ask(&mut library, 1, (7, 1), due(0)).is_err());
        returned.ask(&mut library, 2, (7, 1), due(1)).unwrap();
        assert!(returned.ask(&mut library, 3, (8, 1), due(1)).is_err());
    }
}
