//! The table of rules: each broken once or more, by a named change of a batch that keeps them all, with the number and the
//! place that document 01 gives to it, or document 02's R-6.

use crate::batch::Batch;
use crate::batch_cases::Cases;
use crate::command::{Answer, Field};

/// A rule's name, a batch that breaks it or, at (0, 0), goes as far as it allows, and the answer due.
pub struct Named {
    pub name: String,
    pub words: Vec<u32>,
    pub buffers: [u64; 4],
    pub due: Answer,
}

#[derive(Default)]
pub struct Table(pub Vec<Named>);

impl Table {
    /// "13 comes after the whole batch": every second refusal of another number has buffers without a byte.
    pub fn answer(&mut self, name: &str, words: Vec<u32>, due: Answer) {
        let empty = due.0 != 0 && self.0.len().is_multiple_of(2);
        self.beside(name, words, [if empty { 0 } else { u64::MAX }; 4], due);
    }

    pub fn beside(&mut self, name: &str, words: Vec<u32>, buffers: [u64; 4], due: Answer) {
        self.0.push(Named { name: name.into(), words, buffers, due });
    }

    /// The number stands at a word of a command, each counted from 0. What follows the command is not judged, and half of
    /// the batches end there.
    pub fn refused(&mut self, name: &str, batch: &Batch, number: u8, command: usize, word: usize) {
        let mut words = batch.words();
        if self.0.len() % 4 < 2 {
            words.truncate(batch.place(command + 1, 0));
        }
        self.answer(name, words, (number, batch.place(command, word)));
    }

    /// The number stands at the word of which bits are flipped.
    pub fn flip(&mut self, name: &str, base: &Batch, command: usize, word: usize, bits: u32, number: u8) {
        self.refused(name, &base.flipped(command, word, bits), number, command, word);
    }

    /// The number stands at the word of which a field is set.
    pub fn set(&mut self, name: &str, base: &Batch, command: usize, field: Field, value: u32, number: u8) {
        self.refused(name, &base.set(command, field, value), number, command, field.word);
    }

    pub fn passes(&mut self, name: &str, batch: &Batch) {
        self.answer(name, batch.words(), (0, 0));
    }

    /// Passes where the number due is 0, else is refused with it there.
    pub fn due(&mut self, name: &str, batch: &Batch, number: u8, command: usize, word: usize) {
        match number {
            0 => self.passes(name, batch),
            _ => self.refused(name, batch, number, command, word),
        }
    }
}

/// Every part of the table.
pub fn table() -> Vec<Named> {
    let mut table = Table::default();
    crate::rules_sequence::headers(&mut table);
    crate::rules_sequence::sequence(&mut table);
    crate::rules_sequence::ends(&mut table);
    crate::rules_state::surface(&mut table);
    crate::rules_state::picture(&mut table);
    crate::rules_macroblock::words(&mut table);
    crate::rules_macroblock::flags(&mut table);
    crate::rules_macroblock::skips(&mut table);
    crate::rules_vectors::copies(&mut table);
    crate::rules_vectors::limits(&mut table);
    crate::rules_vectors::buffers(&mut table);
    crate::rules_field::pictures(&mut table);
    crate::rules_field::dct_types(&mut table);
    crate::rules_field::types(&mut table);
    crate::rules_field::skips(&mut table);
    crate::rules_field::choices(&mut table);
    crate::rules_field::copies(&mut table);
    crate::rules_field::limits(&mut table);
    table.0
}

pub fn rule_table(cases: &mut Cases) {
    for named in table() {
        let report = cases.push(named.words, named.buffers);
        assert_eq!((report.number, report.place as usize), named.due, "{}", named.name);
    }
}
