//! Questions about mount sheets, one at a time to the library through the C interface and through the Rust crate, each held
//! against the second program's answer.

use crate::compare::{same, Compared};
use crate::interface::{mount_vector, Interface};
use crate::tally::Tally;
use hromulice::Refusal;
use reference::mounts::{self, Answer, Sheet};
use reference::mounts_marks::Reached;
use reference::mounts_reached::{of_adding, of_asking, of_vector};

/// What answers about mount sheets. Each call that lends bytes gives them back as they are afterwards.
pub trait Mounts {
    fn name(&self) -> &'static str;

    fn ask(&mut self, sheets: &[u8], count: u64, boat: u32, edition: u32) -> (Answer<Sheet>, Vec<u8>);

    fn add(&mut self, sheets: &[u8], count: u64, boat: u32, edition: u32, side: u32) -> (Answer<u64>, Vec<u8>);

    fn vector(&mut self, side: u32, x: i16, y: i16) -> Answer<(i16, i16)>;

    /// Whether nothing was written in front of what was lent.
    fn fences_stand(&mut self) -> bool {
        true
    }
}

#[derive(Default)]
struct ThroughC(Interface);

impl Mounts for ThroughC {
    fn name(&self) -> &'static str {
        "C interface"
    }

    fn ask(&mut self, sheets: &[u8], count: u64, boat: u32, edition: u32) -> (Answer<Sheet>, Vec<u8>) {
        self.0.ask_mount(sheets, count, boat, edition)
    }

    fn add(&mut self, sheets: &[u8], count: u64, boat: u32, edition: u32, side: u32) -> (Answer<u64>, Vec<u8>) {
        self.0.add_mount(sheets, count, boat, edition, side)
    }

    fn vector(&mut self, side: u32, x: i16, y: i16) -> Answer<(i16, i16)> {
        mount_vector(side, x, y)
    }

    fn fences_stand(&mut self) -> bool {
        self.0.fences_stand()
    }
}

struct ThroughRust;

fn answer_of<T>(result: Result<T, Refusal>, beside_refusal: T) -> Answer<T> {
    match result {
        Ok(value) => Answer::accepted(value),
        Err(Refusal { reason, place }) => Answer { number: reason.number(), place, value: beside_refusal },
    }
}

impl Mounts for ThroughRust {
    fn name(&self) -> &'static str {
        "Rust crate"
    }

    fn ask(&mut self, sheets: &[u8], count: u64, boat: u32, edition: u32) -> (Answer<Sheet>, Vec<u8>) {
        let given = hromulice::ask_mount(sheets, count, boat, edition);
        let sheet = given.map(|mount| Sheet { edition: mount.edition, side: mount.side.number() });
        (answer_of(sheet, Sheet::default()), sheets.to_vec())
    }

    /// A refusal has no count here, so that the one handed in stays.
    fn add(&mut self, sheets: &[u8], count: u64, boat: u32, edition: u32, side: u32) -> (Answer<u64>, Vec<u8>) {
        let mut lent = sheets.to_vec();
        (answer_of(hromulice::add_mount(&mut lent, count, boat, edition, side), count), lent)
    }

    fn vector(&mut self, side: u32, x: i16, y: i16) -> Answer<(i16, i16)> {
        answer_of(hromulice::mount_vector(side, x, y), (0, 0))
    }
}

/// Asks all of them, and counts what was asked by the number due and by what it reached.
pub struct CompareMounts {
    pub(crate) asked: Vec<Box<dyn Mounts>>,
    pub tally: Tally,
    pub reached: Reached,
}

impl Default for CompareMounts {
    fn default() -> CompareMounts {
        let asked: Vec<Box<dyn Mounts>> = vec![Box::new(ThroughC::default()), Box::new(ThroughRust)];
        CompareMounts { asked, ..CompareMounts::of(ThroughRust) }
    }
}

impl CompareMounts {
    /// With something else to ask in place of the library.
    pub fn of(other: impl Mounts + 'static) -> CompareMounts {
        CompareMounts { asked: vec![Box::new(other)], tally: Tally::of_mounts(), reached: Reached::default() }
    }

    /// What is due for an asking, counted. The bytes stay.
    pub(crate) fn ask_due(&mut self, sheets: &[u8], count: u64, (boat, edition): (u32, u32)) -> Answer<Sheet> {
        let due = mounts::ask(sheets, count, boat, edition);
        self.tally.count("ask", due.number);
        self.reached.count("ask", of_asking(sheets, count, (boat, edition), due));
        due
    }

    /// What is due for an adding, counted, and the bytes due afterwards.
    pub(crate) fn add_due(&mut self, sheets: &[u8], count: u64, added: (u32, u32, u32)) -> (Answer<u64>, Vec<u8>) {
        let mut lent = sheets.to_vec();
        let due = mounts::add(&mut lent, count, added.0, added.1, added.2);
        self.tally.count("add", due.number);
        self.reached.count("add", of_adding(sheets, count, added, due));
        (due, lent)
    }

    pub fn ask(&mut self, sheets: &[u8], count: u64, (boat, edition): (u32, u32)) -> Compared {
        let due = (self.ask_due(sheets, count, (boat, edition)), sheets.to_vec());
        for library in &mut self.asked {
            let (given, stands) = (library.ask(sheets, count, boat, edition), library.fences_stand());
            let question = || format!("{}: of {count} sheets ask for boat {boat}, edition {edition}", library.name());
            same(question, &(&due, true), &(&given, stands))?;
        }
        Ok(())
    }

    pub fn add(&mut self, sheets: &[u8], count: u64, (boat, edition, side): (u32, u32, u32)) -> Compared {
        let due = self.add_due(sheets, count, (boat, edition, side));
        for library in &mut self.asked {
            let (given, stands) = (library.add(sheets, count, boat, edition, side), library.fences_stand());
            let question = || format!("{}: to {count} sheets add boat {boat}, edition {edition}, side {side}", library.name());
            same(question, &(&due, true), &(&given, stands))?;
        }
        Ok(())
    }

    pub fn vector(&mut self, side: u32, x: i16, y: i16) -> Compared {
        let due = mounts::vector(side, x, y);
        self.tally.count("vector", due.number);
        self.reached.count("vector", of_vector((side, x, y), due));
        for library in &mut self.asked {
            let given = library.vector(side, x, y);
            same(|| format!("{}: vector of ({x}, {y}) on side {side}", library.name()), &due, &given)?;
        }
        Ok(())
    }
}
