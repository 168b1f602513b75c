//! One question at a time to the library, each through the C interface and through the Rust crate, held against the answer due.

use crate::interface::{Interface, STATE_WORDS};
use crate::mounts::CompareMounts;
use crate::tally::Tally;
use hromulice::{Check, Lengths, Refusal};
use reference::check::{check, Report};
use reference::command::{read_alone, Answer};
use reference::decode::decode_checked;
use reference::record::write_alone;
use std::fmt::Debug;

/// A question that was answered in another way than is due.
#[derive(Debug)]
pub struct Mismatch {
    pub question: String,
    pub due: String,
    pub given: String,
}

pub type Compared = Result<(), Mismatch>;

pub(crate) fn same<T: PartialEq + Debug>(question: impl Fn() -> String, due: &T, given: &T) -> Compared {
    if due == given {
        return Ok(());
    }
    let [due, given] = shortened(format!("{due:?}"), format!("{given:?}"));
    Err(Mismatch { question: question(), due, given })
}

/// Two texts that differ, long ones from a little before the first difference on.
fn shortened(due: String, given: String) -> [String; 2] {
    let alike = due.bytes().zip(given.bytes()).take_while(|(a, b)| a == b).count();
    let from = if due.len().max(given.len()) < 2000 { 0 } else { alike.saturating_sub(100) };
    [due, given].map(|text| if from == 0 { text } else { format!("[{from} characters alike] {:.400}", &text[from..]) })
}

/// The Rust crate's report in the form of the second program's.
fn report_of(report: hromulice::Report) -> Report {
    let (lengths, firsts) = report.reported().map_or(Default::default(), |of| (of.lengths.into(), of.firsts.into()));
    Report { number: report.number(), place: report.place(), lengths, firsts }
}

fn answer_of(result: Result<(), Refusal>) -> Answer {
    result.map_or_else(|refusal| (refusal.reason.number(), refusal.place as usize), |()| (0, 0))
}

/// Lent memory before a call: no two neighbours equal, and another sequence for another start.
pub fn lent(room: usize, start: u8) -> Vec<u8> {
    (0..room).map(|n| (37 * n) as u8 ^ start).collect()
}

/// Asks the library, and counts what was asked by the number due.
#[derive(Default)]
pub struct Compare {
    interface: Interface,
    pub tally: Tally,
    pub mounts: CompareMounts,
}

impl Compare {
    /// What was handed in is the same as before, and nothing is written in front of what was lent.
    fn untouched<T: Copy + PartialEq>(&mut self, question: impl Fn() -> String, input: &[T]) -> Compared {
        let stands = (self.interface.input_stands(input), self.interface.fences_stand());
        same(|| question() + ": input and fence unchanged", &(true, true), &stands)
    }

    /// The whole batch.
    pub fn whole(&mut self, words: &[u32], buffers: [u64; 4], due: Report) -> Compared {
        self.tally.count("whole", due.number);
        let question = || format!("check beside {buffers:?}");
        same(question, &due, &self.interface.check(words, buffers))?;
        self.untouched(question, words)?;
        same(|| question() + ", Rust crate", &due, &report_of(hromulice::check(words, Lengths::from(buffers))))
    }

    /// The batch in parts, in a state that held anything before. A part is its length, and whether the answer to what came
    /// before it is asked. At the end it is asked in any case.
    pub fn parts(&mut self, words: &[u32], buffers: [u64; 4], parts: &[(usize, bool)], before: u64, due: Report) -> Compared {
        self.interface.begin(buffers, before);
        let mut rust = Check::new(Lengths::from(buffers));
        let mut at = 0;
        for (n, (length, asked)) in parts.iter().enumerate() {
            let question = || format!("check beside {buffers:?} before part {n} of {parts:?}");
            if *asked {
                self.answer_in_parts(question, &rust, check(&words[..at], buffers))?;
            }
            let part = &words[at..at + length];
            self.interface.hand_over(part);
            rust.hand_over(part);
            self.untouched(question, part)?;
            at += length;
        }
        assert_eq!(at, words.len());
        self.answer_in_parts(|| format!("check beside {buffers:?} in the parts {parts:?}"), &rust, due)
    }

    fn answer_in_parts(&mut self, question: impl Fn() -> String, rust: &Check, due: Report) -> Compared {
        self.tally.count("parts", due.number);
        let (given, state_stands) = self.interface.report();
        same(&question, &(due, true), &(given, state_stands))?;
        same(|| question() + ", Rust crate", &due, &report_of(rust.report()))
    }

    /// A state that anyone filled is taken, and one more part. What such a state stands for is the library's, so that no answer
    /// is due; but there is one, the part and the state are as before, and nothing else is written.
    pub fn any_state(&mut self, state: &[u64; STATE_WORDS], part: &[u32]) -> Compared {
        self.interface.take_state(state);
        self.interface.hand_over(part);
        self.untouched(|| "any state".into(), part)?;
        let (_, state_stands) = self.interface.report();
        same(|| "any state, asked for its answer".into(), &(true, true), &(state_stands, self.interface.fences_stand()))
    }

    /// The batch decoded to a log of so much room, where its check is due to answer `checked`.
    pub fn decoded(&mut self, words: &[u32], buffers: [u64; 4], room: usize, checked: Report) -> Compared {
        let question = || format!("decode beside {buffers:?} with {room} bytes");
        let before = lent(room, words.len() as u8);
        let mut log = before.clone();
        let due = (decode_checked(checked, words, &mut log), log);
        self.tally.count("decoding", due.0.number);
        same(question, &due, &self.interface.decode(words, buffers, &before))?;
        self.untouched(question, words)?;
        let mut log = before;
        let given = report_of(hromulice::decode(words, Lengths::from(buffers), &mut log));
        same(|| question() + ", Rust crate", &due, &(given, log))
    }

    /// One command read alone to so many bytes.
    pub fn command(&mut self, words: &[u32], room: usize) -> Compared {
        let question = || format!("read a command with {room} bytes");
        let before = lent(room, words.len() as u8);
        let mut record = before.clone();
        let due = (read_alone(words, &mut record), record);
        self.tally.count("command", due.0 .0);
        same(question, &due, &self.interface.read_command(words, &before))?;
        self.untouched(question, words)?;
        let mut record = before;
        let given = answer_of(hromulice::read_command(words, &mut record));
        same(|| question() + ", Rust crate", &due, &(given, record))
    }

    /// One record written alone to so many words.
    pub fn record(&mut self, bytes: &[u8], room: usize) -> Compared {
        let question = || format!("write a record with {room} words");
        let word = |byte: u8| u32::from_le_bytes([byte, !byte, byte ^ 0x55, byte]);
        let before: Vec<u32> = lent(room, bytes.len() as u8).into_iter().map(word).collect();
        let mut command = before.clone();
        let due = (write_alone(bytes, &mut command), command);
        self.tally.count("record", due.0 .0);
        same(question, &due, &self.interface.write_command(bytes, &before))?;
        self.untouched(question, bytes)?;
        let mut command = before;
        let given = answer_of(hromulice::write_command(bytes, &mut command));
        same(|| question() + ", Rust crate", &due, &(given, command))
    }
}
