//! The C interface, called as a C program calls it: pointers and counts, structs by value, and a state that the caller lends.

use crate::lent::Lent;
use hromulice as _;
use reference::check::Report;
use reference::command::Answer;
use reference::mounts::{self, Sheet};

#[repr(C)]
struct CLengths {
    source: u64,
    reconstructed: u64,
    forward: u64,
    backward: u64,
}

#[repr(C)]
struct CReport {
    number: u8,
    place: u64,
    lengths: CLengths,
    firsts: CLengths,
}

#[repr(C)]
struct CAnswer {
    number: u8,
    place: u64,
}

#[repr(C)]
struct CMount {
    number: u8,
    place: u64,
    edition: u32,
    side: u8,
}

#[repr(C)]
struct CMounts {
    number: u8,
    place: u64,
    count: u64,
}

#[repr(C)]
struct CShift {
    number: u8,
    place: u64,
    x: i16,
    y: i16,
}

/// The words of a state.
pub const STATE_WORDS: usize = 128;

extern "C" {
    fn hromulice_check(words: *const u32, count: usize, lengths: CLengths) -> CReport;
    fn hromulice_decode(words: *const u32, count: usize, lengths: CLengths, log: *mut u8, bytes: usize) -> CReport;
    fn hromulice_read_command(words: *const u32, count: usize, record: *mut u8, bytes: usize) -> CAnswer;
    fn hromulice_write_command(record: *const u8, bytes: usize, words: *mut u32, count: usize) -> CAnswer;
    fn hromulice_begin(lengths: CLengths, state: *mut u64);
    fn hromulice_hand_over(state: *mut u64, part: *const u32, count: usize);
    fn hromulice_report_of(state: *const u64) -> CReport;
    fn hromulice_ask_mount(sheets: *const u8, bytes: usize, count: u64, boat: u32, edition: u32) -> CMount;
    fn hromulice_add_mount(sheets: *mut u8, bytes: usize, count: u64, boat: u32, edition: u32, side: u32) -> CMounts;
    fn hromulice_mount_vector(side: u32, x: i16, y: i16) -> CShift;
}

fn lengths([source, reconstructed, forward, backward]: [u64; 4]) -> CLengths {
    CLengths { source, reconstructed, forward, backward }
}

fn numbers(CLengths { source, reconstructed, forward, backward }: CLengths) -> [u64; 4] {
    [source, reconstructed, forward, backward]
}

fn report(CReport { number, place, lengths, firsts }: CReport) -> Report {
    Report { number, place, lengths: numbers(lengths), firsts: numbers(firsts) }
}

fn answer(of: CAnswer) -> Answer {
    (of.number, of.place as usize)
}

/// The check of words where they stand.
pub fn check_in_place(words: &[u32], buffers: [u64; 4]) -> Report {
    // SAFETY: the words are lent for the call and only read.
    report(unsafe { hromulice_check(words.as_ptr(), words.len(), lengths(buffers)) })
}

/// The check of words where they stand, in parts of so many words.
pub fn check_parts_in_place(words: &[u32], buffers: [u64; 4], part: usize) -> Report {
    let mut state = [0; STATE_WORDS];
    // SAFETY: a whole state is lent, and the words for each call.
    unsafe {
        hromulice_begin(lengths(buffers), state.as_mut_ptr());
        words.chunks(part).for_each(|part| hromulice_hand_over(state.as_mut_ptr(), part.as_ptr(), part.len()));
        report(hromulice_report_of(state.as_ptr()))
    }
}

/// The vector of a measured shift.
pub fn mount_vector(side: u32, x: i16, y: i16) -> mounts::Answer<(i16, i16)> {
    // SAFETY: nothing is lent.
    let CShift { number, place, x, y } = unsafe { hromulice_mount_vector(side, x, y) };
    mounts::Answer { number, place, value: (x, y) }
}

/// The library's functions, and the memory that is lent to them: each call gets copies that end at a closed page.
#[derive(Default)]
pub struct Interface {
    input: Lent,
    output: Lent,
    /// The state of a check in parts, and where it was before the last call.
    state: Lent,
    moved_from: Lent,
}

impl Interface {
    pub fn check(&mut self, words: &[u32], buffers: [u64; 4]) -> Report {
        let input = self.input.lend(words);
        // SAFETY: as many words are lent as are counted.
        report(unsafe { hromulice_check(input, words.len(), lengths(buffers)) })
    }

    /// The report, and the lent log afterwards.
    pub fn decode(&mut self, words: &[u32], buffers: [u64; 4], log: &[u8]) -> (Report, Vec<u8>) {
        let (input, output) = (self.input.lend(words), self.output.lend(log));
        // SAFETY: as many words and bytes are lent as are counted.
        let of = unsafe { hromulice_decode(input, words.len(), lengths(buffers), output, log.len()) };
        (report(of), self.output.now())
    }

    /// The answer, and the lent bytes afterwards.
    pub fn read_command(&mut self, words: &[u32], record: &[u8]) -> (Answer, Vec<u8>) {
        let (input, output) = (self.input.lend(words), self.output.lend(record));
        // SAFETY: as many words and bytes are lent as are counted.
        let of = unsafe { hromulice_read_command(input, words.len(), output, record.len()) };
        (answer(of), self.output.now())
    }

    /// The answer, and the lent words afterwards.
    pub fn write_command(&mut self, record: &[u8], words: &[u32]) -> (Answer, Vec<u32>) {
        let (input, output) = (self.input.lend(record), self.output.lend(words));
        // SAFETY: as many bytes and words are lent as are counted.
        let of = unsafe { hromulice_write_command(input, record.len(), output, words.len()) };
        (answer(of), self.output.now())
    }

    /// The answer, and the lent bytes afterwards.
    pub fn ask_mount(&mut self, sheets: &[u8], count: u64, boat: u32, edition: u32) -> (mounts::Answer<Sheet>, Vec<u8>) {
        let input = self.input.lend(sheets);
        // SAFETY: as many bytes are lent as there are.
        let CMount { number, place, edition, side } = unsafe { hromulice_ask_mount(input, sheets.len(), count, boat, edition) };
        (mounts::Answer { number, place, value: Sheet { edition, side } }, self.input.now())
    }

    /// The answer, and the lent bytes afterwards.
    pub fn add_mount(&mut self, sheets: &[u8], count: u64, boat: u32, edition: u32, side: u32) -> (mounts::Answer<u64>, Vec<u8>) {
        let output = self.output.lend(sheets);
        // SAFETY: as many bytes are lent as there are.
        let of = unsafe { hromulice_add_mount(output, sheets.len(), count, boat, edition, side) };
        (mounts::Answer { number: of.number, place: of.place, value: of.count }, self.output.now())
    }

    /// A check in parts, in a state that held anything before.
    pub fn begin(&mut self, buffers: [u64; 4], before: u64) {
        let state = self.state.lend(&[before; STATE_WORDS]);
        // SAFETY: a whole state is lent.
        unsafe { hromulice_begin(lengths(buffers), state) };
    }

    /// The state is its words and nothing else: it is lent at another place than before.
    fn move_state(&mut self) -> *mut u64 {
        std::mem::swap(&mut self.state, &mut self.moved_from);
        let words: Vec<u64> = self.moved_from.now();
        self.state.lend(&words)
    }

    /// A state that anyone filled.
    pub fn take_state(&mut self, state: &[u64; STATE_WORDS]) {
        self.state.lend(state);
    }

    pub fn state(&self) -> Vec<u64> {
        self.state.now()
    }

    pub fn hand_over(&mut self, part: &[u32]) {
        let (state, input) = (self.move_state(), self.input.lend(part));
        // SAFETY: a whole state is lent, and as many words as are counted.
        unsafe { hromulice_hand_over(state, input, part.len()) };
    }

    /// The answer so far, and whether the state is as it was before.
    pub fn report(&mut self) -> (Report, bool) {
        let state = self.move_state();
        // SAFETY: a whole state is lent.
        let of = report(unsafe { hromulice_report_of(state) });
        (of, self.state.now::<u64>() == self.moved_from.now::<u64>())
    }

    /// Whether nothing was written in front of what was lent.
    pub fn fences_stand(&mut self) -> bool {
        self.input.fence_stands() && self.output.fence_stands() && self.state.fence_stands()
    }

    /// Whether the words, or bytes, handed in are still the same.
    pub fn input_stands<T: Copy + PartialEq>(&self, handed_in: &[T]) -> bool {
        self.input.now::<T>() == handed_in
    }
}
