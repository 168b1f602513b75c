//! The functions of libhromulice.a, each called by one safe function. All unsafe code of the crate is here.
//!
//! A slice is lent as its pointer and its length, for the time of the call; the archive keeps no pointer, has no global
//! state, and writes nothing but what is lent as `&mut`.

/// How many 64-bit words hold a check under way.
pub const STATE_WORDS: usize = 128;

#[repr(C)]
#[derive(Clone, Copy)]
pub struct Lengths {
    pub source: u64,
    pub reconstructed: u64,
    pub forward: u64,
    pub backward: u64,
}

#[repr(C)]
pub struct Report {
    pub number: u8,
    pub place: u64,
    pub lengths: Lengths,
    pub firsts: Lengths,
}

#[repr(C)]
pub struct Answer {
    pub number: u8,
    pub place: u64,
}

#[repr(C)]
pub struct Mount {
    pub number: u8,
    pub place: u64,
    pub edition: u32,
    pub side: u8,
}

#[repr(C)]
pub struct Mounts {
    pub number: u8,
    pub place: u64,
    pub count: u64,
}

#[repr(C)]
pub struct Shift {
    pub number: u8,
    pub place: u64,
    pub x: i16,
    pub y: i16,
}

#[repr(C)]
#[derive(Clone)]
pub struct State {
    words: [u64; STATE_WORDS],
}

extern "C" {
    fn hromulice_version() -> u32;
    fn hromulice_state_words() -> u64;
    fn hromulice_check(words: *const u32, count: usize, lengths: Lengths) -> Report;
    fn hromulice_decode(words: *const u32, count: usize, lengths: Lengths, log: *mut u8, bytes: usize) -> Report;
    fn hromulice_read_command(words: *const u32, count: usize, record: *mut u8, bytes: usize) -> Answer;
    fn hromulice_write_command(record: *const u8, bytes: usize, words: *mut u32, count: usize) -> Answer;
    fn hromulice_begin(lengths: Lengths, state: *mut State);
    fn hromulice_hand_over(state: *mut State, part: *const u32, count: usize);
    fn hromulice_report_of(state: *const State) -> Report;
    fn hromulice_ask_mount(sheets: *const u8, bytes: usize, count: u64, boat: u32, edition: u32) -> Mount;
    fn hromulice_add_mount(sheets: *mut u8, bytes: usize, count: u64, boat: u32, edition: u32, side: u32) -> Mounts;
    fn hromulice_mount_vector(side: u32, x: i16, y: i16) -> Shift;
}

pub fn version() -> u32 {
    // SAFETY: nothing is lent.
    unsafe { hromulice_version() }
}

pub fn state_words() -> u64 {
    // SAFETY: nothing is lent.
    unsafe { hromulice_state_words() }
}

pub fn check(words: &[u32], lengths: Lengths) -> Report {
    // SAFETY: the words are lent for the call and only read.
    unsafe { hromulice_check(words.as_ptr(), words.len(), lengths) }
}

pub fn decode(words: &[u32], lengths: Lengths, log: &mut [u8]) -> Report {
    // SAFETY: the words are only read, and the log is lent alone.
    unsafe { hromulice_decode(words.as_ptr(), words.len(), lengths, log.as_mut_ptr(), log.len()) }
}

pub fn read_command(words: &[u32], record: &mut [u8]) -> Answer {
    // SAFETY: the words are only read, and the record's bytes are lent alone.
    unsafe { hromulice_read_command(words.as_ptr(), words.len(), record.as_mut_ptr(), record.len()) }
}

pub fn write_command(record: &[u8], words: &mut [u32]) -> Answer {
    // SAFETY: the record is only read, and the words are lent alone.
    unsafe { hromulice_write_command(record.as_ptr(), record.len(), words.as_mut_ptr(), words.len()) }
}

pub fn begin(lengths: Lengths) -> State {
    let mut state = State { words: [0; STATE_WORDS] };
    // SAFETY: the state is lent alone and has all its words.
    unsafe { hromulice_begin(lengths, &mut state) };
    state
}

pub fn hand_over(state: &mut State, part: &[u32]) {
    // SAFETY: the state is lent alone and has all its words, and the part is only read.
    unsafe { hromulice_hand_over(state, part.as_ptr(), part.len()) }
}

pub fn report_of(state: &State) -> Report {
    // SAFETY: the state is only read and has all its words.
    unsafe { hromulice_report_of(state) }
}

pub fn ask_mount(sheets: &[u8], count: u64, boat: u32, edition: u32) -> Mount {
    // SAFETY: the sheets' bytes are lent for the call and only read.
    unsafe { hromulice_ask_mount(sheets.as_ptr(), sheets.len(), count, boat, edition) }
}

pub fn add_mount(sheets: &mut [u8], count: u64, boat: u32, edition: u32, side: u32) -> Mounts {
    // SAFETY: the sheets' bytes are lent alone.
    unsafe { hromulice_add_mount(sheets.as_mut_ptr(), sheets.len(), count, boat, edition, side) }
}

pub fn mount_vector(side: u32, x: i16, y: i16) -> Shift {
    // SAFETY: nothing is lent.
    unsafe { hromulice_mount_vector(side, x, y) }
}
