//! Asking for a mount sheet as one would write it without a proof: in Rust with a map, and in C by looking back,
//! tests/benchmark/c/ask_mount.c.

use reference::mounts::{Answer, Sheet};
use std::collections::HashMap;

/// A record's boat and edition, and the side, with above it "seven zero bytes".
fn read(record: &[u8; 16]) -> (u32, u32, u64) {
    let all = u128::from_le_bytes(*record);
    (all as u32, (all >> 32) as u32, (all >> 64) as u64)
}

/// With a map from each boat to its newest edition.
pub fn by_map(sheets: &[u8], count: u64, boat: u32, edition: u32) -> Answer<Sheet> {
    let (held, _) = sheets.as_chunks();
    if count > held.len() as u64 {
        return Answer::refused(20, held.len() as u64);
    }
    let records = &held[..count as usize];
    let mut newest: HashMap<u32, u32> = HashMap::new();
    for (number, record) in records.iter().enumerate() {
        let (boat, edition, side) = read(record);
        let before = newest.entry(boat).or_insert(0);
        if side > 1 || before.checked_add(1) != Some(edition) {
            return Answer::refused(20, number as u64);
        }
        *before = edition;
    }
    match records.iter().rev().map(read).find(|record| record.0 == boat && record.1 <= edition) {
        Some((_, edition, side)) => Answer::accepted(Sheet { edition, side: side as u8 }),
        None => Answer::refused(19, 0),
    }
}

#[repr(C)]
struct MountAnswer {
    number: u64,
    place: u64,
    edition: u32,
    side: u32,
}

extern "C" {
    fn ask_mount(sheets: *const u8, bytes: usize, count: u64, boat: u32, edition: u32) -> MountAnswer;
}

/// In C.
pub fn in_c(sheets: &[u8], count: u64, boat: u32, edition: u32) -> Answer<Sheet> {
    // SAFETY: so many bytes can be read there.
    let answer = unsafe { ask_mount(sheets.as_ptr(), sheets.len(), count, boat, edition) };
    let value = Sheet { edition: answer.edition, side: answer.side as u8 };
    Answer { number: answer.number as u8, place: answer.place, value }
}
