//! Mount sheets by edition, as document 02's R-9 tells it: every stored record is judged in turn, with a map from each boat to
//! its newest edition. A record has 16 bytes, "little-endian as all records to come":
//!
//!     0   boat (4 bytes)
//!     4   edition (4)
//!     8   side (1: 0 starboard, 1 port)
//!     9   "seven zero bytes"

use std::collections::BTreeMap;

/// A number, its place, and what is answered beside them: zeros beside a refusal, but for the count of an adding. "A later
/// number for which no place is stated has place 0."
#[derive(Clone, Copy, Debug, PartialEq, Eq)]
pub struct Answer<T> {
    pub number: u8,
    pub place: u64,
    pub value: T,
}

impl<T> Answer<T> {
    pub fn accepted(value: T) -> Answer<T> {
        Answer { number: 0, place: 0, value }
    }
}

impl<T: Default> Answer<T> {
    pub fn refused(number: u8, place: u64) -> Answer<T> {
        Answer { number, place, value: T::default() }
    }
}

/// What asking finds.
#[derive(Clone, Copy, Debug, Default, PartialEq, Eq)]
pub struct Sheet {
    pub edition: u32,
    pub side: u8,
}

/// A stored record, good or bad.
#[derive(Clone, Copy, Debug, PartialEq, Eq)]
pub struct Record {
    pub boat: u32,
    pub edition: u32,
    pub side: u8,
    pub filler: [u8; 7],
}

impl Record {
    pub fn new(boat: u32, edition: u32, side: u8) -> Record {
        Record { boat, edition, side, filler: [0; 7] }
    }

    pub fn read(bytes: &[u8]) -> Record {
        let number = |at: usize| u32::from_le_bytes(bytes[at..at + 4].try_into().unwrap());
        Record { boat: number(0), edition: number(4), side: bytes[8], filler: bytes[9..16].try_into().unwrap() }
    }

    pub fn bytes(&self) -> [u8; 16] {
        let mut bytes = [0; 16];
        bytes[..4].copy_from_slice(&self.boat.to_le_bytes());
        bytes[4..8].copy_from_slice(&self.edition.to_le_bytes());
        bytes[8] = self.side;
        bytes[9..].copy_from_slice(&self.filler);
        bytes
    }
}

/// "Editions of one boat start at 1 and rise by one", and "none follows 4294967295".
pub fn next_edition(newest: Option<u32>) -> Option<u32> {
    newest.map_or(Some(1), |newest| newest.checked_add(1))
}

/// Why a stored record is bad.
#[derive(Clone, Copy, Debug, PartialEq, Eq)]
pub enum Fault {
    Side,
    Filler,
    Edition,
}

/// "Side above 1, non-zero filler, or not its boat's next edition", for a boat with this newest edition before the record.
pub fn faults(record: &Record, newest: Option<u32>) -> Vec<Fault> {
    let rules = [
        (Fault::Side, record.side <= 1),
        (Fault::Filler, record.filler == [0; 7]),
        (Fault::Edition, next_edition(newest) == Some(record.edition)),
    ];
    rules.into_iter().filter(|rule| !rule.1).map(|rule| rule.0).collect()
}

/// The newest edition of each boat in these records.
pub type Newest = BTreeMap<u32, u32>;

/// The newest editions behind all records, or before "the first bad stored record", with its number.
pub fn judge(records: &[Record]) -> Result<Newest, (usize, Newest)> {
    let mut newest = Newest::new();
    for (number, record) in records.iter().enumerate() {
        if !faults(record, newest.get(&record.boat).copied()).is_empty() {
            return Err((number, newest));
        }
        newest.insert(record.boat, record.edition);
    }
    Ok(newest)
}

/// The records counted. "A number of records that the bytes can't hold" is refused "with the number they can".
pub fn counted(sheets: &[u8], count: u64) -> Result<Vec<Record>, u64> {
    let whole = sheets.len() as u64 / 16;
    if count > whole {
        return Err(whole);
    }
    Ok(sheets.chunks_exact(16).take(count as usize).map(Record::read).collect())
}

/// The records counted and each boat's newest edition, or the place of 20: the count is judged first.
fn judged(sheets: &[u8], count: u64) -> Result<(Vec<Record>, Newest), u64> {
    let records = counted(sheets, count)?;
    let newest = judge(&records).map_err(|(number, _)| number as u64)?;
    Ok((records, newest))
}

/// "Asking for boat and edition gives that boat's newest sheet not above it, or 19 if none."
pub fn ask(sheets: &[u8], count: u64, boat: u32, edition: u32) -> Answer<Sheet> {
    let records = match judged(sheets, count) {
        Ok((records, _)) => records,
        Err(place) => return Answer::refused(20, place),
    };
    let not_above = records.iter().filter(|record| record.boat == boat && record.edition <= edition);
    match not_above.max_by_key(|record| record.edition) {
        Some(record) => Answer::accepted(Sheet { edition: record.edition, side: record.side }),
        None => Answer::refused(19, 0),
    }
}

/// "Adding writes behind the last." The checks come as 20, 22, 21, 14; a refusal writes nothing and gives the count as it was.
pub fn add(sheets: &mut [u8], count: u64, boat: u32, edition: u32, side: u32) -> Answer<u64> {
    let refusal = |number, place| Answer { number, place, value: count };
    let (records, newest) = match judged(sheets, count) {
        Ok(judged) => judged,
        Err(place) => return refusal(20, place),
    };
    if side > 1 {
        return refusal(22, 0);
    }
    if next_edition(newest.get(&boat).copied()) != Some(edition) {
        return refusal(21, 0);
    }
    let Some(behind) = sheets[16 * records.len()..].first_chunk_mut() else { return refusal(14, 0) };
    *behind = Record::new(boat, edition, side as u8).bytes();
    Answer::accepted(count + 1)
}

/// "A measured shift (x, y) gives vector (x, y) on starboard and (−x, y) on port; x = −32768 on port gives 23, and a side
/// above 1 gives 22 first."
pub fn vector(side: u32, x: i16, y: i16) -> Answer<(i16, i16)> {
    match side {
        0 => Answer::accepted((x, y)),
        1 => x.checked_neg().map_or(Answer::refused(23, 0), |x| Answer::accepted((x, y))),
        _ => Answer::refused(22, 0),
    }
}
