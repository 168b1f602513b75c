//! Which marks a question about mount sheets reaches, by the answer that is due.

use crate::mounts::{counted, faults, judge, next_edition, Answer, Fault, Record, Sheet};
use crate::mounts_marks::*;

/// Those of some marks that apply.
fn applying<const N: usize>(marks: [&'static str; N], apply: [bool; N]) -> Vec<&'static str> {
    marks.into_iter().zip(apply).filter(|mark| mark.1).map(|mark| mark.0).collect()
}

/// How a count is more than the bytes hold.
fn by_count(sheets: &[u8], count: u64) -> Vec<&'static str> {
    let whole = sheets.len() as u64 / 16;
    let past = u128::from(count) * 16 > u128::from(u64::MAX);
    let apply = [
        count == whole + 1,
        count == u64::MAX,
        past && count.wrapping_mul(16) <= sheets.len() as u64,
        u64::from(count as u32) == whole,
        count == whole + 1 && !sheets.len().is_multiple_of(16),
        judge(&counted(sheets, whole).unwrap()).is_err(),
        whole == 0,
    ];
    applying(BY_COUNT, apply)
}

/// The one fault that a record has, if it has one alone.
fn alone(record: &Record, newest: Option<u32>) -> Option<&'static str> {
    let [fault] = faults(record, newest)[..] else { return None };
    let wrong: Vec<usize> = (0..7).filter(|byte| record.filler[*byte] != 0).collect();
    match (fault, &wrong[..], newest) {
        (Fault::Side, ..) => Some(BY_SIDE),
        (Fault::Filler, [byte], _) => Some(BY_FILLER[*byte]),
        (Fault::Filler, ..) => None,
        (Fault::Edition, ..) if record.edition == 0 => Some(BY_EDITION[0]),
        (Fault::Edition, _, None) => Some(BY_EDITION[1]),
        (Fault::Edition, _, Some(newest)) => Some(BY_EDITION[if record.edition <= newest { 2 } else { 3 }]),
    }
}

/// Where the first bad record stands among the counted ones, and why it is bad.
fn by_record(records: &[Record]) -> Vec<&'static str> {
    let (number, newest) = judge(records).unwrap_err();
    let (first, last) = (number == 0, number + 1 == records.len());
    let bad_anywhere = |record: &Record| record.side > 1 || record.filler != [0; 7] || record.edition == 0;
    let another = records[number + 1..].iter().any(bad_anywhere);
    let place = applying(AT_RECORD, [first && last, first && !last, !first && !last, last && !first, another]);
    let record = &records[number];
    place.into_iter().chain(alone(record, newest.get(&record.boat).copied())).collect()
}

/// What asking and adding have in common.
fn of_judging(sheets: &[u8], count: u64) -> Vec<&'static str> {
    match counted(sheets, count) {
        Err(_) => by_count(sheets, count),
        Ok(records) if judge(&records).is_err() => by_record(&records),
        Ok(_) => applying([BEHIND], [judge(&counted(sheets, sheets.len() as u64 / 16).unwrap()).is_err()]),
    }
}

pub fn of_asking(sheets: &[u8], count: u64, (boat, edition): (u32, u32), due: Answer<Sheet>) -> Vec<&'static str> {
    let records = counted(sheets, count).unwrap_or_default();
    let has_some = records.iter().any(|record| record.boat == boat);
    let given = |number: u8, also: bool| due.number == number && also;
    let apply = [
        given(0, due.value.edition == edition),
        given(0, due.value.edition < edition),
        given(19, !has_some),
        given(19, has_some && edition == 0),
        given(19, count == 0),
    ];
    [applying(ASK, apply), of_judging(sheets, count)].concat()
}

/// The bytes are those before the adding.
pub fn of_adding(sheets: &[u8], count: u64, (boat, edition, side): (u32, u32, u32), due: Answer<u64>) -> Vec<&'static str> {
    let left = (sheets.len() as u128).saturating_sub(16 * u128::from(count));
    let newest = judge(&counted(sheets, count).unwrap_or_default()).unwrap_or_default().get(&boat).copied();
    let next = next_edition(newest) == Some(edition);
    let given = |number: u8, also: bool| due.number == number && also;
    let apply = [
        given(0, newest.is_none()),
        given(0, newest.is_some()),
        given(0, left == 16),
        given(0, left > 16),
        given(14, left == 0),
        given(14, left > 0),
        given(20, side > 1),
        given(20, left < 16),
        given(21, edition == 0),
        given(21, edition > 0 && newest.is_some_and(|newest| edition <= newest)),
        given(21, edition > newest.unwrap_or(0)),
        given(21, left < 16),
        given(22, next && left >= 16),
        given(22, side as u8 <= 1),
        given(22, !next),
        given(22, left < 16),
    ];
    [applying(ADD, apply), of_judging(sheets, count)].concat()
}

pub fn of_vector((side, x, y): (u32, i16, i16), due: Answer<(i16, i16)>) -> Vec<&'static str> {
    let given = |number: u8, also: bool| due.number == number && also;
    let apply = [
        given(0, side == 0),
        given(0, side == 1),
        given(0, side == 0 && x == i16::MIN),
        given(0, side == 1 && y == i16::MIN),
        given(22, x != i16::MIN),
        given(22, x == i16::MIN),
        given(23, true),
    ];
    applying(VECTOR, apply)
}

#[cfg(test)]
mod tests {
    use super::*;
    use crate::mounts::{add, ask, vector};

    fn asked(records: &[Record], count: u64, boat: u32, edition: u32) -> Vec<&'static str> {
        let sheets: Vec<u8> = records.iter().flat_map(Record::bytes).collect();
        of_asking(&sheets, count, (boat, edition), ask(&sheets, count, boat, edition))
    }

    /// Two records of boat 7, with the second one changed.
    fn second(change: impl Fn(&mut Record)) -> Vec<&'static str> {
        let mut records = [Record::new(7, 1, 0), Record::new(7, 2, 1)];
        change(&mut records[1]);
        asked(&records, 2, 7, 1)
    }

    #[test]
    fn faults_by_name() {
        let last = "20 at the last record";
        assert_eq!(second(|record| record.side = 2), [last, "20 by side alone"]);
        assert_eq!(second(|record| record.filler[6] = 1), [last, "20 by byte 15 alone"]);
        assert_eq!(second(|record| record.filler = [1; 7]), [last]);
        assert_eq!(second(|record| (record.side, record.edition) = (2, 3)), [last]);
        assert_eq!(second(|record| record.edition = 0), [last, "20 by edition 0 alone"]);
        assert_eq!(second(|record| record.edition = 1), [last, "20 by an edition that the boat has alone"]);
        assert_eq!(second(|record| record.edition = 3), [last, "20 by an edition left out alone"]);
        assert_eq!(second(|record| record.boat = 8), [last, "20 by a first edition above 1 alone"]);
    }

    #[test]
    fn questions_by_name() {
        let book = [Record::new(7, 1, 0), Record::new(7, 2, 1), Record::new(7, 2, 1)];
        assert_eq!(asked(&book, 2, 7, 2), ["0, the edition asked for", BEHIND]);
        assert_eq!(asked(&book[..2], 2, 7, 3), ["0, an earlier edition"]);
        assert_eq!(asked(&book[..2], 2, 7, 0), ["19, edition 0 of a boat that has some"]);
        assert_eq!(asked(&[], 0, 7, 1), ["19, a boat that has none", "19, no record at all"]);
        assert_eq!(asked(&book[1..], 2, 7, 1), ["20 at the first record", "20 by a first edition above 1 alone"]);
        assert_eq!(asked(&book, 4, 7, 1), ["20 by count, one too many", "20 by count, a bad record too"]);
        assert_eq!(asked(&[], u64::MAX, 7, 1), ["20 by count, as many as 64 bits hold", "20 by count, no record held"]);
        let past = "20 by count, 16 times it past 64 bits and then short enough";
        assert_eq!(asked(&book[..2], (1 << 60) + 2, 7, 1), [past, "20 by count, as many in 32 bits as are held"]);
    }

    #[test]
    fn addings_by_name() {
        let mut lent = [0; 31];
        lent[..16].copy_from_slice(&Record::new(7, 1, 0).bytes());
        let mut added = |count: u64, adding: (u32, u32, u32)| {
            let before = lent;
            let due = add(&mut lent, count, adding.0, adding.1, adding.2);
            of_adding(&before, count, adding, due)
        };
        assert_eq!(added(1, (7, 2, 0)), ["14, 1 to 15 bytes left"]);
        assert_eq!(added(1, (7, 1, 0)), ["21, an edition that the boat has", "21, no room too"]);
        assert_eq!(added(1, (8, 2, 256)), ["22, a low byte that is a side", "22, another edition too", "22, no room too"]);
        assert_eq!(added(0, (8, 2, 0)), ["21, an edition beyond the next"]);
        assert_eq!(added(0, (8, 1, 2)), ["22 alone"]);
        assert_eq!(added(0, (8, 1, 1)), ["0, a new boat", "0, with bytes behind"]);
    }

    #[test]
    fn vectors_by_name() {
        let of = |side: u32, x: i16, y: i16| of_vector((side, x, y), vector(side, x, y));
        assert_eq!(of(0, -32768, -32768), ["0 on starboard", "0, x = -32768 on starboard"]);
        assert_eq!(of(1, 1, -32768), ["0 on port", "0, y = -32768 on port"]);
        assert_eq!(of(1, -32768, 0), ["23"]);
        assert_eq!(of(2, -32768, 0), ["22, x = -32768"]);
    }
}
