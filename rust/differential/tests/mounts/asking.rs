//! Wrong answers to questions for a sheet.

use crate::other::{found_by_books, taken, Other, RIGHT};
use reference::mounts::{ask, counted, judge, Answer, Record, Sheet};

const WRONG_ASKING: [Other; 16] = [
    Other { what: "the newest, whatever is asked for", ask: |s, c, b, _| ask(s, c, b, u32::MAX), ..RIGHT },
    Other {
        what: "only the edition asked for",
        ask: |s, c, b, e| match ask(s, c, b, e) {
            Answer { number: 0, value, .. } if value.edition != e => Answer::refused(19, 0),
            answer => answer,
        },
        ..RIGHT
    },
    Other {
        what: "the edition asked for is named",
        ask: |s, c, b, e| match ask(s, c, b, e) {
            Answer { number: 0, value, .. } => Answer::accepted(Sheet { edition: e, ..value }),
            answer => answer,
        },
        ..RIGHT
    },
    Other { what: "editions below the one asked for", ask: |s, c, b, e| ask(s, c, b, e.saturating_sub(1)), ..RIGHT },
    Other {
        what: "the low half of an edition",
        ask: |s, c, b, e| ask(s, c, b, if e < 100_000 { e % 65_536 } else { e }),
        ..RIGHT
    },
    Other { what: "edition 0 is the newest", ask: |s, c, b, e| ask(s, c, b, if e == 0 { u32::MAX } else { e }), ..RIGHT },
    Other {
        what: "the low 16 bits of a boat",
        ask: |s, c, b, e| ask(&taken(s, |r| r.boat &= 0xffff), c, b & 0xffff, e),
        ..RIGHT
    },
    Other { what: "the high byte of a boat is left out", ask: |s, c, b, e| ask(s, c, b & 0x00ff_ffff, e), ..RIGHT },
    Other { what: "boats alike modulo 1021", ask: |s, c, b, e| ask(&taken(s, |r| r.boat %= 1021), c, b % 1021, e), ..RIGHT },
    Other { what: "the low bit of a side", ask: |s, c, b, e| ask(&taken(s, |r| r.side &= 1), c, b, e), ..RIGHT },
    Other { what: "the last byte is not judged", ask: |s, c, b, e| ask(&taken(s, |r| r.filler[6] = 0), c, b, e), ..RIGHT },
    Other { what: "the first filler is not judged", ask: |s, c, b, e| ask(&taken(s, |r| r.filler[0] = 0), c, b, e), ..RIGHT },
    Other { what: "the low half of a count", ask: |s, c, b, e| ask(s, c & 0xffff_ffff, b, e), ..RIGHT },
    Other { what: "16 times the count in 64 bits", ask: |s, c, b, e| ask(s, c & (u64::MAX >> 4), b, e), ..RIGHT },
    Other {
        what: "cut records are held",
        ask: |s, c, b, e| ask(&[s, &vec![0; s.len().next_multiple_of(16) - s.len()]].concat(), c, b, e),
        ..RIGHT
    },
    Other { what: "all records are judged", ask: |s, c, b, e| ask(s, c.max(s.len() as u64 / 16), b, e), ..RIGHT },
];

/// The place of 20, and what is judged of a stored edition.
const WRONG_JUDGING: [Other; 7] = [
    Other {
        what: "20 without a place",
        ask: |s, c, b, e| match ask(s, c, b, e) {
            Answer { number: 20, .. } => Answer::refused(20, 0),
            answer => answer,
        },
        ..RIGHT
    },
    Other {
        what: "20 at the count",
        ask: |s, c, b, e| match ask(s, c, b, e) {
            Answer { number: 20, .. } if c > s.len() as u64 / 16 => Answer::refused(20, c),
            answer => answer,
        },
        ..RIGHT
    },
    Other {
        what: "20 at the last bad record",
        ask: |s, c, b, e| {
            let wrong = |record: &Record| record.side > 1 || record.filler != [0; 7];
            let last = || counted(s, c).ok()?.iter().rposition(wrong);
            match ask(s, c, b, e) {
                Answer { number: 20, place, .. } => Answer::refused(20, last().map_or(place, |last| place.max(last as u64))),
                answer => answer,
            }
        },
        ..RIGHT
    },
    Other {
        what: "a bad record before the count",
        ask: |s, c, b, e| match ask(s, c.min(s.len() as u64 / 16), b, e) {
            Answer { number: 20, place, .. } => Answer::refused(20, place),
            _ => ask(s, c, b, e),
        },
        ..RIGHT
    },
    Other {
        what: "19 before 20",
        ask: |s, c, b, e| match ask(s, c, b, e) {
            Answer { number: 20, .. } if e == 0 => Answer::refused(19, 0),
            answer => answer,
        },
        ..RIGHT
    },
    Other {
        what: "editions beyond 255 boats are not judged",
        ask: |s, c, b, e| {
            let Ok(records) = counted(s, c) else { return ask(s, c, b, e) };
            let first = match judge(&records) {
                Err((number, newest)) if newest.len() > 255 && records[number].side < 2 => number as u64,
                _ => c,
            };
            ask(s, first, b, e)
        },
        ..RIGHT
    },
    Other {
        what: "a first edition of any number",
        ask: |s, c, b, e| {
            let Ok(records) = counted(s, c) else { return ask(s, c, b, e) };
            let Err((number, newest)) = judge(&records) else { return ask(s, c, b, e) };
            let new = !newest.contains_key(&records[number].boat) && records[number].edition > 1;
            ask(s, if new { number as u64 } else { c }, b, e)
        },
        ..RIGHT
    },
];

#[test]
fn wrong_answers() {
    for wrong in WRONG_ASKING.into_iter().chain(WRONG_JUDGING) {
        assert!(found_by_books(wrong, 3000), "{}", wrong.what);
    }
}
