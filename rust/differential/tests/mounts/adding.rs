//! Wrong answers to addings, and wrong bytes left by them.

use crate::other::{found_by_books, taken, Other, RIGHT};
use reference::mounts::{add, counted, judge, next_edition, Answer, Record};

/// An accepted adding, with the lent bytes changed in one more thing.
fn added(lent: &mut [u8], answer: Answer<u64>, change: impl Fn(&mut [u8], usize)) -> Answer<u64> {
    if answer.number == 0 {
        change(lent, 16 * (answer.value as usize - 1));
    }
    answer
}

fn beside(number: u8, count: u64) -> Answer<u64> {
    Answer { number, place: 0, value: count }
}

/// Adds an edition that is refused by 21 if a rule lets it through.
fn any_edition(s: &mut [u8], c: u64, (b, e, side): (u32, u32, u32), rule: fn(u32, Option<u32>) -> bool) -> Answer<u64> {
    let answer = add(s, c, b, e, side);
    if answer.number != 21 {
        return answer;
    }
    let newest = judge(&counted(s, c).unwrap()).unwrap();
    let next = next_edition(newest.get(&b).copied());
    if !rule(e, next) {
        return answer;
    }
    match add(&mut s.to_vec(), c, b, next.unwrap(), side) {
        Answer { number: 0, .. } => {
            s[16 * c as usize..][..16].copy_from_slice(&Record::new(b, e, side as u8).bytes());
            Answer::accepted(c + 1)
        }
        other => other,
    }
}

/// Where a number is due, another one if another question would get that.
fn before(s: &mut [u8], c: u64, asked: (u32, u32, u32), due: u8, (b, e, side): (u32, u32, u32), other: u8) -> Answer<u64> {
    let answer = add(&mut s.to_vec(), c, b, e, side);
    if add(&mut s.to_vec(), c, asked.0, asked.1, asked.2).number == due && answer.number == other {
        return answer;
    }
    add(s, c, asked.0, asked.1, asked.2)
}

/// 14 in place of another number, where there is no room.
fn short(s: &mut [u8], c: u64, (b, e, side): (u32, u32, u32), due: u8) -> Answer<u64> {
    match add(s, c, b, e, side) {
        Answer { number, .. } if number == due && s.len() as u64 / 16 == c => beside(14, c),
        answer => answer,
    }
}

const WRONG_ADDING: [Other; 18] = [
    Other { what: "the low byte of a side", add: |s, c, b, e, side| add(s, c, b, e, side & 255), ..RIGHT },
    Other { what: "the low half of a side", add: |s, c, b, e, side| add(s, c, b, e, side & 0xffff), ..RIGHT },
    Other { what: "any edition but 0", add: |s, c, b, e, side| any_edition(s, c, (b, e, side), |e, _| e > 0), ..RIGHT },
    Other {
        what: "any later edition",
        add: |s, c, b, e, side| any_edition(s, c, (b, e, side), |e, next| next.is_some_and(|next| e >= next)),
        ..RIGHT
    },
    Other {
        what: "edition 0 of a new boat",
        add: |s, c, b, e, side| any_edition(s, c, (b, e, side), |e, next| e == 0 && next == Some(1)),
        ..RIGHT
    },
    Other {
        what: "the low half of an edition",
        add: |s, c, b, e, side| any_edition(s, c, (b, e, side), |e, next| next.is_some_and(|next| e == next % 65_536)),
        ..RIGHT
    },
    Other { what: "21 before 22", add: |s, c, b, e, side| before(s, c, (b, e, side), 22, (b, e, side & 1), 21), ..RIGHT },
    Other { what: "22 before 20", add: |s, c, b, e, side| if side > 1 { beside(22, c) } else { add(s, c, b, e, side) }, ..RIGHT },
    Other { what: "14 before 21", add: |s, c, b, e, side| short(s, c, (b, e, side), 21), ..RIGHT },
    Other { what: "14 before 22", add: |s, c, b, e, side| short(s, c, (b, e, side), 22), ..RIGHT },
    Other {
        what: "14 at the bytes needed",
        add: |s, c, b, e, side| match add(s, c, b, e, side) {
            Answer { number: 14, .. } => Answer { number: 14, place: 16 * (c + 1), value: c },
            answer => answer,
        },
        ..RIGHT
    },
    Other {
        what: "a refusal without the count",
        add: |s, c, b, e, side| match add(s, c, b, e, side) {
            accepted @ Answer { number: 0, .. } => accepted,
            refused => Answer { value: 0, ..refused },
        },
        ..RIGHT
    },
    Other { what: "the count stays", add: |s, c, b, e, side| Answer { value: c, ..add(s, c, b, e, side) }, ..RIGHT },
    Other {
        what: "the filler stays",
        add: |s, c, b, e, side| {
            let before = s.to_vec();
            let answer = add(s, c, b, e, side);
            added(s, answer, |s, at| s[at + 9..at + 16].copy_from_slice(&before[at + 9..at + 16]))
        },
        ..RIGHT
    },
    Other {
        what: "a byte too many is written",
        add: |s, c, b, e, side| {
            let answer = add(s, c, b, e, side);
            added(s, answer, |s, at| s[at + 16..].iter_mut().take(1).for_each(|byte| *byte = 0))
        },
        ..RIGHT
    },
    Other {
        what: "the record before is written",
        add: |s, c, b, e, side| {
            let answer = add(s, c, b, e, side);
            added(s, answer, |s, at| s[..at].iter_mut().rev().take(8).for_each(|byte| *byte = 1))
        },
        ..RIGHT
    },
    Other {
        what: "a refusal writes",
        add: |s, c, b, e, side| {
            let answer = add(s, c, b, e, side);
            if answer.number == 21 {
                s.iter_mut().skip(16 * c as usize).for_each(|byte| *byte = 0);
            }
            answer
        },
        ..RIGHT
    },
    Other {
        what: "boats alike modulo 256",
        add: |s, c, b, e, side| {
            let answer = add(&mut taken(s, |record| record.boat %= 256), c, b % 256, e, side);
            let record = Record::new(b, e, side as u8).bytes();
            added(s, answer, |s, at| s[at..at + 16].copy_from_slice(&record))
        },
        ..RIGHT
    },
];

#[test]
fn wrong_answers() {
    for wrong in WRONG_ADDING {
        assert!(found_by_books(wrong, 3000), "{}", wrong.what);
    }
}
