//! Every number of R-9 and every place, worked out by hand from the paper.

use crate::generate::mounts as generate;
use crate::mounts::*;
use crate::random::Random;

const STARBOARD: u8 = 0;
const PORT: u8 = 1;

/// Boat 7 has editions 1 to 3, boat 9 has edition 1, and boat 7's third stands behind it. Written out byte by byte.
const BOOK: [[u8; 16]; 4] = [
    [7, 0, 0, 0, 1, 0, 0, 0, STARBOARD, 0, 0, 0, 0, 0, 0, 0],
    [7, 0, 0, 0, 2, 0, 0, 0, PORT, 0, 0, 0, 0, 0, 0, 0],
    [9, 0, 0, 0, 1, 0, 0, 0, PORT, 0, 0, 0, 0, 0, 0, 0],
    [7, 0, 0, 0, 3, 0, 0, 0, STARBOARD, 0, 0, 0, 0, 0, 0, 0],
];

fn book() -> Vec<u8> {
    BOOK.concat()
}

/// The book with some bytes of it changed.
fn with(edits: &[(usize, u8)]) -> Vec<u8> {
    let mut sheets = book();
    edits.iter().for_each(|(at, byte)| sheets[*at] = *byte);
    sheets
}

/// Records one after the other.
fn bytes_of(records: &[(u32, u32, u8)]) -> Vec<u8> {
    records.iter().flat_map(|(boat, edition, side)| Record::new(*boat, *edition, *side).bytes()).collect()
}

fn sheet(edition: u32, side: u8) -> Answer<Sheet> {
    Answer { number: 0, place: 0, value: Sheet { edition, side } }
}

fn refused(number: u8, place: u64) -> Answer<Sheet> {
    Answer { number, place, value: Sheet { edition: 0, side: 0 } }
}

/// The answer to an adding, which must leave the bytes as they were.
fn refused_adding(sheets: &[u8], count: u64, (boat, edition, side): (u32, u32, u32)) -> (u8, u64) {
    let mut lent = sheets.to_vec();
    let answer = add(&mut lent, count, boat, edition, side);
    assert_eq!((answer.value, &lent[..]), (count, sheets));
    (answer.number, answer.place)
}

/// The same place of 20 by asking and by adding, whatever else is wrong.
fn twenty(sheets: &[u8], count: u64) -> u64 {
    let asked = ask(sheets, count, 7, 1);
    assert_eq!(asked, refused(20, asked.place));
    assert_eq!(ask(sheets, count, 8, 0), asked);
    for adding in [(7, 4, 0), (7, 4, 2), (7, 9, 0), (8, 0, u32::MAX)] {
        assert_eq!(refused_adding(sheets, count, adding), (20, asked.place));
    }
    asked.place
}

/// Little-endian, at the offsets that the paper's order gives.
#[test]
fn layout() {
    let bytes = [4, 3, 2, 1, 8, 7, 6, 5, 9, 10, 11, 12, 13, 14, 15, 16];
    let record = Record { boat: 0x0102_0304, edition: 0x0506_0708, side: 9, filler: [10, 11, 12, 13, 14, 15, 16] };
    assert_eq!(Record::read(&bytes), record);
    assert_eq!(record.bytes(), bytes);
    assert_eq!(bytes_of(&[(7, 1, 0), (7, 2, 1), (9, 1, 1), (7, 3, 0)]), book());
}

/// The newest not above the edition asked for.
#[test]
fn asking() {
    for (boat, edition, due) in [
        (7, 1, sheet(1, STARBOARD)),
        (7, 2, sheet(2, PORT)),
        (7, 3, sheet(3, STARBOARD)),
        (7, 4, sheet(3, STARBOARD)),
        (7, u32::MAX, sheet(3, STARBOARD)),
        (9, 1, sheet(1, PORT)),
        (9, 2, sheet(1, PORT)),
        (7, 0, refused(19, 0)),
        (9, 0, refused(19, 0)),
        (8, 0, refused(19, 0)),
        (8, 1, refused(19, 0)),
        (8, u32::MAX, refused(19, 0)),
        (7 << 8, 1, refused(19, 0)),
        (7 << 24, 1, refused(19, 0)),
    ] {
        assert_eq!(ask(&book(), 4, boat, edition), due, "{boat} {edition}");
    }
    assert_eq!(ask(&[], 0, 7, 1), refused(19, 0));
    assert_eq!(ask(&[], 0, 0, 0), refused(19, 0));
}

/// Only the records counted are there.
#[test]
fn smaller_count() {
    assert_eq!(ask(&book(), 3, 7, 3), sheet(2, PORT));
    assert_eq!(ask(&book(), 2, 9, 1), refused(19, 0));
    assert_eq!(ask(&book(), 1, 7, 3), sheet(1, STARBOARD));
    assert_eq!(ask(&book(), 0, 7, 3), refused(19, 0));
    assert_eq!(ask(&[0xff; 16], 0, u32::MAX, u32::MAX), refused(19, 0));
}

/// "A number of records that the bytes can't hold gives 20 with the number they can", before any bad record.
#[test]
fn count_too_large() {
    for count in [5, 6, 1 << 32, (1 << 32) + 4, 1 << 60, (1 << 60) + 4, 1 << 63, u64::MAX] {
        assert_eq!(twenty(&book(), count), 4);
        assert_eq!(twenty(&with(&[(8, 2), (25, 1)]), count), 4);
    }
    for (bytes, whole) in [(0, 0), (1, 0), (15, 0), (16, 1), (17, 1), (31, 1), (32, 2), (63, 3)] {
        assert_eq!(twenty(&book()[..bytes], 4), whole);
        assert_eq!(twenty(&book()[..bytes], whole + 1), whole);
        assert_eq!(twenty(&book()[..bytes], u64::MAX), whole);
    }
    assert_eq!(ask(&book()[..63], 3, 7, 9), sheet(2, PORT));
}

/// A side from 2 to 255, and each byte of the filler, in each record.
#[test]
fn bad_side_and_filler() {
    for record in 0..4 {
        for value in 2..=255 {
            assert_eq!(twenty(&with(&[(16 * record + 8, value)]), 4), record as u64);
        }
        for byte in 9..16 {
            for value in [1, 2, 128, 255] {
                assert_eq!(twenty(&with(&[(16 * record + byte, value)]), 4), record as u64);
            }
        }
    }
    assert_eq!(ask(&with(&[(8, PORT)]), 4, 7, 1), sheet(1, PORT));
}

/// Editions stored: 0, a first one that is not 1, one again, one left out, a step down; of boats that are mixed.
#[test]
fn bad_edition() {
    for (records, due) in [
        (&[(7, 0, 0)][..], 0),
        (&[(7, 2, 0)], 0),
        (&[(7, u32::MAX, 0)], 0),
        (&[(7, 1 << 8, 0)], 0),
        (&[(7, 1, 0), (7, 0, 0)], 1),
        (&[(7, 1, 0), (7, 1, 0)], 1),
        (&[(7, 1, 0), (7, 3, 0)], 1),
        (&[(7, 1, 0), (9, 2, 0)], 1),
        (&[(7, 1, 0), (9, 1, 0), (9, 3, 0), (7, 2, 0)], 2),
        (&[(7, 1, 0), (9, 1, 0), (7, 2, 0), (9, 1, 0)], 3),
        (&[(7, 1, 0), (7, 2, 0), (7, 3, 0), (7, 2, 0)], 3),
        (&[(0, 1, 0), (u32::MAX, 1, 0), (0, 2, 0), (u32::MAX, 2, 0), (0, 2, 0)], 4),
    ] {
        assert_eq!(twenty(&bytes_of(records), records.len() as u64), due, "{records:?}");
    }
    let mixed = bytes_of(&[(0, 1, 0), (u32::MAX, 1, 1), (256, 1, 0), (0, 2, 1), (u32::MAX, 2, 0), (256, 2, 1)]);
    assert_eq!(ask(&mixed, 6, u32::MAX, 1), sheet(1, PORT));
    assert_eq!(ask(&mixed, 6, 0, 2), sheet(2, PORT));
}

/// The first bad record, whichever rule each of two breaks; and one behind the counted ones is not judged.
#[test]
fn first_bad_record() {
    let faults = [(8, 2), (15, 1), (4, 9)];
    for first in faults {
        for second in faults {
            assert_eq!(twenty(&with(&[(16 + first.0, first.1), (32 + second.0, second.1)]), 4), 1);
        }
        let sheets = with(&[(48 + first.0, first.1)]);
        assert_eq!(twenty(&sheets, 4), 3);
        assert_eq!(ask(&sheets, 3, 7, 9), sheet(2, PORT));
        assert_eq!(add(&mut sheets.clone(), 3, 7, 3, 0).number, 0);
    }
}

/// The 16 bytes behind the last record are written, over whatever was there, and no others.
#[test]
fn adding() {
    let mut lent = [&book()[..], &[0xee; 35]].concat();
    assert_eq!(add(&mut lent, 4, 9, 2, 0), Answer { number: 0, place: 0, value: 5 });
    assert_eq!(add(&mut lent, 5, 0x0a0b_0c0d, 1, 1), Answer { number: 0, place: 0, value: 6 });
    let ninth = [9, 0, 0, 0, 2, 0, 0, 0, STARBOARD, 0, 0, 0, 0, 0, 0, 0];
    let new = [0x0d, 0x0c, 0x0b, 0x0a, 1, 0, 0, 0, PORT, 0, 0, 0, 0, 0, 0, 0];
    assert_eq!(lent, [&book()[..], &ninth, &new, &[0xee; 3]].concat());
    assert_eq!(ask(&lent, 6, 9, 2), sheet(2, STARBOARD));
    assert_eq!(ask(&lent, 6, 9, 1), sheet(1, PORT));
    assert_eq!(refused_adding(&lent, 6, (7, 4, 0)), (14, 0));
    let mut one = [0xee; 16];
    assert_eq!(add(&mut one, 0, 0, 1, 1).value, 1);
    assert_eq!(one, [0, 0, 0, 0, 1, 0, 0, 0, PORT, 0, 0, 0, 0, 0, 0, 0]);
}

/// With a smaller count the last records are written over.
#[test]
fn adding_behind_the_counted() {
    let mut lent = book();
    assert_eq!(add(&mut lent, 2, 9, 1, 0), Answer { number: 0, place: 0, value: 3 });
    assert_eq!(lent, with(&[(40, STARBOARD)]));
}

/// 22 before 21, 21 before 14; each with room and without, and a side whose low byte would be one.
#[test]
fn refused_addings() {
    for room in 0..16 {
        let lent = [&book()[..], &vec![0; room]].concat();
        assert_eq!(refused_adding(&lent, 4, (7, 4, 0)), (14, 0));
        assert_eq!(refused_adding(&lent, 4, (8, 1, 1)), (14, 0));
    }
    for room in [0, 15, 16, 17, 100] {
        let lent = [&book()[..], &vec![0; room]].concat();
        for side in [2, 3, 255, 256, 257, 1 << 16, 1 << 31, u32::MAX] {
            assert_eq!(refused_adding(&lent, 4, (7, 4, side)), (22, 0));
            assert_eq!(refused_adding(&lent, 4, (7, 5, side)), (22, 0));
            assert_eq!(refused_adding(&lent, 4, (8, 0, side)), (22, 0));
        }
        for (boat, edition) in [(7, 0), (7, 1), (7, 3), (7, 5), (7, u32::MAX), (9, 1), (9, 3), (8, 0), (8, 2), (8, u32::MAX)] {
            assert_eq!(refused_adding(&lent, 4, (boat, edition, 0)), (21, 0), "{boat} {edition}");
            assert_eq!(refused_adding(&lent, 4, (boat, edition, 1)), (21, 0), "{boat} {edition}");
        }
    }
}

/// A file in which an edition 4294967295 is good has 4294967294 records of that boat before it, 64 GiB. So the rule is asked of
/// the function that all judging and adding goes through.
#[test]
fn next_editions() {
    assert_eq!(next_edition(None), Some(1));
    assert_eq!(next_edition(Some(1)), Some(2));
    assert_eq!(next_edition(Some(u32::MAX - 1)), Some(u32::MAX));
    assert_eq!(next_edition(Some(u32::MAX)), None);
    for edition in [0, 1, u32::MAX] {
        assert_eq!(faults(&Record::new(7, edition, 0), Some(u32::MAX)), [Fault::Edition]);
    }
    assert_eq!(faults(&Record::new(7, u32::MAX, 0), Some(u32::MAX - 1)), []);
    assert_eq!(faults(&Record::new(7, 0, 0), None), [Fault::Edition]);
}

/// Only x changes, and only on port; 22 before 23.
#[test]
fn vectors() {
    let of = |side: u32, x: i16, y: i16| {
        let Answer { number, place, value: (x, y) } = vector(side, x, y);
        (number, place, x, y)
    };
    for y in [0, 1, -1, 32767, -32767, -32768] {
        assert_eq!(of(0, 5, y), (0, 0, 5, y));
        assert_eq!(of(1, 5, y), (0, 0, -5, y));
        assert_eq!(of(1, -5, y), (0, 0, 5, y));
        assert_eq!(of(0, 0, y), (0, 0, 0, y));
        assert_eq!(of(1, 0, y), (0, 0, 0, y));
        assert_eq!(of(1, 32767, y), (0, 0, -32767, y));
        assert_eq!(of(1, -32767, y), (0, 0, 32767, y));
        assert_eq!(of(0, -32768, y), (0, 0, -32768, y));
        assert_eq!(of(1, -32768, y), (23, 0, 0, 0));
        for side in [2, 3, 255, 256, 257, 1 << 31, u32::MAX] {
            assert_eq!(of(side, -32768, y), (22, 0, 0, 0));
            assert_eq!(of(side, 5, y), (22, 0, 0, 0));
        }
    }
}

/// The same without a map: a record's edition is one more than the number of its boat's records before it, and the sheet asked
/// for is the boat's record of that number, or its last.
fn by_counting(sheets: &[u8], count: usize, boat: u32, edition: u32) -> Answer<Sheet> {
    let records: Vec<&[u8]> = sheets.chunks_exact(16).take(count).collect();
    let good = |n: usize| {
        let before = records[..n].iter().filter(|record| record[..4] == records[n][..4]).count() as u32;
        records[n][4..] == [&(before + 1).to_le_bytes()[..], &[records[n][8] % 2], &[0; 7]].concat()
    };
    let own: Vec<&&[u8]> = records.iter().filter(|record| record[..4] == boat.to_le_bytes()).collect();
    let number = own.len().min(edition as usize);
    if records.len() < count {
        return refused(20, records.len() as u64);
    }
    match (0..count).find(|n| !good(*n)) {
        Some(bad) => refused(20, bad as u64),
        None if number == 0 => refused(19, 0),
        None => sheet(number as u32, own[number - 1][8]),
    }
}

#[test]
fn counting_agrees() {
    let mut r = Random::new(98);
    for _ in 0..3000 {
        let generate::Book { sheets, count } = generate::book(&mut r);
        let records: Vec<Record> = sheets.chunks_exact(16).map(Record::read).collect();
        let (boat, edition) = generate::question(&mut r, &records);
        assert_eq!(ask(&sheets, count, boat, edition), by_counting(&sheets, count as usize, boat, edition));
    }
}
