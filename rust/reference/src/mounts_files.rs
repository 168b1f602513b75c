//! Files of mount sheets, and beside each what is asked of it with the answers due, a line for each:
//!
//!     ask BOAT EDITION -> found EDITION SIDE
//!     add BOAT EDITION SIDE -> added COUNT
//!
//! or `refuse NUMBER PLACE` behind the arrow. Every line is asked of the file as it stands: no adding changes it for the next.

use crate::batch_valid::pick;
use crate::generate::boats::boats;
use crate::generate::mounts::{addition, damage, good, question};
use crate::mounts::{add, ask, Answer, Record};
use crate::random::Random;
use std::path::Path;

/// A record that is cut off is counted, so that the bytes cannot hold it: 20 at the number of whole records.
fn counted(file: &[u8]) -> u64 {
    file.len().div_ceil(16) as u64
}

fn line<T>(asked: String, answer: Answer<T>, found: impl Fn(T) -> String) -> String {
    match answer {
        Answer { number: 0, value, .. } => format!("{asked} -> {}", found(value)),
        Answer { number, place, .. } => format!("{asked} -> refuse {number} {place}"),
    }
}

fn asked(file: &[u8], (boat, edition): (u32, u32)) -> String {
    let answer = ask(file, counted(file), boat, edition);
    line(format!("ask {boat} {edition}"), answer, |sheet| format!("found {} {}", sheet.edition, sheet.side))
}

/// There is room for one more record behind whole ones; a file that ends in a record is lent as it is.
fn added(file: &[u8], (boat, edition, side): (u32, u32, u32)) -> String {
    let room = if file.len().is_multiple_of(16) { 16 } else { 0 };
    let answer = add(&mut [file, &vec![0; room]].concat(), counted(file), boat, edition, side);
    line(format!("add {boat} {edition} {side}"), answer, |count| format!("added {count}"))
}

/// Up to 100 records: good ones, ones of which some are damaged, ones cut off anywhere, and ones with a few bytes behind them.
fn file(r: &mut Random) -> Vec<u8> {
    let (few, many) = (r.within(0, 8), r.within(0, 100));
    let (boats, count) = (boats(r, (few + many / 4) as usize), pick(r, &[few, few, many]) as usize);
    let mut records = good(r, &boats, count);
    let sort = r.within(0, 9);
    if (5..=7).contains(&sort) {
        (0..r.within(1, 2)).for_each(|_| damage(r, &mut records));
    }
    let mut bytes: Vec<u8> = records.iter().flat_map(Record::bytes).collect();
    match sort {
        8 => bytes.truncate(r.within(0, bytes.len() as i64) as usize),
        9 => bytes.extend((0..r.within(1, 15)).map(|n| if n % 2 == 0 { 0 } else { r.next() as u8 })),
        _ => {}
    }
    bytes
}

/// What is asked of a file.
fn lines(r: &mut Random, file: &[u8]) -> Vec<String> {
    let records: Vec<Record> = file.chunks_exact(16).map(Record::read).collect();
    let asks: Vec<String> = (0..5).map(|_| asked(file, question(r, &records))).collect();
    let adds: Vec<String> = (0..5).map(|_| added(file, addition(r, &records))).collect();
    [asks, adds].concat()
}

/// Writes DIR/N.sheets and DIR/N.asks, N from 0 on.
pub fn write(dir: &Path, seed: u64, count: u64) -> std::io::Result<()> {
    std::fs::create_dir_all(dir)?;
    let mut r = Random::new(seed);
    for n in 0..count {
        let file = file(&mut r);
        std::fs::write(dir.join(format!("{n}.sheets")), &file)?;
        std::fs::write(dir.join(format!("{n}.asks")), lines(&mut r, &file).join("\n") + "\n")?;
    }
    Ok(())
}

#[cfg(test)]
mod tests {
    use super::*;
    use std::collections::BTreeMap;

    /// Boat 7 has editions 1 (starboard) and 2 (port).
    fn two() -> Vec<u8> {
        [Record::new(7, 1, 0).bytes(), Record::new(7, 2, 1).bytes()].concat()
    }

    #[test]
    fn answers() {
        assert_eq!(asked(&two(), (7, 1)), "ask 7 1 -> found 1 0");
        assert_eq!(asked(&two(), (7, 4294967295)), "ask 7 4294967295 -> found 2 1");
        assert_eq!(asked(&two(), (8, 1)), "ask 8 1 -> refuse 19 0");
        assert_eq!(asked(&[], (8, 1)), "ask 8 1 -> refuse 19 0");
        assert_eq!(added(&two(), (7, 3, 1)), "add 7 3 1 -> added 3");
        assert_eq!(added(&[], (7, 1, 0)), "add 7 1 0 -> added 1");
        assert_eq!(added(&two(), (7, 2, 1)), "add 7 2 1 -> refuse 21 0");
        assert_eq!(added(&two(), (7, 2, 2)), "add 7 2 2 -> refuse 22 0");
    }

    /// Cut in a record, with and without a bad one before; and bad ones in a whole file.
    #[test]
    fn twenty() {
        let bad = [&two()[..16], &two()[..16]].concat();
        for cut in 1..16 {
            for file in [two(), bad.clone()].map(|file| [&file[..], &vec![0; cut]].concat()) {
                assert_eq!(asked(&file, (7, 1)), "ask 7 1 -> refuse 20 2");
                assert_eq!(added(&file, (7, 3, 9)), "add 7 3 9 -> refuse 20 2");
            }
            assert_eq!(asked(&two()[..cut], (7, 1)), "ask 7 1 -> refuse 20 0");
        }
        assert_eq!(asked(&bad, (7, 1)), "ask 7 1 -> refuse 20 1");
        assert_eq!(added(&bad, (7, 2, 0)), "add 7 2 0 -> refuse 20 1");
    }

    /// Each number comes up in enough lines, 14 apart: there is room for one more.
    #[test]
    fn every_number() {
        let mut r = Random::new(96);
        let mut seen: BTreeMap<String, u32> = BTreeMap::new();
        for _ in 0..300 {
            let file = file(&mut r);
            assert!(file.len() <= 102 * 16 + 15);
            for line in lines(&mut r, &file) {
                let (asked, answer) = line.split_once(" -> ").unwrap();
                let number = answer.strip_prefix("refuse ").map_or("0", |rest| rest.split_once(' ').unwrap().0);
                *seen.entry(format!("{} {number}", &asked[..3])).or_default() += 1;
            }
        }
        let due = ["add 0", "add 20", "add 21", "add 22", "ask 0", "ask 19", "ask 20"];
        assert!(seen.keys().eq(due.iter()), "{seen:?}");
        assert!(seen.values().all(|count| *count >= 30), "{seen:?}");
    }
}
