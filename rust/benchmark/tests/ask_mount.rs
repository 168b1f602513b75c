//! Asking for a mount sheet, in C and by a plain function with a map, gives the second program's answers: number, place, edition
//! and side.

use benchmark::ask_mount::{by_map, in_c};
use reference::generate::mounts::{book, long_book, question, Book};
use reference::mounts::{ask, Answer, Sheet};
use reference::mounts_marks::{due, Reached};
use reference::mounts_reached::of_asking;
use reference::random::Random;

/// Holds both answers against the second program's, and gives that.
fn same(Book { sheets, count }: &Book, boat: u32, edition: u32) -> Answer<Sheet> {
    let due = ask(sheets, *count, boat, edition);
    assert_eq!(in_c(sheets, *count, boat, edition), due, "c: {boat} {edition} {count} {sheets:?}");
    assert_eq!(by_map(sheets, *count, boat, edition), due, "map: {boat} {edition} {count} {sheets:?}");
    due
}

/// Generated books, good and damaged, cut in a record, and with counts that are not what is stored. All that asking can bring
/// about comes up.
#[test]
fn generated_books() {
    let (mut r, mut reached) = (Random::new(79), Reached::default());
    for _ in 0..3000 {
        let book = book(&mut r);
        let records = book.records();
        for _ in 0..3 {
            let asked = question(&mut r, &records);
            let answer = same(&book, asked.0, asked.1);
            reached.count("ask", of_asking(&book.sheets, book.count, asked, answer));
        }
    }
    for mark in due().into_iter().filter(|mark| mark.0 == "ask") {
        assert!(reached.of(mark) >= 5, "{mark:?}: {}", reached.of(mark));
    }
}

/// Every byte of some books changed, in turn.
#[test]
fn changed_bytes() {
    let mut r = Random::new(80);
    let mut numbers = [0; 21];
    for _ in 0..100 {
        let mut book = book(&mut r);
        let asked = question(&mut r, &book.records());
        for at in 0..book.sheets.len().min(400) {
            let kept = book.sheets[at];
            book.sheets[at] ^= 1 << r.within(0, 7);
            numbers[usize::from(same(&book, asked.0, asked.1).number)] += 1;
            book.sheets[at] = kept;
        }
    }
    assert!([0, 19, 20].iter().all(|number| numbers[*number] >= 100), "{numbers:?}");
}

/// Bytes that begin at an odd address.
#[test]
fn odd_address() {
    let mut r = Random::new(81);
    for _ in 0..300 {
        let book = book(&mut r);
        let (boat, edition) = question(&mut r, &book.records());
        let due = same(&book, boat, edition);
        let later = [&[0xff], &book.sheets[..]].concat();
        assert_eq!(in_c(&later[1..], book.count, boat, edition), due);
        assert_eq!(by_map(&later[1..], book.count, boat, edition), due);
    }
}

/// Editions that 16 bits do not hold.
#[test]
fn long_books() {
    let (book, boat, newest) = long_book(&mut Random::new(82));
    for edition in [0, 1, 65_535, 65_536, newest, u32::MAX] {
        assert_eq!(same(&book, boat, edition).value.edition, edition.min(newest));
    }
}
