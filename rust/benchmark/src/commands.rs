//! Batches in which other commands outnumber macroblocks: NOOPs outside and inside groups, and carried commands.

use crate::pictures::Picture;
use reference::command::header;
use reference::random::Random;

/// Headers and words of the carried commands.
pub const CARRIED: [(u32, usize); 6] =
    [(0x7000_0003, 5), (0x7002_003b, 61), (0x7003_0018, 26), (0x7004_0008, 10), (0x7007_0010, 18), (0x7008_0020, 34)];

/// The picture that the commands are added to: 120 by 68 macroblocks, type P.
pub const PICTURE: Picture = Picture::new(2, 120, 68);

/// The words of a batch with so many NOOPs before each command that is chosen by its number among those of its name.
fn with_noops(name: &str, chosen: impl Fn(usize) -> usize) -> Vec<u32> {
    let words = PICTURE.words(0);
    let (mut all, mut at, mut seen) = (Vec::new(), 0, 0);
    while at < words.len() {
        let (found, count) = header(words[at]).unwrap();
        if found == name {
            all.resize(all.len() + chosen(seen), 0);
            seen += 1;
        }
        all.extend(&words[at..at + count]);
        at += count;
    }
    all
}

/// So many NOOPs before the picture.
pub fn noops_before(count: usize) -> Vec<u32> {
    with_noops("SURFACE", |_| count)
}

/// So many NOOPs before every macroblock.
pub fn noops_between(count: usize) -> Vec<u32> {
    with_noops("MACROBLOCK", |_| count)
}

/// So many NOOPs in one run, before the second macroblock of the first group.
pub fn noops_within(count: usize) -> Vec<u32> {
    with_noops("MACROBLOCK", |number| if number == 1 { count } else { 0 })
}

fn push_carried(words: &mut Vec<u32>, r: &mut Random, (header, count): (u32, usize)) {
    words.push(header);
    words.extend((1..count).map(|_| r.next() as u32));
}

/// Carried commands of these sizes before the picture.
pub fn carried_before(sizes: impl Iterator<Item = (u32, usize)>) -> Vec<u32> {
    let (mut words, mut r) = (Vec::new(), Random::new(8));
    sizes.for_each(|size| push_carried(&mut words, &mut r, size));
    words.extend(PICTURE.words(0));
    words
}

/// So many words of carried commands and NOOPs, about as many words of each.
pub fn filling(count: usize) -> Vec<u32> {
    let mut r = Random::new(7);
    let mut words = Vec::with_capacity(count);
    while words.len() + 61 <= count {
        let size = CARRIED[r.within(0, 5) as usize];
        push_carried(&mut words, &mut r, size);
        words.resize(words.len() + r.within(0, 50) as usize, 0);
    }
    words.resize(count, 0);
    words
}
