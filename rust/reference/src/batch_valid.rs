//! Batches that keep every rule.

use crate::batch::{lay_out, skip, Batch, End, Frame};
use crate::command::*;
use crate::command_cases::{by_fields, plain};
use crate::leaf::word_of;
use crate::random::Random;

/// True once in n times.
pub fn once_in(r: &mut Random, n: i64) -> bool {
    r.within(1, n) == 1
}

/// One of a list.
pub fn pick<T: Copy>(r: &mut Random, list: &[T]) -> T {
    list[r.within(0, list.len() as i64 - 1) as usize]
}

/// Low or high end of a range, next to it, or anything between.
pub fn near_ends(r: &mut Random, low: i64, high: i64) -> i64 {
    let between = r.within(low, high);
    pick(r, &[low, high, (low + 1).min(high), (high - 1).max(low), between, between])
}

/// A first chroma row from 16H on: next to luma, so that both may lie in one tile row; with chroma about a border of two tile
/// rows, a near one or any; or anything.
fn random_chroma_row(r: &mut Random, rows: u32) -> u32 {
    let (least, chroma_rows) = (i64::from(16 * rows), i64::from(8 * rows));
    let (near, any) = (least / 32 + r.within(1, 3), r.within(least / 32 + 1, 1024));
    let border = 32 * pick(r, &[near, any]);
    let row = match r.within(0, 2) {
        0 => least + r.within(0, 8),
        1 => border - near_ends(r, 0, chroma_rows),
        _ => near_ends(r, least, 32767),
    };
    row.clamp(least, 32767) as u32
}

/// Any sizes and f codes that a picture of this type and so many macroblocks can have, and PICTURE bit 10 of both values.
pub fn random_frame(r: &mut Random, sort: u32, columns: u32, rows: u32) -> Frame {
    let chroma_row = random_chroma_row(r, rows);
    let mut near = |low: u32, high: u32| near_ends(r, low.into(), high.into()) as u32;
    let mut frame = Frame {
        width: near(16 * columns - 15, 16 * columns),
        height: near(16 * rows - 15, 16 * rows),
        pitch: 128 * near((16 * columns).div_ceil(128), 1024),
        chroma_row,
        ..Frame::new(sort, columns, rows)
    };
    frame.fields = once_in(r, if sort == 2 { 2 } else { 3 });
    frame.codes = frame.codes.map(|code| if code == 15 { 15 } else { r.within(1, 9) as u32 });
    frame
}

/// "With f code c a component lies from −16·2^(c−1) to 16·2^(c−1)−1."
pub fn range(code: u32) -> (i64, i64) {
    let limit = (1..code).fold(16, |limit, _| 2 * limit);
    (-limit, limit - 1)
}

/// The components with which a block stays inside, at a place in a line of n macroblocks.
pub fn inside(place: u32, n: u32) -> (i64, i64) {
    (-32 * i64::from(place), 32 * i64::from(n - 1 - place))
}

/// The values that a component of a vector may have.
fn span((least, most): (i64, i64), (low, high): (i64, i64)) -> (i64, i64) {
    (low.max(least), high.min(most))
}

/// The spans of x and y for the k-th macroblock's forward (0) or backward (1) vector.
fn spans(frame: &Frame, k: u32, direction: usize) -> [(i64, i64); 2] {
    let codes = &frame.codes[2 * direction..];
    let (column, row) = (inside(k % frame.columns, frame.columns), inside(k / frame.columns, frame.rows));
    [span(range(codes[0]), column), span(range(codes[1]), row)]
}

/// Half of what is allowed of a frame's y. "Vertical components keep half the f code's range, −8·2^(c−1) to 8·2^(c−1)−1";
/// "inside 8H field rows".
pub fn halved((low, high): (i64, i64)) -> (i64, i64) {
    (low / 2, high.div_euclid(2))
}

/// The same for a vector of one of its fields.
fn field_spans(frame: &Frame, k: u32) -> [(i64, i64); 2] {
    let [x, _] = spans(frame, k, 0);
    [x, span(halved(range(frame.codes[1])), halved(inside(k / frame.columns, frame.rows)))]
}

/// A component from low to high: near an end, anything, near a multiple of 32, with which a block ends where a strip of its
/// tile does, or one more, with which luma alone comes to the next strip.
fn random_component(r: &mut Random, low: i64, high: i64) -> i64 {
    let any = near_ends(r, low, high);
    let strip = any.div_euclid(32) * 32;
    let near = strip + r.within(-2, 2);
    pick(r, &[any, any, near, strip + 1]).clamp(low, high)
}

pub fn random_vector(r: &mut Random, frame: &Frame, k: u32, direction: usize) -> u32 {
    let [x, y] = spans(frame, k, direction).map(|(low, high)| random_component(r, low, high));
    word_of(x, y)
}

pub fn random_field_vector(r: &mut Random, frame: &Frame, k: u32) -> u32 {
    let [x, y] = field_spans(frame, k).map(|(low, high)| random_component(r, low, high));
    word_of(x, y)
}

/// A macroblock predicted by fields, from any two fields.
pub fn random_field(r: &mut Random, frame: &Frame, k: u32) -> Command {
    let top = random_field_vector(r, frame, k);
    let bottom = if once_in(r, 5) { top } else { random_field_vector(r, frame, k) };
    let mut c = by_fields(top, bottom);
    for f in [TOP_CHOICE, BOTTOM_CHOICE] {
        f.set(&mut c, r.next() as u32);
    }
    c
}

pub fn fits(frame: &Frame, k: u32, direction: usize, vector: u32) -> bool {
    let components = [vector as u16 as i16, (vector >> 16) as u16 as i16];
    spans(frame, k, direction).iter().zip(components).all(|((low, high), v)| (*low..=*high).contains(&v.into()))
}

/// A skipped macroblock that may follow the one before it.
pub fn skipped(frame: &Frame, k: u32, before: &Command) -> Option<Command> {
    let (forward, backward) = (before[5], before[6]);
    match (frame.sort, kind(before)?) {
        (2, _) => Some(skip(1, 0, 0)),
        (3, 1) if fits(frame, k, 0, forward) => Some(skip(1, forward, 0)),
        (3, 2) if fits(frame, k, 1, backward) => Some(skip(2, 0, backward)),
        (3, 3) if fits(frame, k, 0, forward) && fits(frame, k, 1, backward) => Some(skip(3, forward, backward)),
        _ => None,
    }
}

fn random_end(r: &mut Random, frame: &Frame, k: u32) -> End {
    match k + 1 {
        next if next as usize == frame.macroblocks() => End::Group,
        next if next % frame.columns == 0 => pick(r, &[End::Slice, End::Slice, End::Slice, End::Group]),
        _ if once_in(r, 4) => pick(r, &[End::Slice, End::Slice, End::Group]),
        _ => End::Nothing,
    }
}

/// Intra, or any kind that the picture allows.
fn random_coded(r: &mut Random, frame: &Frame, k: u32, intra: bool) -> Command {
    let kinds = match frame.sort {
        2 if !intra && frame.fields => &[0, 1, 4, 4][..],
        2 if !intra => &[0, 1, 1, 1],
        3 if !intra => &[0, 1, 2, 3, 3],
        _ => &[0],
    };
    let kind = pick(r, kinds);
    let has = |direction: u32| kind & direction != 0;
    let forward = if has(1) { random_vector(r, frame, k, 0) } else { 0 };
    let backward = if has(2) { random_vector(r, frame, k, 1) } else { 0 };
    let mut c = if kind == 4 { random_field(r, frame, k) } else { plain(kind, forward, backward) };
    if kind != 0 {
        PATTERN.set(&mut c, r.next() as u32);
    }
    if frame.fields {
        DCT_TYPE.set(&mut c, r.next() as u32);
    }
    c
}

/// The macroblocks of a picture, their free fields filled at random. In half of the pictures few are predicted, here and
/// there or from some macroblock on, so that few blocks decide which window the references have.
fn random_macroblocks(r: &mut Random, frame: &Frame) -> Vec<(Command, End)> {
    let mut all: Vec<(Command, End)> = Vec::new();
    let (few, late) = pick(r, &[(true, false), (false, true), (false, false), (false, false)]);
    let last = frame.macroblocks() as i64 - 1;
    let from = if late { near_ends(r, last / 2, last) as u32 } else { 0 };
    for k in 0..frame.macroblocks() as u32 {
        let end = random_end(r, frame, k);
        let intra = k < from || (few && !once_in(r, 4));
        let may_skip = !intra && end == End::Nothing && !once_in(r, 3);
        let open = all.last().filter(|(_, before)| *before == End::Nothing && may_skip);
        let mut c = open.and_then(|(before, _)| skipped(frame, k, before)).unwrap_or_else(|| random_coded(r, frame, k, intra));
        for f in [CARRIED, MAXIMUM, TARGET, CLAMP] {
            f.set(&mut c, r.next() as u32);
        }
        NO_CONVERSION.set(&mut c, if frame.sort == 1 { 0 } else { r.next() as u32 });
        QUANTISER.set(&mut c, near_ends(r, 1, 31) as u32);
        all.push((c, end));
    }
    all
}

/// Unread words and free bits at random, now and then a word that begins a command elsewhere.
fn fill(r: &mut Random, batch: &mut Batch) {
    let mut unread = |words: &mut [u32]| {
        words.iter_mut().for_each(|word| *word = if once_in(r, 4) { pick(r, &COMMANDS).0 } else { r.next() as u32 })
    };
    for command in &mut batch.0 {
        match header(command[0]).unwrap().0 {
            "SURFACE" => unread(&mut command[5..]),
            "SLICEGROUP" | "carried" => unread(&mut command[1..]),
            "PICTURE" => {
                let mut free = [0; 3];
                unread(&mut free);
                command[1] |= free[0] & 0x0000_c9c0;
                command[2] |= free[1] & !0x0000_0600;
                command[3] |= free[2] & 0xff00_ff00;
                unread(&mut command[4..]);
            }
            _ => {}
        }
    }
}

/// NOOPs between any commands, carried commands before the first SLICEGROUP (command 2), zero words after END.
fn sprinkle(r: &mut Random, batch: &mut Batch, noops: usize, carried: usize) {
    for n in 0..carried {
        let (header, _, count) = COMMANDS[6 + n % 6];
        let mut command = vec![0; count];
        command[0] = header;
        batch.0.insert(r.within(0, 2 + n as i64) as usize, command);
    }
    for _ in 0..noops {
        batch.0.insert(r.within(0, batch.0.len() as i64) as usize, vec![0]);
    }
}

/// A batch that keeps every rule, with so many NOOPs and carried commands in it.
pub fn random_batch(r: &mut Random, frame: &Frame, noops: usize, carried: usize) -> Batch {
    let mut batch = lay_out(frame, &random_macroblocks(r, frame));
    sprinkle(r, &mut batch, noops, carried);
    fill(r, &mut batch);
    batch
}

#[cfg(test)]
mod tests {
    use super::*;
    use crate::check::check;

    /// Every batch is accepted, and what a batch may have comes up.
    #[test]
    fn accepted() {
        let mut r = Random::new(23);
        let mut seen = [[0; 5]; 3];
        let (mut kinds, mut dct_types) = ([0; 5], [0; 3]);
        for n in 0..900 {
            let (sort, columns, rows) = (n % 3 + 1, r.within(1, 6) as u32, r.within(1, 4) as u32);
            let frame = random_frame(&mut r, sort, columns, rows);
            let batch = random_batch(&mut r, &frame, n as usize % 5, n as usize % 7);
            assert_eq!(check(&batch.words(), [u64::MAX; 4]).number, 0);
            for c in batch.0.iter().filter(|command| command[0] == MACROBLOCK) {
                let c: &Command = c[..].try_into().unwrap();
                let mid_row = COLUMN.of(c) != columns - 1;
                let odd = kind(c) != Some(0) && c[5] % 2 == 1;
                let marks = [SKIP.of(c) == 1, mid_row && LAST_IN_SLICE.of(c) == 1, mid_row && LAST_IN_GROUP.of(c) == 1, odd];
                (0..4).for_each(|mark| seen[sort as usize - 1][mark] += u32::from(marks[mark]));
                kinds[usize::from(kind(c).unwrap())] += 1;
                dct_types[sort as usize - 1] += DCT_TYPE.of(c);
            }
            seen[sort as usize - 1][4] += u32::from(*batch.0.last().unwrap() == [0]);
        }
        assert_eq!((seen[0][0], seen[0][3]), (0, 0));
        (1..3).for_each(|sort| assert!(seen[sort].iter().all(|count| *count > 10), "{seen:?}"));
        assert!(kinds.iter().all(|count| *count > 200) && dct_types.iter().all(|count| *count > 200), "{kinds:?} {dct_types:?}");
    }
}
