//! What is asked about one generated batch, command, record or book of mount sheets, or in one run of the program.

use crate::compare::{Compare, Compared, Mismatch};
use crate::program::{run, way};
use reference::batch_valid::{once_in, pick};
use reference::check::{beside, lengths_of, line};
use reference::decode::log_bytes;
use reference::generate::batches::{Batch, Batches};
use reference::generate::{input, mount_lists, mounts, single};
use reference::program::{answer, bytes_of};
use reference::random::Random;
use std::path::Path;

/// A mismatch, with the bytes that were handed in.
pub type Asked = Result<(), (Mismatch, Vec<u8>)>;

fn with_bytes(compared: Compared, bytes: impl FnOnce() -> Vec<u8>) -> Asked {
    compared.map_err(|mismatch| (mismatch, bytes()))
}

/// Random numbers of their own for each question, so that it can be asked again alone.
pub fn numbers(seed: u64, index: u64) -> Random {
    Random::new(Random::new(seed).next() ^ Random::new(index).next())
}

/// The whole batch beside its own lengths, and beside exact ones, one of them short by a byte, and any.
fn whole(compare: &mut Compare, r: &mut Random, batch: &Batch, exact: [u64; 4]) -> Compared {
    let mut one_short = exact;
    let n = r.within(0, 3) as usize;
    one_short[n] = exact[n].saturating_sub(1);
    let any = exact.map(|_| r.next());
    for buffers in [batch.buffers, exact, one_short, pick(r, &[any, [0; 4], [u64::MAX; 4]])] {
        compare.whole(&batch.words, buffers, beside(batch.judged, buffers))?;
    }
    Ok(())
}

/// The batch in parts; in every other one the answer is asked before some of them too.
fn parts(compare: &mut Compare, r: &mut Random, batch: &Batch) -> Compared {
    let lengths = input::parts(r, batch.words.len());
    let asked = once_in(r, 2) && batch.words.len() < 2000;
    let one_in = lengths.len() as i64 / 3 + 1;
    let parts: Vec<(usize, bool)> = lengths.into_iter().map(|length| (length, asked && once_in(r, one_in))).collect();
    compare.parts(&batch.words, batch.buffers, &parts, r.next(), beside(batch.judged, batch.buffers))
}

/// The batch decoded, mostly beside long enough buffers: with room exactly enough, a byte short, longer, and any; if it is
/// refused, with room enough, and now and then any.
fn decoded(compare: &mut Compare, r: &mut Random, batch: &Batch, exact: [u64; 4]) -> Compared {
    let needed = log_bytes(&batch.words).unwrap_or(24);
    let any = single::room(r, needed);
    let rooms = match batch.judged {
        Ok(_) => vec![needed, needed - 1, needed + r.within(1, 50) as usize, any],
        Err(_) if once_in(r, 4) => vec![needed, any],
        Err(_) => vec![needed],
    };
    for room in rooms {
        let buffers = pick(r, &[exact, exact, [u64::MAX; 4], batch.buffers]);
        compare.decoded(&batch.words, buffers, room, beside(batch.judged, buffers))?;
    }
    Ok(())
}

/// One batch, checked whole and in parts, and decoded.
pub fn ask_batch(compare: &mut Compare, r: &mut Random, batch: &Batch) -> Asked {
    let exact = batch.judged.map_or([384; 4], lengths_of);
    let compared =
        whole(compare, r, batch, exact).and_then(|()| parts(compare, r, batch)).and_then(|()| decoded(compare, r, batch, exact));
    with_bytes(compared, || bytes_of(&batch.words, batch.buffers))
}

/// One command read alone, and one record written alone.
pub fn ask_single(compare: &mut Compare, r: &mut Random) -> Asked {
    let (words, room) = single::command(r);
    with_bytes(compare.command(&words, room), || words.iter().flat_map(|word| word.to_le_bytes()).collect())?;
    let (bytes, room) = single::record(r);
    with_bytes(compare.record(&bytes, room), || bytes)
}

/// One book of mount sheets: several questions, and several addings to it as it stands.
fn ask_book(compare: &mut Compare, r: &mut Random) -> Asked {
    let book = mounts::book(r);
    let records = book.records();
    for _ in 0..4 {
        let asked = compare.mounts.ask(&book.sheets, book.count, mounts::question(r, &records));
        with_bytes(asked, || book.sheets.clone())?;
        let added = compare.mounts.add(&book.sheets, book.count, mounts::addition(r, &records));
        with_bytes(added, || book.sheets.clone())?;
    }
    Ok(())
}

/// A boat with more editions than 16 bits count.
fn ask_long_book(compare: &mut Compare, r: &mut Random) -> Asked {
    let (book, boat, newest) = mounts::long_book(r);
    for edition in [1, 65_535, 65_536, newest, newest + 1] {
        with_bytes(compare.mounts.ask(&book.sheets, book.count, (boat, edition)), || book.sheets.clone())?;
    }
    for edition in [newest, newest + 1, (newest + 1) % 65_536] {
        with_bytes(compare.mounts.add(&book.sheets, book.count, (boat, edition, 1)), || book.sheets.clone())?;
    }
    Ok(())
}

/// One book; with every 8th a list of calls on another one, and with every 1000th a long one.
pub fn ask_mounts(compare: &mut Compare, r: &mut Random, index: u64) -> Asked {
    ask_book(compare, r)?;
    if index % 8 == 7 {
        let list = mount_lists::list(r);
        with_bytes(compare.mounts.list(&list), || list.book.sheets)?;
    }
    if index % 1000 == 999 {
        ask_long_book(compare, r)?;
    }
    Ok(())
}

/// Every x beside some y and every y beside some x, on both sides and on some that there are not.
pub fn ask_vectors(compare: &mut Compare) -> Asked {
    let some = [0, 1, -1, 255, 12345, i16::MAX, -i16::MAX, i16::MIN];
    for (side, others) in [(0, &some[..]), (1, &some), (2, &some)].into_iter().chain(NO_SIDES.map(|side| (side, &some[6..]))) {
        for other in others {
            for every in i16::MIN..=i16::MAX {
                let compared = compare.mounts.vector(side, every, *other);
                with_bytes(compared.and_then(|()| compare.mounts.vector(side, *other, every)), Vec::new)?;
            }
        }
    }
    Ok(())
}

/// Sides above 1, of which the low bits alone would be one.
const NO_SIDES: [u32; 8] = [3, 255, 256, 257, 1 << 16, (1 << 16) + 1, 1 << 31, u32::MAX];

/// One run of the program; every 64th with a long input.
pub fn ask_program(compare: &mut Compare, r: &mut Random, batches: &Batches, program: &Path, index: u64) -> Asked {
    let batch = if index % 64 == 63 { batches.long(r) } else { batches.next(r) };
    let bytes = input::bytes(r, &batch);
    let due = answer(&bytes);
    compare.tally.count("program", due.number);
    let way = way(r, bytes.len());
    let question = format!("{} by {way:?}", program.display());
    let given = run(r, program, &bytes, way).unwrap_or_else(|e| e.to_string());
    let due = line(&due) + "\n";
    if given == due {
        return Ok(());
    }
    Err((Mismatch { question, due, given }, bytes))
}
