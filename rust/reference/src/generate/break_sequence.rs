//! Rules on headers, on the order of commands, on where a batch ends, and on the buffers: 1, 2, 3, 12 and 13.

use crate::batch_cases::needed;
use crate::batch_valid::{once_in, pick};
use crate::command::{header, COMMANDS};
use crate::generate::breach::Breach;
use crate::generate::draft::{Draft, Progress};
use crate::random::Random;

/// A word that begins no command: a header with a bit wrong or another count of words, or anything.
pub fn unknown(r: &mut Random) -> u32 {
    let (word, ..) = pick(r, &COMMANDS);
    let (bit, count, any) = (word ^ 1 << r.within(0, 31), (word & !0xffff) + r.within(0, 70) as u32, r.next() as u32);
    Some(pick(r, &[bit, count, any])).filter(|word| header(*word).is_none()).unwrap_or_else(|| unknown(r))
}

/// A command of this name: one of the batch's own, or its header with any words.
fn command(r: &mut Random, draft: &Draft, name: &str) -> Vec<u32> {
    match draft.any(r, name) {
        Some(own) if once_in(r, 2) => draft.batch.0[own].clone(),
        _ => {
            let all: Vec<_> = COMMANDS.into_iter().filter(|command| command.1 == name).collect();
            let (word, _, count) = pick(r, &all);
            (0..count).map(|n| if n == 0 { word } else { r.next() as u32 }).collect()
        }
    }
}

/// A command put where the sequence forbids it, and which that is.
fn insert(r: &mut Random, draft: &mut Draft, name: &str, so_far: fn(&Progress) -> bool) -> Option<usize> {
    let gap = draft.any_gap(r, so_far)?;
    draft.batch.0.insert(gap, command(r, draft, name));
    Some(gap)
}

/// A rule of the sequence, the command that breaks it, and where that is put.
type Misplaced = (&'static str, &'static str, fn(&Progress) -> bool);

/// The paragraph that begins with "Sequence".
const MISPLACED: [Misplaced; 18] = [
    ("SURFACE once", "SURFACE", |so_far| so_far.surface),
    ("PICTURE once", "PICTURE", |so_far| so_far.picture),
    ("PICTURE after SURFACE", "PICTURE", |so_far| !so_far.surface),
    ("SLICEGROUP only after PICTURE, before SURFACE", "SLICEGROUP", |so_far| !so_far.surface),
    ("SLICEGROUP only after PICTURE, after SURFACE", "SLICEGROUP", |so_far| so_far.surface && !so_far.picture),
    ("SLICEGROUP only with no group open", "SLICEGROUP", |so_far| so_far.open && !so_far.complete),
    ("SLICEGROUP only with the picture unfinished", "SLICEGROUP", |so_far| so_far.complete),
    ("carried only before the first SLICEGROUP, in a group", "carried", |so_far| so_far.open),
    ("carried only before the first SLICEGROUP, between groups", "carried", |so_far| {
        so_far.grouped && !so_far.open && !so_far.complete
    }),
    ("carried only before the first SLICEGROUP, after the last macroblock", "carried", |so_far| so_far.complete),
    ("MACROBLOCK only in an open group, before PICTURE", "MACROBLOCK", |so_far| !so_far.picture),
    ("MACROBLOCK only in an open group, before SLICEGROUP", "MACROBLOCK", |so_far| so_far.picture && !so_far.grouped),
    ("MACROBLOCK only in an open group, between groups", "MACROBLOCK", |so_far| {
        so_far.grouped && !so_far.open && !so_far.complete
    }),
    ("MACROBLOCK only before W×H of them, no group open", "MACROBLOCK", |so_far| so_far.complete),
    ("END only with W×H seen, before PICTURE", "END", |so_far| !so_far.picture),
    ("END only with W×H seen, before SLICEGROUP", "END", |so_far| so_far.picture && !so_far.grouped),
    ("END only with W×H seen, between groups", "END", |so_far| so_far.grouped && !so_far.open && !so_far.complete),
    ("END only with no group open, the picture unfinished", "END", |so_far| so_far.open),
];

fn misplaced() -> impl Iterator<Item = Breach> {
    MISPLACED.into_iter().map(|(rule, name, so_far)| {
        Breach::new(rule, 3, move |r, draft| {
            let gap = insert(r, draft, name, so_far)?;
            Some(draft.batch.place(gap, 0))
        })
    })
}

/// The last macroblock leaves its group open, and this command follows it.
fn left_open() -> impl Iterator<Item = Breach> {
    let rules = [
        ("SLICEGROUP only with no group open, all macroblocks seen", "SLICEGROUP"),
        ("MACROBLOCK only before W×H of them, the group open", "MACROBLOCK"),
        ("carried only before the first SLICEGROUP, the last group left open", "carried"),
        ("END only with no group open, all macroblocks seen", "END"),
    ];
    rules.into_iter().map(|(rule, name)| {
        Breach::new(rule, 3, move |r, draft| {
            draft.leave_open()?;
            let gap = insert(r, draft, name, |so_far| so_far.complete)?;
            Some(draft.batch.place(gap, 0))
        })
    })
}

/// A command left out, the first or any of its name, and the one that is then out of sequence.
fn left_out() -> impl Iterator<Item = Breach> {
    let rules = [
        ("PICTURE after SURFACE, which is missing", "SURFACE", "PICTURE"),
        ("SLICEGROUP only after PICTURE, which is missing", "PICTURE", "SLICEGROUP"),
        ("MACROBLOCK only in an open group, SLICEGROUP missing", "SLICEGROUP", "MACROBLOCK"),
    ];
    let missing = rules.into_iter().map(|(rule, missing, follows)| {
        Breach::new(rule, 3, move |r, draft| {
            let command = draft.any(r, missing)?;
            draft.batch.0.remove(command);
            let next = draft.named(follows).into_iter().find(|next| *next >= command)?;
            Some(draft.batch.place(next, 0))
        })
    });
    missing.chain([Breach::new("END only with W×H seen, the last macroblocks missing", 3, |r, draft| {
        let first = draft.any(r, "MACROBLOCK")?;
        let end = draft.named("END").into_iter().find(|end| *end > first)?;
        draft.batch.0.drain(first..end);
        Some(draft.batch.place(first, 0))
    })])
}

/// The words given, cut in or before a command.
fn cut(draft: &mut Draft, command: usize, words: usize) -> Option<usize> {
    draft.batch.0.truncate(command + 1);
    draft.batch.0[command].truncate(words);
    Some(draft.batch.words().len())
}

/// A command of more than one word, up to END.
fn long_command(r: &mut Random, draft: &Draft) -> Option<usize> {
    let long: Vec<usize> = draft.gaps(|_| true).into_iter().filter(|command| draft.batch.0[*command].len() > 1).collect();
    (!long.is_empty()).then(|| pick(r, &long))
}

/// 1, and what it stands before.
fn run_out() -> Vec<Breach> {
    vec![
        Breach::new("words run out in a command", 1, |r, draft| {
            let command = long_command(r, draft)?;
            let given = r.within(1, draft.batch.0[command].len() as i64 - 1) as usize;
            cut(draft, command, given)
        }),
        Breach::new("words run out a word before a command's end", 1, |r, draft| {
            let command = long_command(r, draft)?;
            let given = draft.batch.0[command].len() - 1;
            cut(draft, command, given)
        }),
        Breach::new("words run out before END", 1, |r, draft| {
            let command = draft.any_gap(r, |_| true)?;
            cut(draft, command, 0)
        }),
        Breach::new("END missing", 1, |_, draft| {
            let end = *draft.named("END").first()?;
            draft.batch.0.remove(end);
            Some(draft.batch.words().len())
        }),
        Breach::new("1 before 3: a command out of sequence is cut", 1, |r, draft| {
            let name = pick(r, &["SURFACE", "PICTURE", "carried"]);
            let gap = insert(r, draft, name, |so_far| so_far.grouped)?;
            let given = r.within(1, draft.batch.0[gap].len() as i64 - 1) as usize;
            cut(draft, gap, given)
        }),
        Breach::new("1 before the rules of words: a command of wrong words is cut", 1, |r, draft| {
            let command = long_command(r, draft)?;
            draft.batch.0[command][1..].iter_mut().for_each(|word| *word = r.next() as u32);
            let given = r.within(1, draft.batch.0[command].len() as i64 - 1) as usize;
            cut(draft, command, given)
        }),
    ]
}

fn headers() -> Vec<Breach> {
    vec![
        Breach::new("unknown header in the place of one", 2, |r, draft| {
            let command = draft.any_gap(r, |_| true)?;
            draft.batch.0[command][0] = unknown(r);
            Some(draft.batch.place(command, 0))
        }),
        Breach::new("unknown header between commands", 2, |r, draft| {
            let command = draft.any_gap(r, |_| true)?;
            draft.batch.0.insert(command, vec![unknown(r)]);
            Some(draft.batch.place(command, 0))
        }),
        Breach::new("unknown header as the last word", 2, |r, draft| {
            let command = draft.any_gap(r, |_| true)?;
            draft.batch.0.truncate(command);
            draft.batch.0.push(vec![unknown(r)]);
            Some(draft.batch.place(command, 0))
        }),
    ]
}

/// "After END only zero words may follow."
fn after_end() -> impl Iterator<Item = Breach> {
    type Word = fn(&mut Random) -> u32;
    let words: [(&str, Word); 3] = [
        ("zero words after END, a header", |r| pick(r, &COMMANDS[1..]).0),
        ("zero words after END, a bit", |r| 1 << r.within(0, 31)),
        ("zero words after END, any word", |r| (r.next() as u32).max(1)),
    ];
    words.into_iter().map(|(rule, word)| {
        Breach::new(rule, 12, move |r, draft| {
            draft.batch.0.push(vec![0; r.within(0, 4) as usize]);
            let place = draft.batch.words().len();
            draft.batch.0.push(vec![word(r)]);
            draft.batch.0.push((0..r.within(0, 3)).map(|_| r.next() as u32).collect());
            Some(place)
        })
    })
}

/// "Buffer too short", at the "lowest such buffer".
fn buffers() -> impl Iterator<Item = Breach> {
    type Less = fn(&mut Random, u64) -> u64;
    let names = ["source", "reconstructed", "forward reference", "backward reference"];
    let short: [(&str, Less); 3] =
        [("by one byte", |_, length| length - 1), ("empty", |_, _| 0), ("too short", |r, length| r.next() % length)];
    let each = (0..4).flat_map(move |n| short.map(|(how, less)| (n, format!("buffer {}, {how}", names[n]), less)));
    each.map(|(n, rule, less)| {
        Breach::new(&rule, 13, move |r, draft| {
            let exact = needed(&draft.batch.words());
            if exact[n] == 0 {
                return None;
            }
            // exact up to it, anything above it
            for (m, length) in exact.into_iter().enumerate() {
                draft.buffers[m] = match m {
                    _ if m < n => length,
                    _ if m == n => less(r, length),
                    _ => pick(r, &[0, length, length.saturating_sub(1), u64::MAX]),
                };
            }
            Some(n)
        })
    })
}

pub fn breaches() -> Vec<Breach> {
    let mut all = run_out();
    all.extend(headers());
    all.extend(misplaced().chain(left_open()).chain(left_out()));
    all.extend(after_end());
    all.extend(buffers());
    all
}
