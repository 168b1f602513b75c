//! Rules of SURFACE and PICTURE: 4 and 5.

use crate::batch::Frame;
use crate::generate::breach::{any_value, fixed, put, Breach};
use crate::generate::draft::Draft;
use crate::random::Random;

/// "gives 5, [...] a pitch that is no multiple of 128 included".
fn pitch() -> Breach {
    Breach::new("the pitch is a multiple of 128", 5, |r, draft| {
        let command = draft.any(r, "SURFACE")?;
        let pitch = (128 * r.within(0, 1023) + r.within(1, 127)) as u32;
        put(draft, command, 3, 19, 3, pitch - 1);
        Some(draft.batch.place(command, 3))
    })
}

/// "With I all f codes are 15; with P forward 1 to 9, backward 15; with B all 1 to 9. These are judged at word 2."
fn codes() -> impl Iterator<Item = Breach> {
    let names = ["forward x", "forward y", "backward x", "backward y"];
    let each = (1..=3).flat_map(move |sort| (0..4).map(move |n| (sort, n)));
    each.map(move |(sort, n)| {
        let rule = format!("f code {} of {}", names[n], ["I", "P", "B"][sort as usize - 1]);
        let some = sort == 3 || (sort == 2 && n < 2);
        Breach::new(&rule, 5, move |r, draft| {
            let command = draft.any(r, "PICTURE").filter(|_| draft.frame.sort == sort)?;
            let code = any_value(r, (0..16).filter(|code| if some { !(1..=9).contains(code) } else { *code != 15 }))?;
            let lo = 16 + 4 * n as u8;
            put(draft, command, 1, lo + 3, lo, code);
            Some(draft.batch.place(command, 2))
        })
    })
}

/// "1 I, 2 P, 3 B": no type 0, and none of which the f codes are those of another.
fn types() -> impl Iterator<Item = Breach> {
    [("type 0", true), ("type and f codes", false)].into_iter().map(|(rule, none)| {
        Breach::new(rule, 5, move |r, draft| {
            let command = draft.any(r, "PICTURE")?;
            let sort = if none { 0 } else { any_value(r, (1..4).filter(|sort| *sort != draft.frame.sort))? };
            put(draft, command, 2, 10, 9, sort);
            Some(draft.batch.place(command, 2))
        })
    })
}

/// A relation between SURFACE and PICTURE, and another frame that breaks it; none where no frame of so many macroblocks does.
type Relation = (&'static str, fn(&mut Random, Frame) -> Option<Frame>);

fn within(r: &mut Random, low: u32, high: u32) -> Option<u32> {
    (low <= high).then(|| r.within(low.into(), high.into()) as u32)
}

/// "H at most 175, 16(W−1) < width ≤ 16W, 16(H−1) < height ≤ 16H, pitch ≥ 16W, C ≥ 16H": anywhere past a limit, and next to it.
const RELATIONS: [Relation; 14] = [
    ("H at most 175", |r, f| {
        let rows = within(r, 176, 256)?;
        Some(Frame { rows, height: 16 * rows, chroma_row: within(r, 16 * rows, 32767)?, ..f })
    }),
    ("H 176", |r, f| Some(Frame { rows: 176, height: within(r, 16 * 175 + 1, 16 * 176)?, chroma_row: 16 * 176, ..f })),
    ("16(W−1) < width", |r, f| Some(Frame { width: within(r, 1, 16 * (f.columns - 1))?, ..f })),
    ("width 16(W−1)", |_, f| (f.columns > 1).then_some(Frame { width: 16 * f.columns - 16, ..f })),
    ("width ≤ 16W", |r, f| Some(Frame { width: within(r, 16 * f.columns + 1, 16384)?, ..f })),
    ("width 16W + 1", |_, f| Some(Frame { width: 16 * f.columns + 1, ..f })),
    ("16(H−1) < height", |r, f| Some(Frame { height: within(r, 1, 16 * (f.rows - 1))?, ..f })),
    ("height 16(H−1)", |_, f| (f.rows > 1).then_some(Frame { height: 16 * f.rows - 16, ..f })),
    ("height ≤ 16H", |r, f| Some(Frame { height: within(r, 16 * f.rows + 1, 16384)?, ..f })),
    ("height 16H + 1", |_, f| Some(Frame { height: 16 * f.rows + 1, ..f })),
    ("pitch ≥ 16W", |r, f| Some(Frame { pitch: 128 * within(r, 1, (16 * f.columns - 1) / 128)?, ..f })),
    ("pitch next below 16W", |_, f| Some(Frame { pitch: 128 * Some((16 * f.columns - 1) / 128).filter(|n| *n > 0)?, ..f })),
    ("C ≥ 16H", |r, f| Some(Frame { chroma_row: within(r, 0, 16 * f.rows - 1)?, ..f })),
    ("C 16H − 1", |_, f| Some(Frame { chroma_row: 16 * f.rows - 1, ..f })),
];

fn break_relation(r: &mut Random, draft: &mut Draft, change: Relation) -> Option<usize> {
    let (surface, picture) = (draft.any(r, "SURFACE")?, draft.any(r, "PICTURE")?);
    let f = change.1(r, draft.frame)?;
    put(draft, surface, 2, 31, 18, f.height - 1);
    put(draft, surface, 2, 17, 4, f.width - 1);
    put(draft, surface, 3, 19, 3, f.pitch - 1);
    put(draft, surface, 4, 14, 0, f.chroma_row);
    put(draft, picture, 3, 23, 16, f.rows - 1);
    Some(draft.batch.place(picture, 3))
}

fn relations() -> impl Iterator<Item = Breach> {
    RELATIONS.into_iter().map(|change| Breach::new(change.0, 5, move |r, draft| break_relation(r, draft, change)))
}

pub fn breaches() -> Vec<Breach> {
    let surface = [(1, 31, 0), (2, 3, 0), (3, 31, 28), (3, 27, 27), (3, 26, 20), (3, 2, 2), (3, 1, 0), (4, 31, 15)];
    let picture = [(1, 13, 12), (1, 9, 9), (1, 5, 0)];
    let mut all: Vec<Breach> = surface.into_iter().map(|(word, hi, lo)| fixed("SURFACE", word, hi, lo)).collect();
    all.extend(picture.into_iter().map(|(word, hi, lo)| fixed("PICTURE", word, hi, lo)));
    all.push(pitch());
    all.extend(codes());
    all.extend(types());
    all.extend(relations());
    all
}
