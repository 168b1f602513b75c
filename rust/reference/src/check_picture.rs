//! The rules of SURFACE and PICTURE, and what both say of the picture.

use crate::command::Rule;
use crate::leaf::bits;

/// The types of "type in 10:9, 1 I, 2 P, 3 B".
pub const I: u32 = 1;
pub const P: u32 = 2;
pub const B: u32 = 3;

/// What SURFACE says.
#[derive(Clone, Copy)]
pub struct Surface {
    width: u32,
    height: u32,
    pitch: u32,
    chroma_row: u32,
}

/// "2: height−1 in 31:18, width−1 in 17:4"; "3: [...] pitch−1 in 19:3"; "4: first chroma row C in 14:0".
pub fn surface(words: &[u32]) -> Surface {
    Surface {
        width: bits(words[2], 17, 4) + 1,
        height: bits(words[2], 31, 18) + 1,
        pitch: bits(words[3], 19, 3) + 1,
        chroma_row: bits(words[4], 14, 0),
    }
}

/// Word 5 is unread.
pub fn surface_rules(words: &[u32]) -> Vec<Rule> {
    let three = words[3];
    let form = bits(three, 31, 28) == 4 && bits(three, 27, 27) == 1 && bits(three, 1, 0) == 3;
    let zeros = bits(three, 26, 20) == 0 && bits(three, 2, 2) == 0;
    vec![
        (1, 4, words[1] == 0),
        (2, 4, bits(words[2], 3, 0) == 0),
        (3, 4, form && zeros),
        // "gives 5, [...] a pitch that is no multiple of 128 included"
        (3, 5, surface(words).pitch.is_multiple_of(128)),
        // "the rest zero"
        (4, 4, bits(words[4], 31, 15) == 0),
    ]
}

/// What SURFACE and PICTURE say of the picture.
#[derive(Clone, Copy)]
pub struct Picture {
    pub pitch: u32,
    pub chroma_row: u32,
    /// W and H.
    pub columns: u32,
    pub rows: u32,
    /// I, P or B.
    pub sort: u32,
    /// Whether bit 10 of word 1 is 0, which field prediction and the dct type need.
    pub fields: bool,
    /// f codes, x and y of each.
    pub forward: (u32, u32),
    pub backward: (u32, u32),
}

/// "f codes forward x 19:16, forward y 23:20, backward x 27:24, backward y 31:28"; "W−1 in 7:0, H−1 in 23:16".
pub fn picture(s: &Surface, words: &[u32]) -> Picture {
    let codes = words[1];
    Picture {
        pitch: s.pitch,
        chroma_row: s.chroma_row,
        columns: bits(words[3], 7, 0) + 1,
        rows: bits(words[3], 23, 16) + 1,
        sort: bits(words[2], 10, 9),
        fields: bits(words[1], 10, 10) == 0,
        forward: (bits(codes, 19, 16), bits(codes, 23, 20)),
        backward: (bits(codes, 27, 24), bits(codes, 31, 28)),
    }
}

/// "With I all f codes are 15; with P forward 1 to 9, backward 15; with B all 1 to 9. These are judged at word 2."
fn codes_fit(p: &Picture) -> bool {
    let none = |codes: (u32, u32)| codes == (15, 15);
    let some = |codes: (u32, u32)| (1..=9).contains(&codes.0) && (1..=9).contains(&codes.1);
    match p.sort {
        I => none(p.forward) && none(p.backward),
        P => some(p.forward) && none(p.backward),
        B => some(p.forward) && some(p.backward),
        _ => false,
    }
}

/// Words 4 to 12 are unread.
pub fn picture_rules(s: &Surface, words: &[u32]) -> Vec<Rule> {
    let one = words[1];
    let p = picture(s, words);
    let spans = |samples: u32, n: u32| 16 * (n - 1) < samples && samples <= 16 * n;
    vec![
        // "13:12 = 3, 10 = 1, 9 = 0, 5:0 zero, others free", where "PICTURE bit 10 may now be 0"
        (1, 4, bits(one, 13, 12) == 3 && bits(one, 9, 9) == 0 && bits(one, 5, 0) == 0),
        (2, 5, codes_fit(&p)),
        // "H at most 175, 16(W−1) < width ≤ 16W, 16(H−1) < height ≤ 16H, pitch ≥ 16W, C ≥ 16H"
        (3, 5, p.rows <= 175),
        (3, 5, spans(s.width, p.columns)),
        (3, 5, spans(s.height, p.rows)),
        (3, 5, s.pitch >= 16 * p.columns),
        (3, 5, s.chroma_row >= 16 * p.rows),
    ]
}
