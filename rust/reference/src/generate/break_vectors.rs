//! Rules of MACROBLOCK's words 5 to 8: 8, 9 and 10.

use crate::batch_valid::{self, halved, once_in, pick, range};
use crate::command::*;
use crate::generate::breach::{macroblock, Breach};
use crate::generate::break_macroblock::is;
use crate::generate::draft::{At, Draft};
use crate::leaf::word_of;
use crate::random::Random;

/// "A missing vector is a copy": for each kind, the words that are copies. In a skipped macroblock other words are 11.
const COPIES: [(&str, u8, &[usize]); 5] = [
    ("intra", 0, &[5, 6, 7, 8]),
    ("forward", 1, &[6, 7, 8]),
    ("backward", 2, &[5, 7, 8]),
    ("both", 3, &[7, 8]),
    ("by fields", 4, &[6, 8]),
];

/// A bit wrong, zero, halves exchanged, or another vector.
fn not_its_copy(r: &mut Random, c: &Command, word: usize) -> Option<u32> {
    let copy = c[word];
    let bit = copy ^ 1 << r.within(0, 31);
    let other = pick(r, &[bit, 0, copy.rotate_left(16), c[5], c[6], c[7], copy.wrapping_neg()]);
    (other != copy).then_some(other)
}

fn copies() -> impl Iterator<Item = Breach> {
    let each = COPIES.into_iter().flat_map(|(name, sort, words)| words.iter().map(move |word| (name, sort, *word)));
    each.map(|(name, sort, word)| {
        macroblock(&format!("{name}: word {word} is a copy"), 8, word, move |r, _, at| {
            let mut c = at.c;
            c[word] = not_its_copy(r, &c, word).filter(|_| kind(&c) == Some(sort) && !is(&c, SKIP))?;
            Some(c)
        })
    })
}

/// A vector of a macroblock: forward, backward, the top field's, the bottom field's.
#[derive(Clone, Copy, PartialEq, Eq)]
enum Vector {
    Forward,
    Backward,
    Top,
    Bottom,
}

impl Vector {
    fn name(self) -> &'static str {
        match self {
            Vector::Forward => "forward",
            Vector::Backward => "backward",
            Vector::Top => "top field's",
            Vector::Bottom => "bottom field's",
        }
    }

    /// The word in which it stands.
    fn word(self) -> usize {
        match self {
            Vector::Forward | Vector::Top => 5,
            Vector::Backward => 6,
            Vector::Bottom => 7,
        }
    }

    fn of_a_field(self) -> bool {
        matches!(self, Vector::Top | Vector::Bottom)
    }

    /// The macroblock with another such vector, copies and all. None if it has no such vector, or is skipped.
    fn replaced(self, c: &Command, vector: u32) -> Option<Command> {
        let mut c = *c;
        match (kind(&c)?, self) {
            _ if is(&c, SKIP) => return None,
            (1, Vector::Forward) | (2, Vector::Backward) => c[5..].fill(vector),
            (3, Vector::Forward) => (c[5], c[7]) = (vector, vector),
            (3, Vector::Backward) => (c[6], c[8]) = (vector, vector),
            (4, Vector::Top) => (c[5], c[6], c[8]) = (vector, vector, vector),
            (4, Vector::Bottom) => c[7] = vector,
            _ => return None,
        }
        Some(c)
    }
}

/// A vector of a macroblock, one of its components (0 x, 1 y), and which end of what is allowed.
#[derive(Clone, Copy)]
struct Component {
    vector: Vector,
    axis: usize,
    high: bool,
}

impl Component {
    fn all() -> impl Iterator<Item = Component> {
        let each = [Vector::Forward, Vector::Backward, Vector::Top, Vector::Bottom].into_iter();
        each.flat_map(|vector| (0..4).map(move |n| Component { vector, axis: n / 2, high: n % 2 == 1 }))
    }

    fn name(self) -> String {
        format!("{} {}", self.vector.name(), ["x", "y"][self.axis])
    }

    /// The command with this component of the vector replaced.
    fn replaced(self, c: &Command, value: i64) -> Option<Command> {
        let vector = c[self.vector.word()];
        let mut components = [vector as u16 as i16, (vector >> 16) as u16 as i16].map(i64::from);
        components[self.axis] = value;
        self.vector.replaced(c, word_of(components[0], components[1]))
    }

    /// The ends of what the f code allows, and of what lies inside the picture. A field has half of the rows and of y's range.
    fn ends(self, draft: &Draft, at: &At) -> [(i64, i64); 2] {
        let f = &draft.frame;
        let (place, n) = [(at.k % f.columns, f.columns), (at.k / f.columns, f.rows)][self.axis];
        let codes = if self.vector == Vector::Backward { &f.codes[2..] } else { &f.codes[..2] };
        let ends = [range(codes[self.axis]), batch_valid::inside(place, n)];
        if self.axis == 1 && self.vector.of_a_field() {
            ends.map(halved)
        } else {
            ends
        }
    }

    /// A value past one of these ends, near it or far.
    fn past(self, r: &mut Random, (low, high): (i64, i64), (least, most): (i64, i64)) -> Option<i64> {
        let (first, last) = if self.high { (high + 1, most) } else { (least, low - 1) };
        let near = if self.high { first } else { last };
        (first <= last).then(|| if once_in(r, 2) { near } else { r.within(first, last) })
    }
}

/// "With f code c a component lies from −16·2^(c−1) to 16·2^(c−1)−1", in a field's y from −8·2^(c−1) to 8·2^(c−1)−1: past an
/// end, still inside the picture or anywhere.
fn ranges() -> impl Iterator<Item = Breach> {
    let each = Component::all().flat_map(|component| [(component, true), (component, false)]);
    each.map(|(component, inside)| {
        let end = if component.high { "at most its range's end" } else { "at least its range's start" };
        let rule = format!("{} {end}{}", component.name(), if inside { ", inside the picture" } else { "" });
        macroblock(&rule, 9, component.vector.word(), move |r, draft, at| {
            let [code, picture] = component.ends(draft, at);
            let most = if inside { picture } else { (-32768, 32767) };
            component.replaced(&at.c, component.past(r, code, most)?)
        })
    })
}

/// The luma block "must lie in columns 0 to 16W−1, rows 0 to 16H−1": past an end, within the f code.
fn inside() -> impl Iterator<Item = Breach> {
    Component::all().map(|component| {
        let end = [["left", "right"], ["above", "below"]][component.axis][usize::from(component.high)];
        let rule = format!("{} {end} of the picture", component.name());
        macroblock(&rule, 10, component.vector.word(), move |r, draft, at| {
            let [code, picture] = component.ends(draft, at);
            component.replaced(&at.c, component.past(r, picture, code)?)
        })
    })
}

pub fn breaches() -> Vec<Breach> {
    copies().chain(ranges()).chain(inside()).collect()
}
