//! The whole check of a batch as document 01 tells it: commands in order, and in each the first rule that it breaks.

use crate::check_macroblock::{macroblock_rules, touched, Place};
use crate::check_picture::{picture, picture_rules, surface, surface_rules, Picture, Surface};
use crate::command::{first_broken, header, Answer, Command, Rule, LAST_IN_GROUP};
use crate::leaf::Window;

/// Number and place, the four lengths and "each buffer's [...] first touched byte", zeros where they are not reported.
#[derive(Clone, Copy, Debug, Default, PartialEq, Eq)]
pub struct Report {
    pub number: u8,
    pub place: u64,
    pub lengths: [u64; 4],
    pub firsts: [u64; 4],
}

impl Report {
    /// All that is reported beside number and place, in the order in which it is printed: "after the four lengths, in the same
    /// line".
    pub fn reported(&self) -> Vec<u64> {
        [self.lengths, self.firsts].concat()
    }
}

/// What has come before a command.
#[derive(Default)]
struct Before {
    surface: Option<Surface>,
    picture: Option<Picture>,
    /// Whether a SLICEGROUP has come.
    grouped: bool,
    /// Of the open group, how many macroblocks have come.
    group: Option<usize>,
    macroblocks: usize,
    last: Option<Command>,
    windows: Windows,
}

impl Before {
    /// The paragraph that begins with "Sequence".
    fn allows(&self, name: &str) -> bool {
        let due = self.picture.map(|p| (p.columns * p.rows) as usize);
        let unfinished = due.is_some_and(|due| self.macroblocks < due);
        match name {
            // "SURFACE once; PICTURE once, after it"
            "SURFACE" => self.surface.is_none(),
            "PICTURE" => self.surface.is_some() && self.picture.is_none(),
            // "only after PICTURE, with no group open and the picture unfinished"
            "SLICEGROUP" => self.picture.is_some() && self.group.is_none() && unfinished,
            // "only before the first SLICEGROUP"
            "carried" => !self.grouped,
            // "only in an open group and before W×H of them have come"
            "MACROBLOCK" => self.group.is_some() && unfinished,
            // "only with exactly W×H seen and no group open"
            "END" => due == Some(self.macroblocks) && self.group.is_none(),
            // "NOOP may stand anywhere."
            _ => true,
        }
    }

    /// Where the next macroblock stands. A group is open only after PICTURE.
    fn place(&self) -> Place<'_> {
        let picture = self.picture.as_ref().unwrap();
        Place { picture, k: self.macroblocks, before: self.last.as_ref(), first: self.group == Some(0) }
    }

    /// "Carried commands and SLICEGROUP have no rule past their headers."
    fn rules(&self, name: &str, words: &[u32]) -> Vec<Rule> {
        match name {
            "SURFACE" => surface_rules(words),
            "PICTURE" => picture_rules(&self.surface.unwrap(), words),
            "MACROBLOCK" => macroblock_rules(words.try_into().unwrap(), &self.place()),
            _ => vec![],
        }
    }

    /// A command that keeps its rules. "SLICEGROUP opens a group and LastMbInSG closes it."
    fn take(&mut self, name: &str, words: &[u32]) {
        match name {
            "SURFACE" => self.surface = Some(surface(words)),
            "PICTURE" => self.picture = Some(picture(&self.surface.unwrap(), words)),
            "SLICEGROUP" => (self.grouped, self.group) = (true, Some(0)),
            "MACROBLOCK" => self.take_macroblock(words.try_into().unwrap()),
            _ => {}
        }
    }

    fn take_macroblock(&mut self, c: &Command) {
        for (buffer, window) in touched(c, &self.place()) {
            Window::join(&mut self.windows[buffer], window);
        }
        self.macroblocks += 1;
        self.group = self.group.map(|n| n + 1).filter(|_| LAST_IN_GROUP.of(c) == 0);
        self.last = Some(*c);
    }
}

/// What is touched of each buffer.
pub type Windows = [Option<Window>; 4];

/// The length that each buffer must have, "still counted from byte 0": one more than its highest touched byte.
pub fn lengths_of(windows: Windows) -> [u64; 4] {
    windows.map(|window| window.map_or(0, |window| window.last + 1))
}

/// "Each buffer's report gives its first touched byte (0 if untouched)."
pub fn firsts_of(windows: Windows) -> [u64; 4] {
    windows.map(|window| window.map_or(0, |window| window.first))
}

/// What the words alone come to, whatever the buffers: the refusal, or what they touch.
pub type Judged = Result<Windows, Answer>;

/// Numbers 1 to 12, or what the batch touches. "Commands in order; in each 2, then 1, then 3, then words upwards."
fn walk(words: &[u32]) -> Judged {
    let mut before = Before::default();
    let mut at = 0;
    loop {
        // "words run out in a command or before END", placed at the "words given"
        let run_out = (1, words.len());
        let (name, count) = header(*words.get(at).ok_or(run_out)?).ok_or((2, at))?;
        let command = words.get(at..at + count).ok_or(run_out)?;
        if !before.allows(name) {
            return Err((3, at));
        }
        if let Some((number, place)) = first_broken(&before.rules(name, command)) {
            return Err((number, at + place));
        }
        before.take(name, command);
        at += count;
        if name == "END" {
            break;
        }
    }
    // "After END only zero words may follow."
    match words[at..].iter().position(|word| *word != 0) {
        Some(further) => Err((12, at + further)),
        None => Ok(before.windows),
    }
}

/// Numbers 1 to 12 and 27 of a batch of which no word beyond the first so many is judged, or what it touches.
fn judge_up_to(most: usize, words: &[u32]) -> Judged {
    match walk(&words[..words.len().min(most)]) {
        Err((number, place)) if number != 1 => Err((number, place)),
        // "27 stands in place of 1 and comes before 13"
        _ if words.len() > most => Err((27, most)),
        judged => judged,
    }
}

/// No word beyond the first 4294967295 is judged.
pub fn judge(words: &[u32]) -> Judged {
    judge_up_to(4_294_967_295, words)
}

/// The answer to what was judged so, beside buffers of these lengths.
pub fn beside(judged: Judged, buffers: [u64; 4]) -> Report {
    match judged {
        Err((number, place)) => Report { number, place: place as u64, ..Report::default() },
        Ok(windows) => {
            let (lengths, firsts) = (lengths_of(windows), firsts_of(windows));
            // "The verdict still depends on the end alone."
            let short = (0..4).find(|&n| buffers[n] < lengths[n]);
            // "13 comes after the whole batch", at the "lowest such buffer"
            let (number, place) = short.map_or((0, 0), |lowest| (13, lowest as u64));
            Report { number, place, lengths, firsts }
        }
    }
}

/// The answer to a batch of words beside buffers of these lengths.
pub fn check(words: &[u32], buffers: [u64; 4]) -> Report {
    beside(judge(words), buffers)
}

/// The same for a list of parts: "the answer after it is the one the checker gives to all their words in order, taken
/// whole".
pub fn check_parts(parts: &[&[u32]], buffers: [u64; 4]) -> Report {
    check(&parts.concat(), buffers)
}

/// "`accept` and the four lengths, or `refuse`, number and place, and for 13 the lengths too", each time with what else is
/// reported. The same for 14, which decoding alone gives.
pub fn line(report: &Report) -> String {
    let reported: String = report.reported().iter().map(|number| format!(" {number}")).collect();
    let Report { number, place, .. } = report;
    match number {
        0 => format!("accept{reported}"),
        13 | 14 => format!("refuse {number} {place}{reported}"),
        _ => format!("refuse {number} {place}"),
    }
}

#[cfg(test)]
mod tests {
    use super::*;
    use crate::batch_document::p1;

    /// Wherever the words are parted, empty parts and the empty list included.
    #[test]
    fn parts() {
        let (words, buffers) = (p1(), [384, 383, 0, 0]);
        assert_eq!(check_parts(&[], buffers), check(&[], buffers));
        assert_eq!(check_parts(&[&[], &[]], buffers), Report { number: 1, ..Report::default() });
        for at in 0..=words.len() {
            let (first, second) = words.split_at(at);
            assert_eq!(check_parts(&[first, &[], second], buffers), check(&words, buffers));
            assert_eq!(check_parts(&[&[], first], buffers), check(first, buffers));
        }
    }

    /// "More than 4294967295 words, and the first 4294967295 alone give none of 2 to 12", with a limit that can be tried.
    #[test]
    fn too_many_words() {
        let answer = |most: usize, words: &[u32], length: u64| {
            let report = beside(judge_up_to(most, words), [length; 4]);
            assert!(report.number == 13 || report.number == 0 || report.reported() == [0; 8]);
            (report.number, report.place)
        };
        let zeros = [&p1()[..], &[0, 0]].concat();
        assert_eq!(answer(39, &zeros, 384), (0, 0));
        for most in 0..39 {
            // in place of 1, and before 13
            assert_eq!(answer(most, &zeros, 384), (27, most as u64));
            assert_eq!(answer(most, &zeros, 0), (27, most as u64));
        }
        assert_eq!(answer(39, &zeros, 0), (13, 0));
        // a fault among the first words, and one beyond them
        let late = [&zeros[..], &[7]].concat();
        assert_eq!(answer(40, &late, 0), (12, 39));
        assert_eq!(answer(39, &late, 0), (27, 39));
        let mut early = zeros;
        early[31] = 0xc500_0000;
        assert_eq!(answer(36, &early, 0), (5, 31));
        assert_eq!(answer(35, &early, 0), (27, 35));
    }

    #[test]
    fn lines() {
        let report = |number, place, lengths, firsts| line(&Report { number, place, lengths, firsts });
        assert_eq!(report(0, 0, [1, 2, 3, u64::MAX], [5, 0, 7, 8]), "accept 1 2 3 18446744073709551615 5 0 7 8");
        assert_eq!(report(12, 345, [0; 4], [0; 4]), "refuse 12 345");
        assert_eq!(report(13, 2, [4, 5, 6, 7], [0, 1, 2, 3]), "refuse 13 2 4 5 6 7 0 1 2 3");
        assert_eq!(report(14, 24, [4, 5, 6, 7], [0, 1, 2, 3]), "refuse 14 24 4 5 6 7 0 1 2 3");
    }
}
