//! Document 01's cases P1 to P13, by its own words and numbers, with document 02's lengths and first bytes.

use crate::batch::{moved, rows, Frame};
use crate::batch_cases::Cases;
use crate::check::line;
use crate::command_cases::plain;
use crate::leaf::word_of;

/// "P1, whole, 37 words".
pub fn p1() -> Vec<u32> {
    let mut words = vec![0x7001_0004, 0, 0x003c_00f0, 0x4800_03fb, 0x10, 0, 0x7300_000b, 0xffff_3400, 0x200];
    words.extend([0; 10]);
    words.push(0x7343_0006);
    words.extend([0; 7]);
    words.extend([0x7349_0007, 0x0000_3a00, 0, 0xfc0, 0xc500_0001, 0, 0, 0, 0, 0x0500_0000]);
    words
}

/// "W 2, H 1, pitch 128, C 16, P picture, f code 3, column 0 forward, column 1 intra".
fn two_columns(code: u32, x: i64, y: i64) -> Vec<u32> {
    let frame = Frame { codes: [code, code, 15, 15], ..Frame::new(2, 2, 1) };
    rows(&frame, &[plain(1, word_of(x, y), 0), moved(0, 0, 0)]).words()
}

struct Due {
    words: Vec<u32>,
    buffers: [u64; 4],
    line: &'static str,
}

fn first_seven() -> Vec<Due> {
    let with = |place: usize, value: u32| {
        let mut words = p1();
        words[place] = value;
        words
    };
    let one = [384, 384, 0, 0];
    let due = |words: Vec<u32>, buffers: [u64; 4], line: &'static str| Due { words, buffers, line };
    vec![
        due(p1(), one, "accept 384 384 0 0 0 0 0 0"),
        due(p1(), [384, 383, 0, 0], "refuse 13 1 384 384 0 0 0 0 0 0"),
        due(vec![], one, "refuse 1 0"),
        due(p1()[..36].into(), one, "refuse 1 36"),
        due(vec![0x0500_0000], one, "refuse 3 0"),
        due(with(32, 1), one, "refuse 8 32"),
        due(with(31, 0xc500_0000), one, "refuse 5 31"),
    ]
}

/// The accepted ones with buffer 2 long enough, and one byte less. Its first byte is luma's at column floor(x/2), row 0.
fn eight_to_thirteen() -> Vec<Due> {
    let accepted = [
        (3, 0, 384, "accept 896 896 384 0 0 0 0 0", "refuse 13 2 896 896 384 0 0 0 0 0"),
        (3, 1, 753, "accept 896 896 753 0 0 0 0 0", "refuse 13 2 896 896 753 0 0 0 0 0"),
        (3, 2, 882, "accept 896 896 882 0 0 0 1 0", "refuse 13 2 896 896 882 0 0 0 1 0"),
        (3, 32, 896, "accept 896 896 896 0 0 0 512 0", "refuse 13 2 896 896 896 0 0 0 512 0"),
        (1, 15, 888, "accept 896 896 888 0 0 0 7 0", "refuse 13 2 896 896 888 0 0 0 7 0"),
    ];
    let refused = [(3, 33, 0, "refuse 10 32"), (3, -1, 0, "refuse 10 32"), (3, 0, 1, "refuse 10 32"), (1, 16, 0, "refuse 9 32")];
    let mut all = Vec::new();
    for (code, x, length, enough, short) in accepted {
        let words = two_columns(code, x, 0);
        all.push(Due { words: words.clone(), buffers: [896, 896, length, 0], line: enough });
        all.push(Due { words, buffers: [896, 896, length - 1, 0], line: short });
    }
    for (code, x, y, line) in refused {
        all.push(Due { words: two_columns(code, x, y), buffers: [4096; 4], line });
    }
    all
}

pub fn document(cases: &mut Cases) {
    for due in first_seven().into_iter().chain(eight_to_thirteen()) {
        assert_eq!(line(&cases.push(due.words, due.buffers)), due.line);
    }
}

#[cfg(test)]
mod tests {
    use super::*;
    use crate::batch::still;
    use crate::check::check;

    #[test]
    fn document_01() {
        let all: Vec<Due> = first_seven().into_iter().chain(eight_to_thirteen()).collect();
        assert_eq!(all.len(), 7 + 10 + 4);
        for due in all {
            assert_eq!(line(&check(&due.words, due.buffers)), due.line);
        }
    }

    /// The builder writes P1 word for word.
    #[test]
    fn builder() {
        assert_eq!(p1().len(), 37);
        assert_eq!(still(&Frame::new(1, 1, 1)).words(), p1());
    }
}
