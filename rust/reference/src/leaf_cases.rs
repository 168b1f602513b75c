//! Cases for the two leaf crates: fields of a word, and blocks in a picture buffer.

use crate::field_blocks::field_blocks;
use crate::first_blocks::first_blocks;
use crate::leaf::{bits, with_bits, word_of, Block, Structure, Window};
use crate::random::Random;
use crate::tile_blocks::tile_blocks;
use std::fmt::Write as _;
use std::path::Path;

impl Block {
    fn line(&self) -> String {
        let label = if self.case == 0 { String::new() } else { format!("P{} ", self.case) };
        let range = if self.in_range() { "range" } else { "beyond" };
        match self.window() {
            Some(Window { first, last }) => format!("{label}{:08x} {range} inside {} {first}", self.word, last + 1),
            None => format!("{label}{:08x} {range} outside", self.word),
        }
    }

    fn bytes(&self) -> [u8; 24] {
        let mut b = [0; 24];
        b[0] = 1;
        b[1] = match self.structure {
            Structure::Frame => 0,
            Structure::Top => 1,
            Structure::Bottom => 2,
        };
        b[2..4].copy_from_slice(&self.chroma_row.to_le_bytes());
        b[4..8].copy_from_slice(&self.pitch.to_le_bytes());
        b[8..10].copy_from_slice(&self.columns.to_le_bytes());
        b[10..12].copy_from_slice(&self.rows.to_le_bytes());
        b[12..14].copy_from_slice(&self.column.to_le_bytes());
        b[14..16].copy_from_slice(&self.row.to_le_bytes());
        b[16..20].copy_from_slice(&self.word.to_le_bytes());
        b[20] = self.x_code;
        b[21] = self.y_code;
        b[22] = self.case;
        b
    }
}

/// Pitch, C, W and H; X and Y; the f codes; the vector. A block of the frame.
pub fn block(size: (u32, u16, u16, u16), at: (u16, u16), codes: (u8, u8), v: (i64, i64)) -> Block {
    let (pitch, chroma_row, columns, rows) = size;
    Block {
        pitch,
        chroma_row,
        columns,
        rows,
        column: at.0,
        row: at.1,
        x_code: codes.0,
        y_code: codes.1,
        word: word_of(v.0, v.1),
        structure: Structure::Frame,
        case: 0,
    }
}

/// Vectors at and just past the ends of what fits: in the picture, in the codes, in sixteen bits.
fn edges(place: u16, n: u16, code: u8) -> Vec<i64> {
    let left = -32 * place as i64;
    let right = 32 * (n as i64 - 1 - place as i64);
    let limit = (1..code).fold(16i64, |l, _| l * 2);
    let mut v: Vec<i64> = Vec::new();
    for end in [left, right, -limit, limit - 1, 0] {
        v.extend((end - 4..=end + 4).filter(|x| (-32768..=32767).contains(x)));
    }
    v.extend([-32768, -32767, 32766, 32767]);
    v
}

fn blocks() -> Vec<Block> {
    let small = (128, 16, 2, 1);
    let mut all = Vec::new();
    let document = [
        (8, 3, 0, 0),
        (9, 3, 1, 0),
        (10, 3, 2, 0),
        (11, 3, 32, 0),
        (12, 3, 33, 0),
        (12, 3, -1, 0),
        (12, 3, 0, 1),
        (13, 1, 15, 0),
        (13, 1, 16, 0),
    ];
    for (case, code, x, y) in document {
        all.push(Block { case, ..block(small, (0, 0), (code, code), (x, y)) });
    }
    // small pictures, each place, both directions at their edges
    for (columns, rows) in [(1, 1), (3, 2)] {
        for column in 0..columns {
            for row in 0..rows {
                for x in edges(column, columns, 2) {
                    all.push(block((128, 16 * rows + 5, columns, rows), (column, row), (2, 1), (x, 0)));
                }
                for y in edges(row, rows, 2) {
                    all.push(block((256, 16 * rows, columns, rows), (column, row), (1, 2), (0, y)));
                }
            }
        }
    }
    // 1920 by 1080 has 68 macroblock rows, 1088 sample rows; and the largest picture there is
    for size in [(2048, 1088, 120, 68), (131072, 32767, 256, 175)] {
        for at in [(0, 0), (size.2 - 1, size.3 - 1), (size.2 / 2, size.3 / 2)] {
            for x in edges(at.0, size.2, 9) {
                all.push(block(size, at, (9, 9), (x, 0)));
            }
            for y in edges(at.1, size.3, 9) {
                all.push(block(size, at, (9, 9), (-3, y)));
            }
        }
    }
    let mut r = Random::new(1);
    for _ in 0..1200 {
        let (columns, rows) = (r.within(1, 256) as u16, r.within(1, 175) as u16);
        let at = (r.within(0, columns as i64 - 1) as u16, r.within(0, rows as i64 - 1) as u16);
        let size = (128 * r.within(1, 1024) as u32, r.within(0, 32767) as u16, columns, rows);
        let reach = |r: &mut Random, place: u16, n: u16| r.within(-32 * place as i64 - 20, 32 * (n as i64 - place as i64) + 20);
        let v = (reach(&mut r, at.0, columns), reach(&mut r, at.1, rows));
        all.push(block(size, at, (r.within(1, 9) as u8, r.within(1, 9) as u8), v));
    }
    // places and sizes that no batch has
    for _ in 0..100 {
        let size = (r.next() as u32 | 16, r.next() as u16, r.next() as u16, r.next() as u16);
        let at = (r.next() as u16, r.next() as u16);
        all.push(block(
            size,
            at,
            (r.within(1, 9) as u8, r.within(1, 9) as u8),
            (r.within(-32768, 32767), r.within(-32768, 32767)),
        ));
    }
    all.extend(tile_blocks());
    all.extend(first_blocks());
    all.extend(field_blocks());
    all
}

/// Fields of a word: every position and width on two words, then others.
fn fields() -> Vec<(u32, u8, u8, u32)> {
    let mut all = Vec::new();
    for hi in 0..34 {
        for lo in 0..34 {
            all.push((0x8123_c5f6, hi, lo, 0xffff_ffff));
        }
    }
    let mut r = Random::new(2);
    for _ in 0..400 {
        all.push((r.next() as u32, r.within(0, 40) as u8, r.within(0, 40) as u8, r.next() as u32));
    }
    for (hi, lo) in [(255, 0), (255, 255), (0, 255), (31, 0), (32, 31)] {
        all.push((0xdead_beef, hi, lo, 0x0123_4567));
    }
    all
}

pub fn write(dir: &Path) -> std::io::Result<()> {
    let mut cases = Vec::new();
    let mut lines = String::new();
    for b in blocks() {
        cases.extend(b.bytes());
        writeln!(lines, "{}", b.line()).unwrap();
    }
    for (word, hi, lo, value) in fields() {
        let mut b = [0; 24];
        b[2] = hi;
        b[3] = lo;
        b[4..8].copy_from_slice(&word.to_le_bytes());
        b[16..20].copy_from_slice(&value.to_le_bytes());
        cases.extend(b);
        writeln!(lines, "{:08x} {:08x}", bits(word, hi, lo), with_bits(word, hi, lo, value)).unwrap();
    }
    crate::store(dir, cases, lines)
}

#[cfg(test)]
mod tests {
    /// Document 01's cases P8 to P13, as far as buffer 2 and the vector go, with document 02's lengths. P13's follows from its
    /// formula: the highest byte is Cr's at column 23, row 23, so 512 + 23·16 + 7 = 887. The lowest byte is luma's at column
    /// floor(x/2), row 0.
    #[test]
    fn document_01() {
        let lines: Vec<String> = super::blocks().iter().take(9).map(|b| b.line()).collect();
        let due = [
            "P8 00000000 range inside 384 0",
            "P9 00000001 range inside 753 0",
            "P10 00000002 range inside 882 1",
            "P11 00000020 range inside 896 512",
            "P12 00000021 range outside",
            "P12 0000ffff range outside",
            "P12 00010000 range outside",
            "P13 0000000f range inside 888 7",
            "P13 00000010 beyond inside 888 8",
        ];
        assert_eq!(lines, due);
    }
}
