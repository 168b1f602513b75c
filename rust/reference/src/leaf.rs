//! Fields of a word, and the bytes of a block in a picture buffer.

use std::ops::Range;

/// Bits hi:lo of a word, one by one. A word has no bit above 31.
pub fn bits(word: u32, hi: u8, lo: u8) -> u32 {
    let mut value = 0;
    for bit in (lo..=hi).filter(|bit| *bit < 32).rev() {
        value = 2 * value + (word >> bit) % 2;
    }
    value
}

/// The word with the lowest bits of value in hi:lo, one by one.
pub fn with_bits(word: u32, hi: u8, lo: u8, value: u32) -> u32 {
    let mut out = 0;
    for bit in (0..32).rev() {
        let from = if lo <= bit && bit <= hi { value >> (bit - lo) } else { word >> bit };
        out = 2 * out + from % 2;
    }
    out
}

/// "A byte at column b, row r is at (r div 32)·32·pitch + (b div 128)·4096 + ((b mod 128) div 16)·512 + (r mod 32)·16 + b mod 16."
#[inline]
pub fn byte_at(pitch: u32, column: u64, row: u64) -> u64 {
    let (b, r) = (column, row);
    (r / 32) * 32 * u64::from(pitch) + (b / 128) * 4096 + ((b % 128) / 16) * 512 + (r % 32) * 16 + b % 16
}

/// The lowest and the highest touched byte of a buffer. One that is not touched has no window.
#[derive(Clone, Copy, Debug, PartialEq, Eq)]
pub struct Window {
    pub first: u64,
    pub last: u64,
}

impl Window {
    /// Takes one more byte into what is touched so far.
    pub fn add(window: &mut Option<Window>, byte: u64) {
        Window::join(window, Window { first: byte, last: byte });
    }

    /// The same for the bytes of another window.
    pub fn join(window: &mut Option<Window>, other: Window) {
        *window = Some(match *window {
            Some(Window { first, last }) => Window { first: first.min(other.first), last: last.max(other.last) },
            None => other,
        });
    }
}

#[derive(Clone, Copy, Debug, PartialEq, Eq)]
pub enum Plane {
    Luma,
    Cb,
    Cr,
}

/// The rows that a block is made of: all of a frame's, or those of one of its fields.
#[derive(Clone, Copy, Debug, PartialEq, Eq)]
pub enum Structure {
    Frame,
    Top,
    Bottom,
}

impl Structure {
    /// Of so many rows, how many are its own: a field has every second.
    fn rows_of(self, rows: i64) -> i64 {
        if self == Structure::Frame {
            rows
        } else {
            rows / 2
        }
    }

    /// "Reference row is twice the field row plus the chosen field."
    fn row(self, row: i64) -> i64 {
        match self {
            Structure::Frame => row,
            Structure::Top => 2 * row,
            Structure::Bottom => 2 * row + 1,
        }
    }
}

/// The columns or the rows that a component names in a plane whose macroblocks have so many of them.
fn samples(size: i64, place: u16, v: i64) -> Range<i64> {
    let first = size * place as i64 + v.div_euclid(2);
    let count = if v % 2 == 0 { size } else { size + 1 };
    first..first + count
}

/// The samples that one vector's word names for the macroblock at a place of a picture.
#[derive(Clone, Copy)]
pub struct Block {
    pub pitch: u32,
    pub chroma_row: u16,
    pub columns: u16,
    pub rows: u16,
    pub column: u16,
    pub row: u16,
    pub x_code: u8,
    pub y_code: u8,
    pub word: u32,
    pub structure: Structure,
    /// The number of document 01's case, or 0.
    pub case: u8,
}

impl Block {
    /// x in the low half, y in the high half, two's complement.
    fn vector(&self) -> (i64, i64) {
        let signed = |half: u32| if half < 0x8000 { half as i64 } else { half as i64 - 0x1_0000 };
        (signed(self.word % 0x1_0000), signed(self.word / 0x1_0000))
    }

    /// "With f code c a component lies from −16·2^(c−1) to 16·2^(c−1)−1." In a field "vertical components keep half the f code's
    /// range, −8·2^(c−1) to 8·2^(c−1)−1".
    pub fn in_range(&self) -> bool {
        let holds = |least: i64, code: u8, v: i64| {
            let limit = (1..code).fold(least, |l, _| l * 2);
            (-limit..=limit - 1).contains(&v)
        };
        let (x, y) = self.vector();
        holds(16, self.x_code, x) && holds(self.structure.rows_of(16), self.y_code, y)
    }

    /// Whether the luma block lies "in columns 0 to 16W−1, rows 0 to 16H−1"; "each vector moves a 16-column, 8-row field block
    /// starting from field row 8Y, inside 8H field rows".
    pub fn inside(&self) -> bool {
        let (vx, vy) = self.vector();
        let holds = |size: i64, n: u16, place: u16, v: i64| samples(size, place, v).all(|at| (0..size * n as i64).contains(&at));
        holds(16, self.columns, self.column, vx) && holds(self.structure.rows_of(16), self.rows, self.row, vy)
    }

    /// Hands over every sample of a block that is inside: its plane, and the column and the row of its byte. "Chroma is 8 by 4
    /// from 4Y, halved as before."
    pub fn each_sample(&self, mut take: impl FnMut(Plane, u64, u64)) {
        let (vx, vy) = self.vector();
        for y in samples(self.structure.rows_of(16), self.row, vy) {
            for x in samples(16, self.column, vx) {
                take(Plane::Luma, x as u64, self.structure.row(y) as u64);
            }
        }
        // Rust's division rounds towards zero.
        for y in samples(self.structure.rows_of(8), self.row, vy / 2) {
            for x in samples(8, self.column, vx / 2) {
                // "chroma rows are C+y and columns are 2x and 2x+1"
                let row = u64::from(self.chroma_row) + self.structure.row(y) as u64;
                take(Plane::Cb, 2 * x as u64, row);
                take(Plane::Cr, 2 * x as u64 + 1, row);
            }
        }
    }

    /// The lowest and the highest byte that a sample of the block stands at, or none where the luma block is not inside.
    pub fn window(&self) -> Option<Window> {
        let mut window = None;
        if self.inside() {
            self.each_sample(|_, column, row| Window::add(&mut window, byte_at(self.pitch, column, row)));
        }
        window
    }
}

pub fn word_of(x: i64, y: i64) -> u32 {
    (x.rem_euclid(0x1_0000) + 0x1_0000 * y.rem_euclid(0x1_0000)) as u32
}

#[cfg(test)]
mod tests {
    use super::byte_at;

    /// By another way of numbering: the bytes of a surface in their order, tile after tile along its rows, in a tile eight
    /// strips, in a strip 32 rows, in a row 16 bytes. So every byte has one number, and they leave none out.
    #[test]
    fn bytes_in_order() {
        for pitch in [128, 256, 384, 1152] {
            let mut next = 0;
            for tile_row in 0..5 {
                for tile in 0..u64::from(pitch / 128) {
                    for strip in 0..8 {
                        for row in 0..32 {
                            for byte in 0..16 {
                                let (column, row) = (128 * tile + 16 * strip + byte, 32 * tile_row + row);
                                assert_eq!(byte_at(pitch, column, row), next, "pitch {pitch}: {column}, {row}");
                                next += 1;
                            }
                        }
                    }
                }
            }
            assert_eq!(next, 5 * 32 * u64::from(pitch));
        }
    }

    /// The largest surface that a batch can name.
    #[test]
    fn far_bytes() {
        assert_eq!(byte_at(131072, 0, 32768), 1 << 32);
        assert_eq!(byte_at(131072, 131071, 32767), (1 << 32) - 1);
        // the last chroma row of 175 macroblock rows is C + 8·175 − 1; 34166 = 32·1067 + 22 and 4095 = 31·128 + 7·16 + 15
        assert_eq!(byte_at(131072, 4095, 32767 + 1399), 1067 * 32 * 131072 + 31 * 4096 + 7 * 512 + 22 * 16 + 15);
    }
}
