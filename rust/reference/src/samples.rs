//! Small batches as files for the program, each with the line that it prints for them.

use crate::batch::{field_dct, moved, moved_fields, rows, skip, Frame};
use crate::batch_cases::needed;
use crate::batch_document::p1;
use crate::command_cases::plain;
use crate::leaf::word_of;
use crate::program::{bytes_of, line_of};
use std::path::Path;

/// Three by two macroblocks of a B picture: both, skipped like it, backward; intra, forward, both.
fn b_picture() -> Vec<u32> {
    let (right, up) = (word_of(7, 0), word_of(-2, -9));
    let upper = [moved(3, right, word_of(0, 5)), skip(3, right, word_of(0, 5)), moved(2, 0, word_of(-31, 2))];
    let lower = [moved(0, 0, 0), moved(1, up, 0), moved(3, word_of(-64, -32), up)];
    rows(&Frame::new(3, 3, 2), &[upper, lower].concat()).words()
}

/// Two by two of a P picture: the vector of the lower left macroblock points five half samples down.
fn vector_below() -> Vec<u32> {
    let still = moved(1, 0, 0);
    rows(&Frame::new(2, 2, 2), &[still, still, moved(1, word_of(4, 5), 0), still]).words()
}

/// Document 01's P10. For a vector of zero the forward reference needs 384 bytes. Here the block has a ninth chroma column, the
/// bytes 16 and 17 of each row, and these lie in the tile's next strip: 882 bytes.
fn p10() -> Vec<u32> {
    rows(&Frame::new(2, 2, 1), &[plain(1, word_of(2, 0), 0), moved(0, 0, 0)]).words()
}

/// Two by two of a P picture with PICTURE bit 10 = 0. The lower left macroblock is predicted by fields: its top field from the
/// reference's bottom field, which begins at byte 208, and its bottom field from the top one, which ends at byte 4833. The others
/// are intra with their dct type set.
fn by_fields() -> Vec<u32> {
    let (fields, intra) = (moved_fields((word_of(1, -3), 1), (word_of(2, 0), 0)), field_dct(moved(0, 0, 0)));
    rows(&Frame::with_fields(2, 2, 2), &[intra, intra, fields, intra]).words()
}

/// Each file's name and bytes.
fn samples() -> [(&'static str, Vec<u8>); 5] {
    let beside_needed = |words: Vec<u32>| bytes_of(&words, needed(&words));
    [
        ("p1.batch", bytes_of(&p1(), [384, 384, 0, 0])),
        ("b_picture.batch", beside_needed(b_picture())),
        ("vector_below.batch", bytes_of(&vector_below(), [1 << 20; 4])),
        ("short_reference.batch", bytes_of(&p10(), [896, 896, 881, 0])),
        ("by_fields.batch", beside_needed(by_fields())),
    ]
}

/// Writes DIR/NAME.batch and DIR/NAME.batch.line.
pub fn write(dir: &Path) -> std::io::Result<()> {
    std::fs::create_dir_all(dir)?;
    for (name, bytes) in samples() {
        std::fs::write(dir.join(name), &bytes)?;
        std::fs::write(dir.join(format!("{name}.line")), line_of(&bytes) + "\n")?;
    }
    Ok(())
}

#[cfg(test)]
mod tests {
    use super::*;

    #[test]
    fn lines() {
        let lines = samples().map(|(_, bytes)| line_of(&bytes));
        assert_eq!(lines[0], "accept 384 384 0 0 0 0 0 0");
        assert_eq!(lines[1], "accept 5376 5376 5236 5344 0 0 0 32");
        assert_eq!(lines[2], "refuse 10 50");
        assert_eq!(lines[3], "refuse 13 2 896 896 882 0 0 0 1 0");
        // the last of the own samples is Cr's at column 31, row 47: 32·128 + 512 + 15·16 + 15 = 4863
        assert_eq!(lines[4], "accept 4864 4864 4834 0 0 0 208 0");
    }

    /// The repository's samples are these, and there are no others.
    #[test]
    fn stored() {
        let dir = Path::new(env!("CARGO_MANIFEST_DIR")).join("../../samples");
        for (name, bytes) in samples() {
            assert!(bytes == std::fs::read(dir.join(name)).unwrap(), "{name}");
            let line = std::fs::read_to_string(dir.join(format!("{name}.line"))).unwrap();
            assert_eq!(line, line_of(&bytes) + "\n", "{name}");
        }
        assert_eq!(std::fs::read_dir(dir).unwrap().count(), 2 * samples().len());
    }
}
