//! A batch to try the crate with.

/// The smallest picture: type I, one intra macroblock, 16 by 16 samples with a pitch of 128 bytes. Document 01's case P1.
///
/// It needs 384 bytes of the source and of the reconstructed picture. Both are Y-tiled: a tile has 128 bytes by 32 rows, and
/// the rows of its first 16-byte column come one after the other. The last of the eight chroma rows is row 23 of the buffer, in
/// the first tile, and has 16 bytes.
///
/// ```
/// assert_eq!((23 + 1) * 16, 384);
/// ```
#[rustfmt::skip]
pub const ONE_MACROBLOCK: [u32; 37] = [
    // SURFACE: height and width less one; pitch less one; first chroma row
    0x7001_0004, 0, 0x003c_00f0, 0x4800_03fb, 16, 0,
    // PICTURE: f codes; type; size in macroblocks less one
    0x7300_000b, 0xffff_3400, 0x200, 0, 0, 0, 0, 0, 0, 0, 0, 0, 0,
    // SLICEGROUP
    0x7343_0006, 0, 0, 0, 0, 0, 0, 0,
    // MACROBLOCK: kind; position; pattern; flags and quantiser; four vectors
    0x7349_0007, 0x3a00, 0, 0xfc0, 0xc500_0001, 0, 0, 0, 0,
    // END
    0x0500_0000,
];
