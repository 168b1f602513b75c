//! Wrong vectors.

use crate::other::{found_by_vectors, Other, RIGHT};
use reference::mounts::{vector, Answer};

const WRONG_VECTORS: [Other; 8] = [
    Other {
        what: "y is turned too",
        vector: |side, x, y| vector(side, x, if side == 1 { y.wrapping_neg() } else { y }),
        ..RIGHT
    },
    Other { what: "starboard is turned", vector: |side, x, y| vector(if side < 2 { 1 - side } else { side }, x, y), ..RIGHT },
    Other { what: "x and y exchanged", vector: |side, x, y| vector(side, y, x), ..RIGHT },
    Other {
        what: "-32768 on port stays",
        vector: |side, x, y| if (side, x) == (1, i16::MIN) { Answer::accepted((x, y)) } else { vector(side, x, y) },
        ..RIGHT
    },
    Other {
        what: "-32768 on starboard is refused",
        vector: |side, x, y| if (side, x) == (0, i16::MIN) { Answer::refused(23, 0) } else { vector(side, x, y) },
        ..RIGHT
    },
    Other {
        what: "y = -32768 is refused",
        vector: |side, x, y| if (side, y) == (1, i16::MIN) { Answer::refused(23, 0) } else { vector(side, x, y) },
        ..RIGHT
    },
    Other {
        what: "23 before 22",
        vector: |side, x, y| if side > 0 && x == i16::MIN { Answer::refused(23, 0) } else { vector(side, x, y) },
        ..RIGHT
    },
    Other { what: "the low byte of a side", vector: |side, x, y| vector(side & 255, x, y), ..RIGHT },
];

#[test]
fn wrong_answers() {
    for wrong in WRONG_VECTORS {
        assert!(found_by_vectors(wrong), "{}", wrong.what);
    }
}
