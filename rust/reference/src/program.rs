//! The line that the program prints for what stands on its standard input.

use crate::check::{check, line, Report};

/// "Four 8-byte lengths, little-endian, then the batch as little-endian words."
pub fn bytes_of(words: &[u32], buffers: [u64; 4]) -> Vec<u8> {
    let lengths = buffers.iter().flat_map(|length| length.to_le_bytes());
    lengths.chain(words.iter().flat_map(|word| word.to_le_bytes())).collect()
}

/// The answer to a batch with so many bytes behind its whole words: "one to three leftover bytes get 1, placed at the whole
/// words, if nothing else was refused".
pub fn answer_to(words: &[u32], buffers: [u64; 4], leftover: usize) -> Report {
    match check(words, buffers) {
        Report { number: 0, .. } if leftover != 0 => Report { number: 1, place: words.len() as u64, ..Report::default() },
        report => report,
    }
}

/// The answer to any bytes: "fewer than 32 bytes before the batch" is 16, at the "bytes read".
pub fn answer(bytes: &[u8]) -> Report {
    let Some((lengths, batch)) = bytes.split_at_checked(32) else {
        return Report { number: 16, place: bytes.len() as u64, ..Report::default() };
    };
    let buffers: Vec<u64> = lengths.chunks(8).map(|length| u64::from_le_bytes(length.try_into().unwrap())).collect();
    let whole = batch.chunks_exact(4);
    let leftover = whole.remainder().len();
    let words: Vec<u32> = whole.map(|word| u32::from_le_bytes(word.try_into().unwrap())).collect();
    answer_to(&words, buffers.try_into().unwrap(), leftover)
}

/// "It prints one line."
pub fn line_of(bytes: &[u8]) -> String {
    line(&answer(bytes))
}

#[cfg(test)]
mod tests {
    use super::*;
    use crate::batch_document::p1;

    const ENOUGH: [u64; 4] = [384, 384, 0, 0];

    #[test]
    fn document_01() {
        let bytes = bytes_of(&p1(), ENOUGH);
        assert_eq!(bytes.len(), 32 + 4 * 37);
        assert_eq!(bytes[..10], [0x80, 0x01, 0, 0, 0, 0, 0, 0, 0x80, 0x01]);
        assert_eq!(bytes[32..36], [0x04, 0x00, 0x01, 0x70]);
        assert_eq!(line_of(&bytes), "accept 384 384 0 0 0 0 0 0");
        assert_eq!(line_of(&bytes_of(&p1(), [384, 383, 0, 0])), "refuse 13 1 384 384 0 0 0 0 0 0");
        assert_eq!(line_of(&bytes_of(&[], ENOUGH)), "refuse 1 0");
        assert_eq!(line_of(&bytes_of(&[0x0500_0000], ENOUGH)), "refuse 3 0");
    }

    /// Cut after every byte: 16 up to the lengths, then 1 at the whole words.
    #[test]
    fn cut() {
        let bytes = bytes_of(&p1(), ENOUGH);
        for given in 0..bytes.len() {
            let due = if given < 32 { format!("refuse 16 {given}") } else { format!("refuse 1 {}", (given - 32) / 4) };
            assert_eq!(line_of(&bytes[..given]), due);
        }
    }

    /// Leftover bytes give 1 where the words would be accepted, and nothing where they are refused, by 13 too.
    #[test]
    fn leftover() {
        let more =
            |words: &[u32], buffers: [u64; 4], n: usize| line_of(&[&bytes_of(words, buffers)[..], &[7, 0, 9][..n]].concat());
        let mut faulty = p1();
        faulty[31] = 0xc500_0000;
        for n in 1..4 {
            assert_eq!(more(&p1(), ENOUGH, n), "refuse 1 37");
            assert_eq!(more(&[&p1()[..], &[0, 0]].concat(), ENOUGH, n), "refuse 1 39");
            assert_eq!(more(&p1()[..36], ENOUGH, n), "refuse 1 36");
            assert_eq!(more(&[], ENOUGH, n), "refuse 1 0");
            assert_eq!(more(&p1(), [384, 383, 0, 0], n), "refuse 13 1 384 384 0 0 0 0 0 0");
            assert_eq!(more(&faulty, ENOUGH, n), "refuse 5 31");
            assert_eq!(more(&[&p1()[..], &[1]].concat(), ENOUGH, n), "refuse 12 37");
        }
    }
}
