//! Lent memory: short room, what a refusal leaves, and single commands and records.

mod common;

use common::{p1_with, told, two_columns, vector, P1, P1_LENGTHS};
use hromulice::{decode, read_command, write_command, Lengths, Reason, Refusal, COMMAND_WORDS, RECORD_BYTES};

fn refused(reason: Reason, place: u64) -> Result<(), Refusal> {
    Err(Refusal { reason, place })
}

/// 14 at the bytes needed, for each shorter log, and nothing written. 13 comes before it.
#[test]
fn short_logs() {
    let words = two_columns(3, 2, 0);
    let needed = Lengths::from([896, 896, 882, 0]);
    let reported = Some([needed.into(), [0, 0, 1, 0]]);
    for room in 0..48 {
        let mut log = vec![0xee; room];
        assert_eq!(told(decode(&words, needed, &mut log)), (14, 48, reported), "{room}");
        assert_eq!(told(decode(&words, Lengths { forward: 881, ..needed }, &mut log)), (13, 2, reported), "{room}");
        assert_eq!(log, vec![0xee; room]);
    }
    for room in 48..60 {
        let mut log = vec![0xee; room];
        assert_eq!(told(decode(&words, needed, &mut log)), (0, 0, reported), "{room}");
        assert_eq!(log[48..], vec![0xee; room - 48]);
        assert!(!log[..48].contains(&0xee));
    }
}

/// Each bit of P1 flipped: what is refused has written nothing.
#[test]
fn refusals_write_nothing() {
    let mut refusals = 0;
    for bit in 0..37 * 32 {
        let words = p1_with(bit / 32, P1[bit / 32] ^ 1 << (bit % 32));
        let mut log = [0xee; 30];
        if !decode(&words, P1_LENGTHS, &mut log).is_accepted() {
            assert_eq!(log, [0xee; 30], "bit {bit}");
            refusals += 1;
        }
    }
    assert!(refusals > 400, "{refusals}");
}

fn command() -> Vec<u32> {
    let (forward, backward) = (vector(-3, 7), vector(5, -2));
    vec![0x7349_0007, 0x1234_0300, 0x9abc_5678, 0xdef1_0b00, 0x0a00_0011, forward, backward, forward, backward]
}

const RECORD: [u8; 24] =
    [0x78, 0x56, 0xbc, 0x9a, 0x34, 0x12, 3, 0, 0x2c, 0xde, 0xf1, 0x11, 0x30, 0, 0, 0, 0xfd, 0xff, 7, 0, 5, 0, 0xfe, 0xff];

#[test]
fn there_and_back() {
    let mut record = [0xee; RECORD_BYTES + 2];
    assert_eq!(read_command(&command(), &mut record), Ok(()));
    assert_eq!(record[..24], RECORD);
    assert_eq!(record[24..], [0xee; 2]);
    let mut words = [0xeeee; COMMAND_WORDS + 1];
    assert_eq!(write_command(&RECORD, &mut words), Ok(()));
    assert_eq!(words[..9], command());
    assert_eq!(words[9], 0xeeee);
}

/// "An empty run gets 1 at 0, any header but MACROBLOCK's gets 2, and words after the ninth aren't read"; 14 last.
#[test]
fn commands_read_alone() {
    let mut record = [0xee; 24];
    let mut read = |words: &[u32]| {
        let answer = read_command(words, &mut record);
        assert_eq!(record == [0xee; 24], answer.is_err());
        record = [0xee; 24];
        answer
    };
    let whole = command();
    assert_eq!(read(&[]), refused(Reason::WordsRunOut, 0));
    assert_eq!(read(&[0]), refused(Reason::UnknownHeader, 0));
    assert_eq!(read(&whole[..8]), refused(Reason::WordsRunOut, 8));
    assert_eq!(read(&[&whole[..], &[7, 7]].concat()), Ok(()));
    let with = |place: usize, word: u32| {
        let mut words = whole.clone();
        words[place] = word;
        words
    };
    assert_eq!(read(&with(3, 0xdef1_0b01)), refused(Reason::FixedBit, 3));
    assert_eq!(read(&with(4, 0x0a00_0000)), refused(Reason::FieldNotPermitted, 4));
    assert_eq!(read(&with(8, 0)), refused(Reason::MissingVectorNotCopy, 8));
    assert_eq!(read(&with(1, 0x1234_0304)), refused(Reason::SkipRule, 1));
    for room in 0..24 {
        let mut short = vec![0xee; room];
        assert_eq!(read_command(&whole, &mut short), refused(Reason::RoomTooSmall, 24));
        assert_eq!(read_command(&whole[..8], &mut short), refused(Reason::WordsRunOut, 8));
        assert_eq!(short, vec![0xee; room]);
    }
}

/// "A length other than 24 gets 15 at byte 0"; else its first bad byte; 14 last.
#[test]
fn records_written_alone() {
    let mut words = [0xeeee; 9];
    for length in (0..24).chain(25..30) {
        assert_eq!(write_command(&[0; 30][..length], &mut words), refused(Reason::RecordNotLegal, 0));
    }
    for (byte, value) in [(6, 4), (7, 2), (8, 64), (11, 0), (12, 64), (13, 1), (15, 1)] {
        let mut record = RECORD;
        record[byte] = value;
        assert_eq!(write_command(&record, &mut words), refused(Reason::RecordNotLegal, byte as u64));
    }
    assert_eq!(words, [0xeeee; 9]);
    for room in 0..9 {
        let mut short = vec![0xeeee; room];
        assert_eq!(write_command(&RECORD, &mut short), refused(Reason::RoomTooSmall, 9));
        assert_eq!(short, vec![0xeeee; room]);
    }
}
