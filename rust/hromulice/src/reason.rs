//! Why a batch, a command, a record, a sheet or a shift is refused.

use core::fmt;

/// The numbers of documents 01 and 02 that a call can give, 0 (accepted) apart.
///
/// ```
/// use hromulice::Reason;
///
/// assert_eq!(Reason::VectorBeyondFCode.number(), 9);
/// assert_eq!(Reason::from_number(9), Some(Reason::VectorBeyondFCode));
/// assert_eq!(Reason::from_number(9).unwrap().to_string(), "a vector is beyond its f code");
/// ```
///
/// Later versions have more of them.
#[derive(Clone, Copy, Debug, PartialEq, Eq, PartialOrd, Ord, Hash)]
#[non_exhaustive]
#[repr(u8)]
pub enum Reason {
    /// 1: the words run out in a command or before END. The place is the number of words given.
    WordsRunOut = 1,
    /// 2: a word that should begin a command begins none. The place is that word.
    UnknownHeader = 2,
    /// 3: a command that may not come here. The place is its header.
    OutOfSequence = 3,
    /// 4: a bit that always has one value has the other. The place is its word.
    FixedBit = 4,
    /// 5: a field has a value that is not permitted. The place is its word.
    FieldNotPermitted = 5,
    /// 6: a macroblock names another position than the next one. The place is its word 2.
    WrongPosition = 6,
    /// 7: a slice or group flag does not agree with what is open. The place is the macroblock's word 4.
    SliceOrGroupFlag = 7,
    /// 8: a missing vector is not the copy that it has to be. The place is its word.
    MissingVectorNotCopy = 8,
    /// 9: a component of a vector is beyond its f code. The place is word 5, 6 or 7 of the macroblock.
    VectorBeyondFCode = 9,
    /// 10: a vector points outside the picture. The place is word 5, 6 or 7 of the macroblock.
    OutsidePicture = 10,
    /// 11: a macroblock that may not be skipped is skipped. The place is its word 1.
    SkipRule = 11,
    /// 12: a word after END is not zero. The place is that word.
    WordAfterEnd = 12,
    /// 13: a picture buffer is too short. The place is the lowest such buffer, 0 to 3.
    BufferTooShort = 13,
    /// 14: the memory lent for the result is too small. The place is the bytes or words needed, 0 by
    /// [`add_mount`](crate::add_mount).
    RoomTooSmall = 14,
    /// 15: a record is not legal. The place is its first bad byte.
    RecordNotLegal = 15,
    /// 19: the boat has no mount sheet of that edition or an earlier one. The place is 0.
    NoSheet = 19,
    /// 20: the bytes hold fewer mount sheets than were counted, or a counted one is bad: its side is above 1, one of its last
    /// seven bytes is not zero, or its edition is not its boat's next one. The place is how many sheets the bytes can hold,
    /// or the first bad sheet.
    SheetsDamaged = 20,
    /// 21: not the boat's next edition. The place is 0.
    NotNextEdition = 21,
    /// 22: a side is neither 0 nor 1. The place is 0.
    SideNotPermitted = 22,
    /// 23: an x of −32768 would have to be turned for port. The place is 0.
    ShiftNotTurned = 23,
    /// 27: there are more than 4294967295 words, and the first 4294967295 break no rule. The place is 4294967295.
    TooManyWords = 27,
}

impl Reason {
    /// All of them, by number.
    pub const ALL: [Reason; 21] = [
        Reason::WordsRunOut,
        Reason::UnknownHeader,
        Reason::OutOfSequence,
        Reason::FixedBit,
        Reason::FieldNotPermitted,
        Reason::WrongPosition,
        Reason::SliceOrGroupFlag,
        Reason::MissingVectorNotCopy,
        Reason::VectorBeyondFCode,
        Reason::OutsidePicture,
        Reason::SkipRule,
        Reason::WordAfterEnd,
        Reason::BufferTooShort,
        Reason::RoomTooSmall,
        Reason::RecordNotLegal,
        Reason::NoSheet,
        Reason::SheetsDamaged,
        Reason::NotNextEdition,
        Reason::SideNotPermitted,
        Reason::ShiftNotTurned,
        Reason::TooManyWords,
    ];

    /// Its number in the documents.
    #[must_use]
    pub const fn number(self) -> u8 {
        self as u8
    }

    /// The reason with this number. There is none for 0, which is acceptance, nor for 16, which only the program
    /// `checker` gives.
    #[must_use]
    pub fn from_number(number: u8) -> Option<Reason> {
        Reason::ALL.into_iter().find(|reason| reason.number() == number)
    }

    /// What the number means, in plain words.
    #[must_use]
    pub const fn meaning(self) -> &'static str {
        match self {
            Reason::WordsRunOut => "the words run out in a command or before END",
            Reason::UnknownHeader => "a word begins no command",
            Reason::OutOfSequence => "a command may not come here",
            Reason::FixedBit => "a bit that always has one value has the other",
            Reason::FieldNotPermitted => "a field has a value that is not permitted",
            Reason::WrongPosition => "a macroblock is not at its position",
            Reason::SliceOrGroupFlag => "a slice or group flag does not agree",
            Reason::MissingVectorNotCopy => "a missing vector is not the copy that it has to be",
            Reason::VectorBeyondFCode => "a vector is beyond its f code",
            Reason::OutsidePicture => "a vector points outside the picture",
            Reason::SkipRule => "a macroblock may not be skipped",
            Reason::WordAfterEnd => "a word after END is not zero",
            Reason::BufferTooShort => "a picture buffer is too short",
            Reason::RoomTooSmall => "the lent room is too small",
            Reason::RecordNotLegal => "a record is not legal",
            Reason::NoSheet => "the boat has no sheet of that edition or an earlier one",
            Reason::SheetsDamaged => "the stored sheets are damaged, or fewer than were counted",
            Reason::NotNextEdition => "not the boat's next edition",
            Reason::SideNotPermitted => "a side is neither starboard (0) nor port (1)",
            Reason::ShiftNotTurned => "a shift of -32768 cannot be turned for port",
            Reason::TooManyWords => "there are more than 4294967295 words",
        }
    }
}

impl fmt::Display for Reason {
    fn fmt(&self, f: &mut fmt::Formatter<'_>) -> fmt::Result {
        f.write_str(self.meaning())
    }
}

/// What a number of the documents means, in plain words: that of each [`Reason`], 0, which is acceptance, and 16, which
/// only programs give that read a batch from a file. `None` for a number that no answer has.
///
/// ```
/// use hromulice::{meaning, Reason};
///
/// assert_eq!(meaning(0), Some("accepted"));
/// assert_eq!(meaning(9), Some(Reason::VectorBeyondFCode.meaning()));
/// assert_eq!(meaning(16), Some("fewer than 32 bytes came before the batch"));
/// assert_eq!(meaning(28), None);
/// ```
#[must_use]
pub fn meaning(number: u8) -> Option<&'static str> {
    match number {
        0 => Some("accepted"),
        16 => Some("fewer than 32 bytes came before the batch"),
        _ => Reason::from_number(number).map(Reason::meaning),
    }
}

/// A refusal: why, and where.
///
/// ```
/// use hromulice::{write_command, Reason, Refusal};
///
/// let refused = write_command(&[0; 23], &mut [0; 9]).unwrap_err();
/// assert_eq!(refused, Refusal { reason: Reason::RecordNotLegal, place: 0 });
/// assert_eq!(refused.to_string(), "refused 15 at byte 0: a record is not legal");
/// ```
#[derive(Clone, Copy, Debug, PartialEq, Eq, Hash)]
#[must_use = "what is refused has written nothing, and may not go to the engine"]
pub struct Refusal {
    /// Why.
    pub reason: Reason,
    /// Where: what each [`Reason`] says of its place. Words count from 0 at the first one handed in.
    pub place: u64,
}

impl fmt::Display for Refusal {
    fn fmt(&self, f: &mut fmt::Formatter<'_>) -> fmt::Result {
        let Refusal { reason, place } = self;
        let number = reason.number();
        match reason {
            Reason::WordsRunOut => write!(f, "refused {number} after {place} words: {reason}"),
            Reason::BufferTooShort => write!(f, "refused {number}, buffer {place}: {reason}"),
            // By an adding of a mount sheet 14 has no place.
            Reason::RoomTooSmall if *place == 0 => write!(f, "refused {number}: {reason}"),
            Reason::RoomTooSmall => write!(f, "refused {number}, {place} needed: {reason}"),
            Reason::RecordNotLegal => write!(f, "refused {number} at byte {place}: {reason}"),
            Reason::SheetsDamaged => write!(f, "refused {number} at sheet {place}: {reason}"),
            Reason::NoSheet | Reason::NotNextEdition | Reason::SideNotPermitted | Reason::ShiftNotTurned => {
                write!(f, "refused {number}: {reason}")
            }
            _ => write!(f, "refused {number} at word {place}: {reason}"),
        }
    }
}

impl core::error::Error for Refusal {}
