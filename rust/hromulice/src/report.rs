//! What is answered to a batch.

use crate::ffi;
use crate::reason::{Reason, Refusal};
use core::fmt;
use core::ops::Range;

/// Lengths in bytes of the four picture buffers: those that a batch is checked beside, or those that it needs; or a byte of
/// each ([`Reported::firsts`]). The buffers are Y-tiled, and bytes are counted from 0 as they stand in memory.
///
/// ```
/// use hromulice::Lengths;
///
/// let lengths = Lengths { source: 384, reconstructed: 384, ..Lengths::NONE };
/// assert_eq!(lengths, Lengths::from([384, 384, 0, 0]));
/// ```
#[derive(Clone, Copy, Debug, PartialEq, Eq, Hash)]
pub struct Lengths {
    /// Buffer 0, the picture to be coded.
    pub source: u64,
    /// Buffer 1, the picture as a decoder will see it.
    pub reconstructed: u64,
    /// Buffer 2, the forward reference.
    pub forward: u64,
    /// Buffer 3, the backward reference.
    pub backward: u64,
}

impl Lengths {
    /// No byte in any buffer.
    pub const NONE: Lengths = Lengths { source: 0, reconstructed: 0, forward: 0, backward: 0 };

    /// So long that no batch is refused for them: to learn what a batch needs before any memory is taken.
    ///
    /// ```
    /// use hromulice::{check, example, Lengths};
    ///
    /// let needed = check(&example::ONE_MACROBLOCK, Lengths::LONGEST).needed();
    /// assert_eq!(needed, Some(Lengths::from([384, 384, 0, 0])));
    /// ```
    pub const LONGEST: Lengths = Lengths { source: u64::MAX, reconstructed: u64::MAX, forward: u64::MAX, backward: u64::MAX };

    /// The length, or the byte, of one buffer.
    #[must_use]
    pub const fn of(&self, buffer: Buffer) -> u64 {
        match buffer {
            Buffer::Source => self.source,
            Buffer::Reconstructed => self.reconstructed,
            Buffer::Forward => self.forward,
            Buffer::Backward => self.backward,
        }
    }
}

impl From<[u64; 4]> for Lengths {
    fn from([source, reconstructed, forward, backward]: [u64; 4]) -> Lengths {
        Lengths { source, reconstructed, forward, backward }
    }
}

impl From<Lengths> for [u64; 4] {
    fn from(Lengths { source, reconstructed, forward, backward }: Lengths) -> [u64; 4] {
        [source, reconstructed, forward, backward]
    }
}

impl From<Lengths> for ffi::Lengths {
    fn from(Lengths { source, reconstructed, forward, backward }: Lengths) -> ffi::Lengths {
        ffi::Lengths { source, reconstructed, forward, backward }
    }
}

impl From<ffi::Lengths> for Lengths {
    fn from(ffi::Lengths { source, reconstructed, forward, backward }: ffi::Lengths) -> Lengths {
        Lengths { source, reconstructed, forward, backward }
    }
}

impl fmt::Display for Lengths {
    fn fmt(&self, f: &mut fmt::Formatter<'_>) -> fmt::Result {
        let Lengths { source, reconstructed, forward, backward } = self;
        write!(f, "source {source}, reconstructed {reconstructed}, forward {forward}, backward {backward} bytes")
    }
}

/// One of the four picture buffers.
#[derive(Clone, Copy, Debug, PartialEq, Eq, PartialOrd, Ord, Hash)]
pub enum Buffer {
    /// 0, the picture to be coded.
    Source = 0,
    /// 1, the picture as a decoder will see it.
    Reconstructed = 1,
    /// 2, the forward reference.
    Forward = 2,
    /// 3, the backward reference.
    Backward = 3,
}

impl Buffer {
    /// All four, by number.
    pub const ALL: [Buffer; 4] = [Buffer::Source, Buffer::Reconstructed, Buffer::Forward, Buffer::Backward];

    /// Document 01's number of the buffer.
    #[must_use]
    pub const fn number(self) -> u8 {
        self as u8
    }
}

impl fmt::Display for Buffer {
    fn fmt(&self, f: &mut fmt::Formatter<'_>) -> fmt::Result {
        f.write_str(["source", "reconstructed", "forward reference", "backward reference"][*self as usize])
    }
}

/// What a batch needs and touches of the four picture buffers. It is reported with 0, 13 and 14, and does not depend on the
/// lengths that the batch was checked beside.
///
/// A driver that maps no more than is used asks for each buffer's window, and puts byte 0 where it would be if all were mapped:
///
/// ```
/// use hromulice::{check, example, Buffer, Lengths, Report};
///
/// const PAGE: u64 = 4096;
///
/// let Report::Accepted(reported) = check(&example::ONE_MACROBLOCK, Lengths::LONGEST) else { panic!() };
/// for buffer in Buffer::ALL {
///     let window = reported.window(buffer);
///     let pages = window.start / PAGE..window.end.div_ceil(PAGE);
///     println!("{buffer}: map the pages {pages:?}");
/// }
/// assert_eq!(reported.window(Buffer::Source), 0..384);
/// assert!(reported.window(Buffer::Forward).is_empty());
/// ```
#[derive(Clone, Copy, Debug, PartialEq, Eq, Hash)]
#[non_exhaustive]
pub struct Reported {
    /// The bytes that each buffer must have, counted from byte 0: one more than the highest byte that is read or written,
    /// zero if none is.
    pub lengths: Lengths,
    /// The lowest byte of each buffer that is read or written, zero if none is.
    pub firsts: Lengths,
}

impl Reported {
    /// The bytes of one buffer from the first that is read or written to the last; empty, and at 0, if none is.
    #[must_use]
    pub const fn window(&self, buffer: Buffer) -> Range<u64> {
        self.firsts.of(buffer)..self.lengths.of(buffer)
    }
}

impl fmt::Display for Reported {
    fn fmt(&self, f: &mut fmt::Formatter<'_>) -> fmt::Result {
        write!(f, "needed: {}; touched:", self.lengths)?;
        for (buffer, comma) in Buffer::ALL.into_iter().zip(["", ",", ",", ","]) {
            match self.window(buffer) {
                window if window.is_empty() => write!(f, "{comma} {buffer} none")?,
                window => write!(f, "{comma} {buffer} {window:?}")?,
            }
        }
        Ok(())
    }
}

/// The answer to a batch.
///
/// ```
/// use hromulice::{check, example, Buffer, Lengths, Report};
///
/// let batch = example::ONE_MACROBLOCK;
/// let report = check(&batch, Lengths { reconstructed: 383, ..Lengths::LONGEST });
/// match report {
///     Report::Accepted(reported) => println!("to the engine; {reported}"),
///     Report::ShortBuffer { buffer, reported } => {
///         assert_eq!((buffer, reported.lengths.of(buffer)), (Buffer::Reconstructed, 384));
///     }
///     Report::ShortLog { .. } => unreachable!("the check lends no log"),
///     Report::Refused(refusal) => println!("not to the engine: {refusal}"),
/// }
/// assert_eq!((report.number(), report.place()), (13, 1));
/// ```
#[derive(Clone, Copy, Debug, PartialEq, Eq, Hash)]
#[must_use = "only an accepted batch may go to the engine"]
pub enum Report {
    /// Every rule is kept, and no byte outside of the windows is read or written.
    Accepted(Reported),
    /// 13: all else is right, but a buffer is too short. That depends on the lengths alone.
    ShortBuffer {
        /// The lowest buffer that is too short.
        buffer: Buffer,
        /// What the batch needs and touches.
        reported: Reported,
    },
    /// 14, of [`decode`](crate::decode) alone: all else is right, but the lent log is too short.
    ShortLog {
        /// The bytes that the log needs, 24 for each macroblock of the picture.
        bytes: u64,
        /// What the batch needs and touches.
        reported: Reported,
    },
    /// 1 to 12 and 27: the first fault.
    Refused(Refusal),
}

impl Report {
    /// Whether the batch passes.
    #[must_use = "only an accepted batch may go to the engine"]
    pub const fn is_accepted(&self) -> bool {
        matches!(self, Report::Accepted(_))
    }

    /// Why and where the batch is refused, in one form for all numbers.
    #[must_use]
    pub fn refusal(&self) -> Option<Refusal> {
        match *self {
            Report::Accepted(_) => None,
            Report::ShortBuffer { buffer, .. } => Some(Refusal { reason: Reason::BufferTooShort, place: buffer.number().into() }),
            Report::ShortLog { bytes, .. } => Some(Refusal { reason: Reason::RoomTooSmall, place: bytes }),
            Report::Refused(refusal) => Some(refusal),
        }
    }

    /// Document 01's number: 0 if accepted.
    #[must_use]
    pub fn number(&self) -> u8 {
        self.refusal().map_or(0, |refusal| refusal.reason.number())
    }

    /// Document 01's place: 0 if accepted.
    #[must_use]
    pub fn place(&self) -> u64 {
        self.refusal().map_or(0, |refusal| refusal.place)
    }

    /// What the batch needs and touches, which is reported with 0, 13 and 14.
    #[must_use]
    pub const fn reported(&self) -> Option<Reported> {
        match *self {
            Report::Accepted(reported) | Report::ShortBuffer { reported, .. } | Report::ShortLog { reported, .. } => {
                Some(reported)
            }
            Report::Refused(_) => None,
        }
    }

    /// The lengths that the batch needs, which are reported with 0, 13 and 14.
    #[must_use]
    pub const fn needed(&self) -> Option<Lengths> {
        match self.reported() {
            Some(reported) => Some(reported.lengths),
            None => None,
        }
    }
}

impl fmt::Display for Report {
    fn fmt(&self, f: &mut fmt::Formatter<'_>) -> fmt::Result {
        match (self.refusal(), self.reported()) {
            (None, Some(reported)) => write!(f, "accepted; {reported}"),
            (Some(refusal), Some(reported)) => write!(f, "{refusal}; {reported}"),
            (Some(refusal), None) => write!(f, "{refusal}"),
            (None, None) => Ok(()),
        }
    }
}

/// A number that is not 0, with its place. The archive is proved to answer with the documents' numbers alone.
pub(crate) fn refusal_of(number: u8, place: u64) -> Refusal {
    let reason = Reason::from_number(number).expect("a number of the documents");
    Refusal { reason, place }
}

impl From<ffi::Report> for Report {
    fn from(ffi::Report { number, place, lengths, firsts }: ffi::Report) -> Report {
        let reported = Reported { lengths: lengths.into(), firsts: firsts.into() };
        match number {
            0 => Report::Accepted(reported),
            13 => Report::ShortBuffer { buffer: Buffer::ALL[place as usize], reported },
            14 => Report::ShortLog { bytes: place, reported },
            _ => Report::Refused(refusal_of(number, place)),
        }
    }
}
