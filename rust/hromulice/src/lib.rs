//! Safe functions over `libhromulice.a`, the proved checker of MPEG-2 command batches for Haswell's media engine.
//!
//! The checker stands between whoever builds a batch and the engine. It reads any words at all and answers: accepted, with
//! the bytes that each of the four picture buffers must have and the first that is touched, or refused, with the number of
//! the first rule that is broken and its place. "Document 01" is the rules document, and document 02 the changes to it; their
//! numbers are [`Reason`].
//!
//! Which sign a boat's mount wants is not in a batch, and no check looks for it. Mount sheets tell it, in bytes that the
//! caller keeps.
//!
//! - [`check`]: a batch that is there as a whole. A driver asks it before it submits the batch.
//! - [`Check`]: the same for a batch that comes in parts, with the same answer.
//! - [`decode`]: the check, and if it accepts, a 24-byte record of each macroblock, for a log.
//! - [`read_command`] and [`write_command`]: one MACROBLOCK command to its record, and back to the same bits; the dct type and
//!   field prediction have no room in a record, see [`decode`].
//! - [`ask_mount`] and [`add_mount`]: mount sheets, which say edition by edition on which side of a boat the unit is mounted.
//! - [`mount_vector`]: the vector of a measured shift on that side, the one place where a side becomes a sign.
//! - [`meaning`]: what a number means, also one that a program printed.
//! - [`version`]: the library's version, to be compared with the crate's, [`VERSION`].
//! - [`state_words`]: the words that the library takes for a [`Check`].
//!
//! ```
//! use hromulice::{check, example, Lengths, Report};
//!
//! // The buffers that are mapped for the engine.
//! let mapped = Lengths { source: 4096, reconstructed: 4096, forward: 0, backward: 0 };
//! let batch = example::ONE_MACROBLOCK;
//! match check(&batch, mapped) {
//!     Report::Accepted(_) => { /* submit the batch */ }
//!     refused => panic!("the batch is not submitted: {refused}"),
//! }
//! ```
//!
//! Check a batch where nobody changes it afterwards: copy it into memory that the builder cannot write, check that copy, and
//! hand that copy to the engine. Words that are changed after the check were not checked.
//!
//! No call allocates, keeps a pointer or has global state, so calls may run on several threads at once. A refusal writes
//! nothing into lent memory. The crate needs no standard library; the archive needs `memcpy` and `memset`.
//!
//! # Building
//!
//! `tests/build library` at the root of the repository proves the checker and writes `target/staticlib/libhromulice.a`,
//! where this crate looks for it. The variable `HROMULICE_LIB_DIR` names another directory.

#![no_std]
#![deny(missing_docs)]
#![deny(unsafe_code)]

#[allow(unsafe_code)]
mod ffi;
mod mounts;
mod parts;
mod reason;
mod report;
mod version;

#[cfg(doctest)]
mod dropped;

pub mod example;

pub use mounts::{add_mount, ask_mount, mount_vector, Mount, Side, SHEET_BYTES};
pub use parts::{state_words, Check};
pub use reason::{meaning, Reason, Refusal};
pub use report::{Buffer, Lengths, Report, Reported};
pub use version::{version, Version, VERSION};

/// The bytes of one log record.
pub const RECORD_BYTES: usize = 24;

/// The words of one MACROBLOCK command.
pub const COMMAND_WORDS: usize = 9;

/// Checks a whole batch beside picture buffers of these lengths.
///
/// Every batch gets an answer. What is [`Reported`] does not depend on `lengths`, so a caller that has not taken its buffers
/// yet asks with [`Lengths::LONGEST`].
///
/// ```
/// use hromulice::{check, example, Lengths, Reason, Refusal, Report};
///
/// let mut batch = example::ONE_MACROBLOCK;
/// let needed = Lengths { source: 384, reconstructed: 384, forward: 0, backward: 0 };
/// assert!(check(&batch, needed).is_accepted());
/// assert_eq!(check(&batch, needed).needed(), Some(needed));
///
/// // The quantiser, in word 4 of the macroblock, is from 1 to 31.
/// batch[31] &= !31;
/// let refused = Refusal { reason: Reason::FieldNotPermitted, place: 31 };
/// assert_eq!(check(&batch, needed), Report::Refused(refused));
/// ```
#[must_use = "only an accepted batch may go to the engine"]
pub fn check(words: &[u32], lengths: Lengths) -> Report {
    ffi::check(words, lengths.into()).into()
}

/// Checks a whole batch and, if it is accepted, writes the record of each macroblock to the log: the k-th one, from 0, at
/// byte 24·k. What is lent beyond stays as it was, and so does all of it if the batch is refused.
///
/// A record has no room for the dct type (bit 15 of word 1) and for field prediction (type 04h). Of a macroblock that uses
/// them it leaves out the dct type, and holds a field prediction as forward by word 5's vector, so that [`write_command`]
/// gives another command than it came from.
///
/// A caller that does not know the picture's size lends an empty log first and is told the bytes:
///
/// ```
/// use hromulice::{decode, example, Lengths, Report};
///
/// let batch = example::ONE_MACROBLOCK;
/// let Report::ShortLog { bytes, .. } = decode(&batch, Lengths::LONGEST, &mut []) else { panic!() };
/// let mut log = vec![0; bytes as usize];
/// assert!(decode(&batch, Lengths::LONGEST, &mut log).is_accepted());
///
/// let record = &log[..24];
/// let (column, row) = (u16::from_le_bytes([record[0], record[1]]), u16::from_le_bytes([record[2], record[3]]));
/// let (kind, pattern, quantiser) = (record[6], record[8], record[11]);
/// assert_eq!((column, row, kind, pattern, quantiser), (0, 0, 0, 63, 1));
/// ```
#[must_use = "the log is written only if the batch is accepted"]
pub fn decode(words: &[u32], lengths: Lengths, log: &mut [u8]) -> Report {
    ffi::decode(words, lengths.into(), log).into()
}

/// Whether a number is 0; otherwise it is a refusal with its place.
fn result_of(number: u8, place: u64) -> Result<(), Refusal> {
    match number {
        0 => Ok(()),
        _ => Err(report::refusal_of(number, place)),
    }
}

/// Reads one MACROBLOCK command alone, the nine words at the start of `words`, and writes its record to the first 24 bytes
/// of `record`.
///
/// What is asked of it are the rules that a command keeps by itself; the picture, the sequence and the place of its vectors
/// are not judged. Places count from 0 at the command's header.
///
/// ```
/// use hromulice::{example, read_command, Reason, RECORD_BYTES};
///
/// let mut record = [0; RECORD_BYTES];
/// let mut command = example::ONE_MACROBLOCK[27..36].to_vec();
/// read_command(&command, &mut record)?;
/// assert_eq!(record[8..13], [63, 0, 0, 1, 15]);
///
/// // A vector in an intra macroblock.
/// command[5] = 1;
/// let refused = read_command(&command, &mut record).unwrap_err();
/// assert_eq!((refused.reason, refused.place), (Reason::MissingVectorNotCopy, 5));
/// # Ok::<(), hromulice::Refusal>(())
/// ```
#[must_use = "the record is written only if the command is accepted"]
pub fn read_command(words: &[u32], record: &mut [u8]) -> Result<(), Refusal> {
    let ffi::Answer { number, place } = ffi::read_command(words, record);
    result_of(number, place)
}

/// Writes the MACROBLOCK command of one record to the first nine of `words`. It is the only command that gives the record.
///
/// ```
/// use hromulice::{example, read_command, write_command, COMMAND_WORDS, RECORD_BYTES};
///
/// let command = &example::ONE_MACROBLOCK[27..36];
/// let (mut record, mut again) = ([0; RECORD_BYTES], [0; COMMAND_WORDS]);
/// read_command(command, &mut record)?;
/// write_command(&record, &mut again)?;
/// assert_eq!(again, command);
/// # Ok::<(), hromulice::Refusal>(())
/// ```
#[must_use = "the command is written only if the record is legal"]
pub fn write_command(record: &[u8], words: &mut [u32]) -> Result<(), Refusal> {
    let ffi::Answer { number, place } = ffi::write_command(record, words);
    result_of(number, place)
}
