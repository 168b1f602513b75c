//! Mount sheets, and the sign that a side gives.

use crate::ffi;
use crate::reason::Refusal;
use crate::result_of;
use core::fmt;

/// The bytes of one mount sheet.
pub const SHEET_BYTES: usize = 16;

/// The side of a boat on which the unit is mounted.
///
/// ```
/// use hromulice::Side;
///
/// assert_eq!((Side::Port.number(), u32::from(Side::Port)), (1, 1));
/// assert_eq!(Side::Port.to_string(), "port");
/// ```
#[derive(Clone, Copy, Debug, PartialEq, Eq, PartialOrd, Ord, Hash)]
pub enum Side {
    /// 0: a measured shift is the vector as it is.
    Starboard = 0,
    /// 1: the sign of x is turned.
    Port = 1,
}

impl Side {
    /// Both, by number.
    pub const ALL: [Side; 2] = [Side::Starboard, Side::Port];

    /// The side's number on a sheet.
    #[must_use]
    pub const fn number(self) -> u8 {
        self as u8
    }
}

impl From<Side> for u32 {
    fn from(side: Side) -> u32 {
        side.number().into()
    }
}

impl fmt::Display for Side {
    fn fmt(&self, f: &mut fmt::Formatter<'_>) -> fmt::Result {
        f.write_str(["starboard", "port"][*self as usize])
    }
}

/// What a boat's sheet says.
#[derive(Clone, Copy, Debug, PartialEq, Eq, Hash)]
pub struct Mount {
    /// The sheet's edition, which is below the one that was asked for where the boat has no sheet so new.
    pub edition: u32,
    /// On which side the unit is mounted.
    pub side: Side,
}

/// The boat's newest sheet whose edition is not above `edition`, among the first `count` of `sheets`.
///
/// A sheet has 16 bytes, its numbers little-endian: boat (4 bytes), edition (4), side (1) and seven zero bytes. The caller
/// keeps the bytes and how many sheets there are; [`add_mount`] adds to both. The boats' sheets may be mixed, and each boat's
/// editions are 1, 2, 3 and so on.
///
/// Which sign did a boat have in March?
///
/// ```
/// use hromulice::{add_mount, ask_mount, mount_vector, Mount, Side, SHEET_BYTES};
///
/// let mut sheets = [0; 8 * SHEET_BYTES];
/// // In March boat 12 is fitted on port, and boat 30 on starboard. In June boat 12's unit is moved.
/// let count = add_mount(&mut sheets, 0, 12, 1, Side::Port.into())?;
/// let count = add_mount(&mut sheets, count, 30, 1, Side::Starboard.into())?;
/// let count = add_mount(&mut sheets, count, 12, 2, Side::Starboard.into())?;
///
/// // Edition 1 still says port, and x is turned.
/// let march = ask_mount(&sheets, count, 12, 1)?;
/// assert_eq!(march, Mount { edition: 1, side: Side::Port });
/// assert_eq!(mount_vector(march.side.into(), 5, -3)?, (-5, -3));
///
/// // The newest one says starboard.
/// let newest = ask_mount(&sheets, count, 12, u32::MAX)?;
/// assert_eq!(newest, Mount { edition: 2, side: Side::Starboard });
/// assert_eq!(mount_vector(newest.side.into(), 5, -3)?, (5, -3));
/// # Ok::<(), hromulice::Refusal>(())
/// ```
///
/// No later adding changes the answer for an edition that the boat has, as long as each call gets the bytes as the last one
/// left them and the count that it answered. The answer for a later one changes with the boat's next sheet.
///
/// Refused are, in this order:
/// - [`SheetsDamaged`](crate::Reason::SheetsDamaged), at the number of sheets that the bytes can hold, if `count` is more, or
///   at the first bad one of those that are counted;
/// - [`NoSheet`](crate::Reason::NoSheet), if the boat has no sheet of that edition or an earlier one.
///
/// ```
/// use hromulice::{add_mount, ask_mount, Reason, Refusal, Side};
///
/// let mut sheets = [0; 40];
/// let count = add_mount(&mut sheets, 0, 12, 1, Side::Port.into())?;
/// let refused = |reason, place| Err(Refusal { reason, place });
/// assert_eq!(ask_mount(&sheets, count, 30, 1), refused(Reason::NoSheet, 0));
/// assert_eq!(ask_mount(&sheets, 3, 12, 1), refused(Reason::SheetsDamaged, 2));
/// sheets[8] = 2;
/// assert_eq!(ask_mount(&sheets, count, 12, 1), refused(Reason::SheetsDamaged, 0));
/// # Ok::<(), hromulice::Refusal>(())
/// ```
///
/// What is judged is these bytes at this moment, and only whether they are sheets of this form. A side that somebody has
/// changed, or a count that is too small, is not found out: keep bytes and count where nobody else writes them.
///
/// How long that takes is not proved. It is one pass over the counted sheets, with a look back from each for its boat's sheet
/// before. With a few hundred boats its time grows about as the number of sheets does; in the worst case, as many boats as
/// sheets, as the square of that number.
#[must_use = "a side is told only if the boat has a sheet"]
pub fn ask_mount(sheets: &[u8], count: u64, boat: u32, edition: u32) -> Result<Mount, Refusal> {
    let ffi::Mount { number, place, edition, side } = ffi::ask_mount(sheets, count, boat, edition);
    // The archive is proved to answer with a side of a sheet that it has judged.
    result_of(number, place).map(|()| Mount { edition, side: Side::ALL[usize::from(side)] })
}

/// Adds the boat's next sheet behind the last one, at byte 16·`count`, and tells how many there are now. All other bytes
/// stay, and so do all of them if it is refused; the count is then the one that was given.
///
/// ```
/// use hromulice::{add_mount, ask_mount, Reason, Refusal, Side, SHEET_BYTES};
///
/// let mut sheets = [0xff; 2 * SHEET_BYTES];
/// let count = add_mount(&mut sheets, 0, 12, 1, Side::Port.into())?;
/// assert_eq!(count, 1);
/// assert_eq!(sheets[..16], [12, 0, 0, 0, 1, 0, 0, 0, 1, 0, 0, 0, 0, 0, 0, 0]);
/// assert_eq!(sheets[16..], [0xff; 16]);
///
/// // The next edition of boat 12 is 2, and there are two sides.
/// let refused = |reason| Err(Refusal { reason, place: 0 });
/// for wrong in [0, 1, 3] {
///     assert_eq!(add_mount(&mut sheets, count, 12, wrong, Side::Starboard.into()), refused(Reason::NotNextEdition));
/// }
/// assert_eq!(add_mount(&mut sheets, count, 12, 2, 256), refused(Reason::SideNotPermitted));
///
/// // With the second sheet the room is used up.
/// let count = add_mount(&mut sheets, count, 12, 2, Side::Starboard.into())?;
/// assert_eq!(add_mount(&mut sheets, count, 12, 3, Side::Starboard.into()), refused(Reason::RoomTooSmall));
/// assert_eq!(ask_mount(&sheets, count, 12, 1)?.side, Side::Port);
/// # Ok::<(), hromulice::Refusal>(())
/// ```
///
/// `side` is the number as it was read, so that one that is no [`Side`]'s can be refused. Refused are, in this order:
/// - [`SheetsDamaged`](crate::Reason::SheetsDamaged), as by [`ask_mount`];
/// - [`SideNotPermitted`](crate::Reason::SideNotPermitted), if `side` is above 1;
/// - [`NotNextEdition`](crate::Reason::NotNextEdition), if `edition` is not 1 for a boat without a sheet, otherwise one more
///   than on its newest sheet. None follows 4294967295;
/// - [`RoomTooSmall`](crate::Reason::RoomTooSmall), at 0, if fewer than 16 bytes are behind the counted sheets.
///
/// A sheet that was added stays: what was wrong on it is put right by the next edition. But what is judged is these bytes at
/// this moment, and a count below the one that was answered last is not found out: the sheet that stands there is written
/// over.
#[must_use = "the sheet is written only if it is not refused, and the next call needs the new count"]
pub fn add_mount(sheets: &mut [u8], count: u64, boat: u32, edition: u32, side: u32) -> Result<u64, Refusal> {
    let ffi::Mounts { number, place, count } = ffi::add_mount(sheets, count, boat, edition, side);
    result_of(number, place).map(|()| count)
}

/// The vector of a measured shift (x, y): (x, y) on starboard, (−x, y) on port. y is never touched.
///
/// This is the one place where a side becomes a sign: hand in the shift as it was measured, and turn no sign before or after,
/// or it is turned twice.
///
/// ```
/// use hromulice::{mount_vector, Reason, Refusal, Side};
///
/// assert_eq!(mount_vector(Side::Starboard.into(), 40, 7), Ok((40, 7)));
/// assert_eq!(mount_vector(Side::Port.into(), 40, 7), Ok((-40, 7)));
///
/// // 32768 is no 16-bit number. On starboard, and for y, -32768 stays as it is.
/// let refused = |reason| Err(Refusal { reason, place: 0 });
/// assert_eq!(mount_vector(Side::Port.into(), -32768, 7), refused(Reason::ShiftNotTurned));
/// assert_eq!(mount_vector(Side::Starboard.into(), -32768, 7), Ok((-32768, 7)));
/// assert_eq!(mount_vector(Side::Port.into(), 7, -32768), Ok((-7, -32768)));
/// assert_eq!(mount_vector(2, -32768, 7), refused(Reason::SideNotPermitted));
/// ```
///
/// Refused are, in this order, a side above 1 ([`SideNotPermitted`](crate::Reason::SideNotPermitted)) and an x of −32768 on
/// port ([`ShiftNotTurned`](crate::Reason::ShiftNotTurned)).
#[must_use = "the vector is the answer, and a shift that is refused has none"]
pub fn mount_vector(side: u32, x: i16, y: i16) -> Result<(i16, i16), Refusal> {
    let ffi::Shift { number, place, x, y } = ffi::mount_vector(side, x, y);
    result_of(number, place).map(|()| (x, y))
}
