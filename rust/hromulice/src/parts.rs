//! The check in parts.

use crate::ffi;
use crate::report::{Lengths, Report};
use core::fmt;

/// A check of one batch whose words come in parts.
///
/// However the batch is cut, the answer after its last part is that of [`check`](crate::check) for all the words in order.
/// Parts may have any length, none included; nothing of them is kept but at most 60 words of a command that is not
/// complete. The whole check takes 1024 bytes, and none on the heap.
///
/// A driver that reads a batch from a ring or from a file hands over what it has:
///
/// ```
/// use hromulice::{example, Check, Lengths, Reason};
///
/// let mut check = Check::new(Lengths::from([384, 384, 0, 0]));
/// for part in example::ONE_MACROBLOCK.chunks(10) {
///     check.hand_over(part);
/// }
/// assert!(check.report().is_accepted());
///
/// // Zero words may follow END, others not. A fault stays the answer, whatever comes after it.
/// check.hand_over(&[0, 0, 7, 0]);
/// assert_eq!(check.report().refusal().map(|r| (r.reason, r.place)), Some((Reason::WordAfterEnd, 39)));
/// ```
///
/// The answer may be asked at any time; it is that for the words so far, taken as the whole batch. So a caller can stop as
/// soon as a fault is found, which is any answer but [`WordsRunOut`](crate::Reason::WordsRunOut) before END has come:
///
/// ```
/// use hromulice::{example, Check, Lengths, Reason, Report};
///
/// let mut damaged = example::ONE_MACROBLOCK;
/// damaged[2] |= 1;
/// let mut check = Check::new(Lengths::LONGEST);
/// let mut parts = damaged.chunks(8);
/// let fault = loop {
///     match check.report() {
///         Report::Refused(refusal) if refusal.reason != Reason::WordsRunOut => break refusal,
///         _ => check.hand_over(parts.next().unwrap()),
///     }
/// };
/// assert_eq!(fault.to_string(), "refused 4 at word 2: a bit that always has one value has the other");
/// assert_eq!(parts.len(), 4); // four of five parts were not needed
/// ```
///
/// A clone goes on by itself, for example to try two endings of one beginning.
#[derive(Clone)]
#[must_use = "a check answers by its report"]
pub struct Check {
    state: ffi::State,
}

impl Check {
    /// A check beside buffers of these lengths, before its first word.
    pub fn new(lengths: Lengths) -> Check {
        Check { state: ffi::begin(lengths.into()) }
    }

    /// The next words of the batch.
    pub fn hand_over(&mut self, part: &[u32]) {
        ffi::hand_over(&mut self.state, part);
    }

    /// The answer to all words so far.
    #[must_use = "only an accepted batch may go to the engine"]
    pub fn report(&self) -> Report {
        ffi::report_of(&self.state).into()
    }
}

/// How many 64-bit words the linked library takes for a check under way. It is the size of a [`Check`] unless crate and library
/// were taken from two places:
///
/// ```
/// use hromulice::{state_words, Check};
///
/// assert_eq!(8 * state_words(), size_of::<Check>() as u64, "libhromulice.a takes a check of another size");
/// ```
#[must_use = "crate and library of two sizes are found out by comparing it with the size of a Check"]
pub fn state_words() -> u64 {
    ffi::state_words()
}

impl fmt::Debug for Check {
    fn fmt(&self, f: &mut fmt::Formatter<'_>) -> fmt::Result {
        f.debug_struct("Check").field("report", &self.report()).finish_non_exhaustive()
    }
}
