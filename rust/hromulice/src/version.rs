//! The versions of the crate and of the library.

use crate::ffi;
use core::fmt;

/// A version. Of two, the later one is the greater one.
///
/// ```
/// use hromulice::Version;
///
/// let version = Version { major: 1, minor: 2, patch: 3 };
/// assert_eq!(version.to_string(), "1.2.3");
/// assert!(version < Version { major: 1, minor: 10, patch: 0 });
/// ```
#[derive(Clone, Copy, Debug, PartialEq, Eq, PartialOrd, Ord, Hash)]
pub struct Version {
    /// One more: an earlier caller has to be changed or compiled again.
    pub major: u16,
    /// One more: functions were added, and an earlier caller works as it is.
    pub minor: u8,
    /// One more: neither.
    pub patch: u8,
}

impl Version {
    /// The version as one number, as `hromulice_version` of the C interface gives it.
    ///
    /// ```
    /// use hromulice::Version;
    ///
    /// assert_eq!(Version { major: 1, minor: 2, patch: 3 }.number(), 0x1_0203);
    /// ```
    #[must_use]
    pub const fn number(self) -> u32 {
        (self.major as u32) << 16 | (self.minor as u32) << 8 | self.patch as u32
    }

    /// The version with this number.
    ///
    /// ```
    /// use hromulice::Version;
    ///
    /// assert_eq!(Version::from_number(0x1_0203), Version { major: 1, minor: 2, patch: 3 });
    /// ```
    #[must_use]
    pub const fn from_number(number: u32) -> Version {
        Version { major: (number >> 16) as u16, minor: (number >> 8) as u8, patch: number as u8 }
    }
}

impl fmt::Display for Version {
    fn fmt(&self, f: &mut fmt::Formatter<'_>) -> fmt::Result {
        write!(f, "{}.{}.{}", self.major, self.minor, self.patch)
    }
}

/// One of the three numbers, as Cargo hands it to the compiler.
const fn number_in(text: &str, most: u32) -> u32 {
    match u32::from_str_radix(text, 10) {
        Ok(number) if number <= most => number,
        _ => panic!("a number of the crate's version"),
    }
}

/// The version of this crate, as its Cargo.toml has it.
///
/// ```
/// use hromulice::{Version, VERSION};
///
/// assert!(VERSION >= Version { major: 1, minor: 0, patch: 0 });
/// ```
pub const VERSION: Version = Version {
    major: number_in(env!("CARGO_PKG_VERSION_MAJOR"), 0xffff) as u16,
    minor: number_in(env!("CARGO_PKG_VERSION_MINOR"), 0xff) as u8,
    patch: number_in(env!("CARGO_PKG_VERSION_PATCH"), 0xff) as u8,
};

/// The version of the library that is linked. It is [`VERSION`] unless crate and library were taken from two places:
///
/// ```
/// assert_eq!(hromulice::version(), hromulice::VERSION, "libhromulice.a is of another version than the crate");
/// ```
#[must_use = "crate and library of two versions are found out by comparing it with VERSION"]
pub fn version() -> Version {
    Version::from_number(ffi::version())
}
