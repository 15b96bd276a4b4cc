//! The version of the linked library.

use crate::error::Error;
use std::fmt;

/// A version of the library.
///
/// ```
/// use seryugo::{Error, Version};
///
/// let error = Error::Version {
///     library: Version::new(0, 2, 0),
///     wanted: Version::WANTED,
/// };
/// assert!(error.to_string().starts_with("the linked library has the version 0.2.0"));
/// ```
#[derive(Clone, Copy, PartialEq, Eq, PartialOrd, Ord, Hash)]
pub struct Version(u32);

impl Version {
    /// The version that this crate wants: its own.
    ///
    /// ```
    /// assert_eq!(seryugo::Version::WANTED.to_string(), env!("CARGO_PKG_VERSION"));
    /// ```
    pub const WANTED: Version = Version::new(
        number(env!("CARGO_PKG_VERSION_MAJOR")),
        number(env!("CARGO_PKG_VERSION_MINOR")) as u8,
        number(env!("CARGO_PKG_VERSION_PATCH")) as u8,
    );

    /// The version of these parts.
    ///
    /// ```
    /// assert_eq!(seryugo::Version::new(1, 2, 3).to_string(), "1.2.3");
    /// ```
    #[must_use]
    pub const fn new(major: u16, minor: u8, patch: u8) -> Version {
        Version((major as u32) << 16 | (minor as u32) << 8 | patch as u32)
    }
}

impl fmt::Display for Version {
    fn fmt(&self, f: &mut fmt::Formatter<'_>) -> fmt::Result {
        let [_, _, minor, patch] = self.0.to_be_bytes();
        write!(f, "{}.{minor}.{patch}", self.0 >> 16)
    }
}

impl fmt::Debug for Version {
    fn fmt(&self, f: &mut fmt::Formatter<'_>) -> fmt::Result {
        write!(f, "Version({self})")
    }
}

/// The number that a text has.
const fn number(digits: &str) -> u16 {
    let mut number = 0;
    let mut digits = digits.as_bytes();
    while let [digit, rest @ ..] = digits {
        number = 10 * number + (*digit - b'0') as u16;
        digits = rest;
    }
    number
}

/// Fails if the linked library isn't of the version that this crate wants: then no other call of it
/// may be made.
pub(crate) fn check() -> Result<(), Error> {
    expect(Version(seryugo_version()))
}

fn expect(library: Version) -> Result<(), Error> {
    match library {
        Version::WANTED => Ok(()),
        library => Err(Error::Version {
            library,
            wanted: Version::WANTED,
        }),
    }
}

unsafe extern "C" {
    // The call has had this form in each version.
    safe fn seryugo_version() -> u32;
}

#[cfg(test)]
mod tests {
    use super::*;

    #[test]
    fn a_library_of_another_version_is_refused() {
        assert_eq!(check(), Ok(()));
        for library in [
            Version::new(0, 0, 0),
            Version::new(0, 1, 0),
            Version::new(0, 2, 1),
            Version::new(0, 3, 0),
            Version::new(1, 2, 0),
        ] {
            let error = expect(library).unwrap_err();
            let text = error.to_string();
            assert!(
                text.contains(&library.to_string()) && text.contains(env!("CARGO_PKG_VERSION")),
                "{text}"
            );
            assert!(!error.is_retryable());
        }
    }

    #[test]
    fn parts_are_kept_apart() {
        assert_eq!(Version::new(65_535, 255, 255).to_string(), "65535.255.255");
        assert_eq!(number("40"), 40);
    }
}
