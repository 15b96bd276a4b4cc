//! The sum of a piece of a sealed journal.

use crate::error::Error;
use crate::raw::code;
use std::fmt;
use std::str::FromStr;

const LENGTH: usize = 32;

/// The sum of a piece of a sealed journal: the SHA-256 of its lines. The piece names the sum of the
/// piece before, so a sum stands for all that was written before, too.
/// [`Journal::write_sealed_to`](crate::Journal::write_sealed_to) takes one and returns the next.
///
/// As text it has 64 hex digits with small letters, as in the journal.
///
/// ```
/// use seryugo::Sum;
///
/// # fn main() -> Result<(), seryugo::BadSum> {
/// let text = "358d6e3df1a032e6c6e6ec065b2347555500f856934598ef1955cd55daf9c795";
/// let sum: Sum = text.parse()?;
/// assert_eq!(sum.to_string(), text);
/// assert_eq!(sum.as_bytes()[..3], [0x35, 0x8D, 0x6E]);
/// assert_eq!(Sum::from(*sum.as_bytes()), sum);
/// # Ok(())
/// # }
/// ```
#[derive(Clone, Copy, PartialEq, Eq, Hash)]
pub struct Sum([u8; LENGTH]);

impl Sum {
    /// Its bytes.
    ///
    /// ```
    /// assert_eq!(seryugo::Sum::from([7; 32]).as_bytes(), &[7; 32]);
    /// ```
    #[must_use]
    pub fn as_bytes(&self) -> &[u8; 32] {
        &self.0
    }
}

impl From<[u8; 32]> for Sum {
    fn from(bytes: [u8; 32]) -> Sum {
        Sum(bytes)
    }
}

impl fmt::Display for Sum {
    fn fmt(&self, f: &mut fmt::Formatter<'_>) -> fmt::Result {
        self.0.iter().try_for_each(|byte| write!(f, "{byte:02x}"))
    }
}

impl fmt::Debug for Sum {
    fn fmt(&self, f: &mut fmt::Formatter<'_>) -> fmt::Result {
        write!(f, "Sum({self})")
    }
}

/// A text that is no [`Sum`]: it doesn't have just 64 hex digits with small letters.
///
/// ```
/// use seryugo::{BadSum, Sum};
///
/// assert_eq!("358d".parse::<Sum>(), Err(BadSum));
/// assert_eq!("A".repeat(64).parse::<Sum>(), Err(BadSum));
/// ```
#[derive(Clone, Copy, Debug, PartialEq, Eq)]
pub struct BadSum;

impl fmt::Display for BadSum {
    fn fmt(&self, f: &mut fmt::Formatter<'_>) -> fmt::Result {
        f.write_str("a sum has 64 hex digits with small letters")
    }
}

impl std::error::Error for BadSum {}

impl FromStr for Sum {
    type Err = BadSum;

    fn from_str(text: &str) -> Result<Sum, BadSum> {
        if text.len() != 2 * LENGTH {
            return Err(BadSum);
        }
        let mut bytes = [0; LENGTH];
        for (byte, digits) in bytes.iter_mut().zip(text.as_bytes().chunks_exact(2)) {
            *byte = 16 * digit(digits[0])? + digit(digits[1])?;
        }
        Ok(Sum(bytes))
    }
}

fn digit(digit: u8) -> Result<u8, BadSum> {
    match digit {
        b'0'..=b'9' => Ok(digit - b'0'),
        b'a'..=b'f' => Ok(digit - b'a' + 10),
        _ => Err(BadSum),
    }
}

/// A sum as the library has it: there or not.
#[derive(Clone, Copy)]
#[repr(C)]
pub struct RawSum {
    is_there: bool,
    bytes: [u8; LENGTH],
}

impl From<Option<Sum>> for RawSum {
    fn from(sum: Option<Sum>) -> RawSum {
        RawSum {
            is_there: sum.is_some(),
            bytes: sum.map_or([0; LENGTH], |sum| sum.0),
        }
    }
}

impl RawSum {
    /// The sum that a call writes, if there is one.
    pub fn written(call: impl FnOnce(&mut RawSum) -> u32) -> Result<Option<Sum>, Error> {
        let mut sum = RawSum::from(None);
        match call(&mut sum) {
            code::DONE => Ok(sum.is_there.then_some(Sum(sum.bytes))),
            code::NOTHING => Ok(None),
            code => Err(Error::of_code(code)),
        }
    }

    /// The sum that a call has written which was done.
    pub fn sum(&self) -> Sum {
        Sum(self.bytes)
    }
}
