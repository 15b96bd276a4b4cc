//! Values that serde refuses to write.

use crate::writing;
use serde::Serialize;
use std::error::Error;
use std::fmt;

/// The byte before the reason.
const REFUSED: u8 = 0;

/// Serde refuses to write a value. This has the reason.
///
/// ```
/// use std::sync::Mutex;
///
/// let poisoned = Mutex::new(5);
/// std::thread::scope(|scope| {
///     let holder = scope.spawn(|| {
///         let _held = poisoned.lock();
///         panic!("this poisons the mutex");
///     });
///     assert!(holder.join().is_err());
/// });
/// let refused = seryugo_serde::check(&poisoned).unwrap_err();
/// assert!(refused.to_string().starts_with("serde refuses this message: "));
/// ```
#[derive(Clone, Debug, PartialEq, Eq)]
pub struct Refused {
    reason: String,
}

impl fmt::Display for Refused {
    fn fmt(&self, f: &mut fmt::Formatter<'_>) -> fmt::Result {
        write!(f, "serde refuses this message: {}", self.reason)
    }
}

impl Error for Refused {}

/// Whether serde writes a value. Ask before you send one that may be refused.
///
/// ```
/// assert_eq!(seryugo_serde::check(&["apple", "pear"]), Ok(()));
/// ```
///
/// # Errors
///
/// [`Refused`] has the reason. Nothing was sent.
pub fn check<T: Serialize + ?Sized>(value: &T) -> Result<(), Refused> {
    writing::size(value).map(drop).map_err(|error| Refused {
        reason: error.to_string(),
    })
}

/// Writes why serde has refused a value.
pub(crate) fn write(reason: &bincode::Error, bytes: &mut Vec<u8>) {
    bytes.push(REFUSED);
    bytes.extend_from_slice(reason.to_string().as_bytes());
}

/// Reads from a message why serde has refused to write it. `None` if serde has refused nothing.
///
/// ```
/// use seryugo::{Error, Switchboard};
/// use seryugo_serde::{refusal, serde_message};
/// use serde::{Deserialize, Serialize};
/// use std::collections::HashMap;
///
/// #[derive(Debug, Deserialize, PartialEq, Serialize)]
/// struct Order {
///     #[serde(flatten)]
///     counts: HashMap<String, u32>,
/// }
///
/// serde_message!(Order);
///
/// # fn main() -> Result<(), Error> {
/// let board = Switchboard::new(1_000)?;
/// let mut seat = board.seat()?;
/// let orders = seat.mailbox::<Order>()?;
/// seat.send(orders, Order { counts: HashMap::new() })?;
/// let Err(Error::Unreadable { bytes, .. }) = seat.recv(orders) else {
///     panic!("bincode writes no map of unknown length");
/// };
/// assert!(refusal(&bytes).is_some());
/// # Ok(())
/// # }
/// ```
#[must_use]
pub fn refusal(bytes: &[u8]) -> Option<Refused> {
    let (&REFUSED, reason) = bytes.split_first()? else {
        return None;
    };
    Some(Refused {
        reason: String::from_utf8_lossy(reason).into_owned(),
    })
}
