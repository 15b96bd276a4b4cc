//! A value of a type of another crate.

use crate::writing;
use serde::de::DeserializeOwned;
use serde::Serialize;
use seryugo::Message;

/// A message of a type that serde takes, whatever crate it is of.
///
/// ```
/// use seryugo::{Error, Switchboard};
/// use seryugo_serde::Serde;
///
/// # fn main() -> Result<(), Error> {
/// let board = Switchboard::new(1_000)?;
/// let mut seat = board.seat()?;
/// let counts = seat.mailbox::<Serde<Vec<u32>>>()?;
/// seat.send(counts, Serde(vec![3, 1, 2]))?;
/// let Serde(received) = seat.recv(counts)?;
/// assert_eq!(received, [3, 1, 2]);
/// # Ok(())
/// # }
/// ```
#[derive(Clone, Copy, Debug, Default, PartialEq, Eq, PartialOrd, Ord, Hash)]
pub struct Serde<T>(pub T);

impl<T> From<T> for Serde<T> {
    fn from(value: T) -> Serde<T> {
        Serde(value)
    }
}

impl<T: Serialize + DeserializeOwned> Message for Serde<T> {
    fn write_to(&self, bytes: &mut Vec<u8>) {
        writing::write(&self.0, bytes);
    }

    fn from_bytes(bytes: &[u8]) -> Option<Serde<T>> {
        writing::read(bytes).map(Serde)
    }
}
