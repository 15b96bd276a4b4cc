//! Whatever serde takes is a message of a switchboard.
//!
//! [`serde_message!`] makes messages of your own types, and [`Serde`] wraps a type of another
//! crate:
//!
//! ```
//! use serde::{Deserialize, Serialize};
//! use seryugo::{Error, Switchboard};
//! use seryugo_serde::{serde_message, Serde};
//! use std::collections::HashMap;
//!
//! #[derive(Debug, Deserialize, PartialEq, Serialize)]
//! enum Order {
//!     Buy { item: String, count: u32 },
//!     Cancel,
//! }
//!
//! serde_message!(Order);
//!
//! # fn main() -> Result<(), Error> {
//! let board = Switchboard::new(1_000)?;
//! let mut seat = board.seat()?;
//! let orders = seat.mailbox::<Order>()?;
//! seat.send(orders, Order::Cancel)?;
//! assert_eq!(seat.recv(orders)?, Order::Cancel);
//!
//! let prices = seat.mailbox::<Serde<HashMap<String, u64>>>()?;
//! seat.send(prices, Serde(HashMap::from([("apple".to_string(), 5)])))?;
//! let Serde(received) = seat.recv(prices)?;
//! assert_eq!(received["apple"], 5);
//! # Ok(())
//! # }
//! ```
//!
//! # The bytes
//!
//! A message has the byte 1, and then the bytes that `bincode` 1.3 writes with its
//! `DefaultOptions`. `bincode` can't read back a type that describes itself, as one with
//! `#[serde(untagged)]`. The call that receives such a message fails with
//! [`Error::Unreadable`](seryugo::Error::Unreadable).
//!
//! # If serde refuses a value
//!
//! serde refuses few values: a map of unknown length, as `#[serde(flatten)]` makes one, a path that
//! isn't UTF-8, and what your `Serialize` refuses. [`Message`] can't refuse a value, so the send
//! succeeds, and the message has the reason. No type reads it: the call that receives it fails with
//! [`Error::Unreadable`](seryugo::Error::Unreadable), and [`refusal`] reads the reason from its
//! bytes. If serde may refuse your type, call [`check`] before you send a value.

#![forbid(unsafe_code)]

mod refused;
mod wrapped;
mod writing;

pub use refused::{check, refusal, Refused};
pub use wrapped::Serde;
pub use writing::{read, write};

#[doc(hidden)]
pub use seryugo::Message;

/// Makes messages of types that have serde's `Serialize` and `DeserializeOwned`.
///
/// ```
/// use serde::{Deserialize, Serialize};
/// use seryugo::{Error, Switchboard};
/// use seryugo_serde::serde_message;
///
/// #[derive(Debug, Deserialize, PartialEq, Serialize)]
/// struct Order {
///     item: String,
///     count: u32,
/// }
///
/// #[derive(Deserialize, Serialize)]
/// struct Receipt(Vec<Order>);
///
/// serde_message!(Order, Receipt);
///
/// # fn main() -> Result<(), Error> {
/// let board = Switchboard::new(1_000)?;
/// let mut seat = board.seat()?;
/// let receipts = seat.mailbox::<Receipt>()?;
/// let item = "apple".to_string();
/// seat.send(receipts, Receipt(vec![Order { item, count: 3 }]))?;
/// assert_eq!(seat.recv(receipts)?.0[0].count, 3);
/// # Ok(())
/// # }
/// ```
///
/// For a type of another crate, or one with parameters, use [`Serde`].
#[macro_export]
macro_rules! serde_message {
    ($($message:ty),+ $(,)?) => {$(
        impl $crate::Message for $message {
            fn write_to(&self, bytes: &mut ::std::vec::Vec<u8>) {
                $crate::write(self, bytes);
            }

            fn from_bytes(bytes: &[u8]) -> ::std::option::Option<Self> {
                $crate::read(bytes)
            }
        }
    )+};
}
