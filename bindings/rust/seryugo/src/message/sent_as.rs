//! What may be sent in place of a message.

use std::borrow::Cow;
use std::rc::Rc;
use std::sync::Arc;

/// What may be sent as a message of type `T`: the message, a reference to it, or a text or bytes that
/// the message would be made of.
///
/// | message | what is sent |
/// |---|---|
/// | each `T` | `T`, `&T`, `&mut T`, `Box<T>`, `Rc<T>`, `Arc<T>` |
/// | `String` | `&str`, `Cow<str>` too |
/// | `Box<str>`, `Arc<str>` | `&str` too |
/// | `Vec<u8>`, `Box<[u8]>` | `&[u8]`, `&[u8; N]` too |
///
/// ```
/// # let board = seryugo::Switchboard::new(1_000)?;
/// # let mut seat = board.seat()?;
/// let letters = seat.mailbox::<String>()?;
/// seat.send(letters, "Dear Ben")?;
/// seat.send(letters, format!("Dear {}", "Ann"))?;
/// assert_eq!(seat.try_iter(letters).collect::<Vec<_>>(), ["Dear Ben", "Dear Ann"]);
/// let bytes = seat.mailbox::<Vec<u8>>()?;
/// seat.send(bytes, b"five")?;
/// assert_eq!(seat.recv(bytes)?, b"five");
/// # Ok::<(), seryugo::Error>(())
/// ```
#[diagnostic::on_unimplemented(
    message = "`{Self}` can't be sent as a `{T}`",
    note = "send a `{T}` or a reference to one"
)]
pub trait SentAs<T> {
    #[doc(hidden)]
    fn encoded(&self) -> Encoded<'_, T>;
}

/// A message to send: the value, or its bytes.
pub enum Encoded<'m, T> {
    Message(&'m T),
    /// The bytes of a message.
    Bytes(&'m [u8]),
}

macro_rules! as_messages {
    ($($owner:ty)*) => {$(
        impl<T> SentAs<T> for $owner {
            #[inline]
            fn encoded(&self) -> Encoded<'_, T> {
                Encoded::Message(self)
            }
        }
    )*};
}

as_messages!(T &T &mut T Box<T> Rc<T> Arc<T>);

macro_rules! as_bytes {
    ($([$($of:tt)*] $sent:ty, $message:ty;)*) => {$(
        impl $($of)* SentAs<$message> for $sent {
            #[inline]
            fn encoded(&self) -> Encoded<'_, $message> {
                Encoded::Bytes(self.as_ref())
            }
        }
    )*};
}

as_bytes! {
    [] &[u8], Vec<u8>;
    [] &[u8], Box<[u8]>;
    [<const N: usize>] &[u8; N], Vec<u8>;
    [<const N: usize>] &[u8; N], Box<[u8]>;
}

macro_rules! as_texts {
    ($($sent:ty, $message:ty;)*) => {$(
        impl SentAs<$message> for $sent {
            #[inline]
            fn encoded(&self) -> Encoded<'_, $message> {
                Encoded::Bytes(self.as_bytes())
            }
        }
    )*};
}

as_texts! {
    &str, String;
    &str, Box<str>;
    &str, Arc<str>;
    Cow<'_, str>, String;
}
