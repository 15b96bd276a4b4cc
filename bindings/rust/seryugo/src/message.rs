//! What is sent on a switchboard of bytes.

pub(crate) mod carries;
pub(crate) mod kind;
pub(crate) mod lists;
pub(crate) mod names;
pub(crate) mod received;
pub(crate) mod sent_as;

use std::slice;
use std::sync::Arc;

/// A value that is sent as bytes, and read back from them.
///
/// It is implemented for the numbers, `bool`, `char`, `()`, strings, lists, maps and arrays of
/// bytes, tuples of one to six messages, and [`Option`]s.
///
/// For a type of yours that derives serde's `Serialize` and `Deserialize`, name the crate
/// `seryugo_serde` beside this one, and write `serde_message!(Order);`. Or implement the two methods:
///
/// ```
/// use seryugo::{Error, Message, Switchboard};
///
/// #[derive(Debug, PartialEq)]
/// struct Order {
///     item: String,
///     count: u32,
/// }
///
/// impl Message for Order {
///     fn write_to(&self, bytes: &mut Vec<u8>) {
///         self.count.write_to(bytes);
///         self.item.write_to(bytes);
///     }
///
///     fn from_bytes(bytes: &[u8]) -> Option<Order> {
///         let (count, item) = bytes.split_at_checked(4)?;
///         Some(Order {
///             item: String::from_bytes(item)?,
///             count: u32::from_bytes(count)?,
///         })
///     }
/// }
///
/// # fn main() -> Result<(), Error> {
/// let board = Switchboard::new(1_000)?;
/// let mut seat = board.seat()?;
/// let orders = seat.mailbox::<Order>()?;
/// let order = Order {
///     item: "apple".to_string(),
///     count: 3,
/// };
/// seat.send(orders, &order)?;
/// assert_eq!(seat.recv(orders)?, order);
/// # Ok(())
/// # }
/// ```
///
/// # The bytes
///
/// A program in another language reads them too.
///
/// | type | bytes |
/// |---|---|
/// | `u8` to `u128`, `i8` to `i128`, `f32`, `f64` | as many as the type has, the lowest first |
/// | `usize`, `isize` | eight, the lowest first |
/// | `bool` | one: 0 or 1 |
/// | `char` | four: its number, the lowest byte first |
/// | `()` | none |
/// | `String`, `Box<str>`, `Arc<str>` | its UTF-8 |
/// | `Vec<u8>`, `Box<[u8]>`, `[u8; N]` | its bytes |
/// | `Vec<T>`, `Box<[T]>` | the messages. Before each comes its length, as in a tuple |
/// | `BTreeMap<K, V>`, `HashMap<K, V>` | those of a list of tuples `(K, V)`, in the map's order |
/// | `Option<T>` | none, or 1 and then the message |
/// | tuples | the messages. Before each but the last comes its length: seven bits a byte, the lowest first, and 128 more in each byte but the last |
#[diagnostic::on_unimplemented(
    message = "`{Self}` is no message",
    note = "implement `seryugo::Message` for it, which turns it into bytes and back"
)]
pub trait Message: Sized {
    /// Writes the value after what the list has.
    ///
    /// ```
    /// use seryugo::Message;
    ///
    /// let mut bytes = Vec::new();
    /// 5_u16.write_to(&mut bytes);
    /// "five".to_string().write_to(&mut bytes);
    /// assert_eq!(bytes, b"\x05\x00five");
    /// ```
    fn write_to(&self, bytes: &mut Vec<u8>);

    /// Calls a function with the value's bytes: those that [`write_to`](Message::write_to) writes.
    /// Override it if the value has its bytes in one piece, or needs no memory for them.
    ///
    /// ```
    /// use seryugo::Message;
    ///
    /// assert_eq!("five".to_string().with_bytes(<[u8]>::len), 4);
    /// assert_eq!((5_u8, "five".to_string()).with_bytes(<[u8]>::to_vec), b"\x01\x05five");
    /// ```
    #[inline]
    fn with_bytes<O>(&self, use_bytes: impl FnOnce(&[u8]) -> O) -> O {
        let mut bytes = Vec::new();
        self.write_to(&mut bytes);
        use_bytes(&bytes)
    }

    /// Reads a value back from all of these bytes. `None` if they are no such value: then the call
    /// that received them fails with [`Error::Unreadable`](crate::Error::Unreadable), which has the
    /// bytes.
    ///
    /// ```
    /// use seryugo::Message;
    ///
    /// assert_eq!(u16::from_bytes(&[5, 0]), Some(5));
    /// assert_eq!(u16::from_bytes(&[5, 0, 0]), None);
    /// assert_eq!(String::from_bytes(&[255]), None);
    /// ```
    fn from_bytes(bytes: &[u8]) -> Option<Self>;

    /// The bytes of a list, if these values are bytes.
    #[doc(hidden)]
    #[inline]
    fn bytes_of(_list: &[Self]) -> Option<&[u8]> {
        None
    }

    /// The list of these bytes, if these values are bytes.
    #[doc(hidden)]
    #[inline]
    #[must_use]
    fn list_of(_bytes: &[u8]) -> Option<Vec<Self>> {
        None
    }
}

impl Message for u8 {
    #[inline]
    fn write_to(&self, bytes: &mut Vec<u8>) {
        bytes.push(*self);
    }

    #[inline]
    fn with_bytes<O>(&self, use_bytes: impl FnOnce(&[u8]) -> O) -> O {
        use_bytes(slice::from_ref(self))
    }

    #[inline]
    fn from_bytes(bytes: &[u8]) -> Option<u8> {
        <[u8; 1]>::try_from(bytes).ok().map(|[byte]| byte)
    }

    #[inline]
    fn bytes_of(list: &[u8]) -> Option<&[u8]> {
        Some(list)
    }

    #[inline]
    fn list_of(bytes: &[u8]) -> Option<Vec<u8>> {
        Some(bytes.to_vec())
    }
}

/// Numbers, the lowest byte first.
macro_rules! numbers {
    ($($number:ty)*) => {$(
        impl Message for $number {
            #[inline]
            fn write_to(&self, bytes: &mut Vec<u8>) {
                bytes.extend_from_slice(&self.to_le_bytes());
            }

            #[inline]
            fn with_bytes<O>(&self, use_bytes: impl FnOnce(&[u8]) -> O) -> O {
                use_bytes(&self.to_le_bytes())
            }

            #[inline]
            fn from_bytes(bytes: &[u8]) -> Option<$number> {
                bytes.try_into().ok().map(<$number>::from_le_bytes)
            }
        }
    )*};
}

numbers!(u16 u32 u64 u128 i8 i16 i32 i64 i128 f32 f64);

/// Types that are sent as another type.
macro_rules! as_others {
    ($($message:ty, $other:ty, $to:expr, $from:expr;)*) => {$(
        impl Message for $message {
            #[inline]
            fn write_to(&self, bytes: &mut Vec<u8>) {
                let to: fn($message) -> $other = $to;
                to(*self).write_to(bytes);
            }

            #[inline]
            fn with_bytes<O>(&self, use_bytes: impl FnOnce(&[u8]) -> O) -> O {
                let to: fn($message) -> $other = $to;
                to(*self).with_bytes(use_bytes)
            }

            #[inline]
            fn from_bytes(bytes: &[u8]) -> Option<$message> {
                let from: fn($other) -> Option<$message> = $from;
                <$other>::from_bytes(bytes).and_then(from)
            }
        }
    )*};
}

as_others! {
    usize, u64, |number| number as u64, |number| number.try_into().ok();
    isize, i64, |number| number as i64, |number| number.try_into().ok();
    char, u32, u32::from, char::from_u32;
    bool, u8, u8::from, |number| match number {
        0 => Some(false),
        1 => Some(true),
        _ => None,
    };
}

/// Types that have their bytes in one piece.
macro_rules! pieces {
    ($([$($of:tt)*] $message:ty, $as_bytes:expr, $from:expr;)*) => {$(
        impl $($of)* Message for $message {
            #[inline]
            fn write_to(&self, bytes: &mut Vec<u8>) {
                self.with_bytes(|piece| bytes.extend_from_slice(piece));
            }

            #[inline]
            fn with_bytes<O>(&self, use_bytes: impl FnOnce(&[u8]) -> O) -> O {
                let as_bytes: fn(&$message) -> &[u8] = $as_bytes;
                use_bytes(as_bytes(self))
            }

            #[inline]
            fn from_bytes(bytes: &[u8]) -> Option<$message> {
                let from: fn(&[u8]) -> Option<$message> = $from;
                from(bytes)
            }
        }
    )*};
}

pieces! {
    [] (), |()| &[], |bytes| bytes.is_empty().then_some(());
    [] String, |text| text.as_bytes(), |bytes| std::str::from_utf8(bytes).ok().map(String::from);
    [] Box<str>, |text| text.as_bytes(), |bytes| std::str::from_utf8(bytes).ok().map(Box::from);
    [] Arc<str>, |text| text.as_bytes(), |bytes| std::str::from_utf8(bytes).ok().map(Arc::from);
    [<const N: usize>] [u8; N], |bytes| bytes, |bytes| bytes.try_into().ok();
}

impl<T: Message> Message for Option<T> {
    fn write_to(&self, bytes: &mut Vec<u8>) {
        if let Some(message) = self {
            bytes.push(1);
            message.write_to(bytes);
        }
    }

    fn from_bytes(bytes: &[u8]) -> Option<Option<T>> {
        match bytes.split_first() {
            None => Some(None),
            Some((1, message)) => T::from_bytes(message).map(Some),
            Some(_) => None,
        }
    }
}

/// Writes a message with its length before it.
pub(crate) fn write_part(message: &impl Message, bytes: &mut Vec<u8>) {
    message.with_bytes(|part| {
        write_length(part.len(), bytes);
        bytes.extend_from_slice(part);
    });
}

pub(crate) fn write_length(mut length: usize, bytes: &mut Vec<u8>) {
    while length >= 0x80 {
        bytes.push(length as u8 | 0x80);
        length >>= 7;
    }
    bytes.push(length as u8);
}

/// Reads a message that has its length before it. The bytes after it are left.
pub(crate) fn read_part<T: Message>(bytes: &mut &[u8]) -> Option<T> {
    let length = read_length(bytes)?;
    let (part, rest) = bytes.split_at_checked(length)?;
    *bytes = rest;
    T::from_bytes(part)
}

fn read_length(bytes: &mut &[u8]) -> Option<usize> {
    let mut length = 0;
    for shift in (0..usize::BITS).step_by(7) {
        let (&byte, rest) = bytes.split_first()?;
        *bytes = rest;
        let digit = usize::from(byte & 0x7F);
        length |= digit.checked_shl(shift).filter(|shifted| shifted >> shift == digit)?;
        if byte < 0x80 {
            return Some(length);
        }
    }
    None
}

macro_rules! tuples {
    ($(($($part:ident)*) $last:ident;)*) => {$(
        impl<$($part: Message,)* $last: Message> Message for ($($part,)* $last,) {
            #[allow(non_snake_case)]
            fn write_to(&self, bytes: &mut Vec<u8>) {
                let ($($part,)* $last,) = self;
                $(write_part($part, bytes);)*
                $last.write_to(bytes);
            }

            fn from_bytes(bytes: &[u8]) -> Option<Self> {
                #[allow(unused_mut)]
                let mut rest = bytes;
                Some(($(read_part::<$part>(&mut rest)?,)* $last::from_bytes(rest)?,))
            }
        }
    )*};
}

tuples! {
    () A;
    (A) B;
    (A B) C;
    (A B C) D;
    (A B C D) E;
    (A B C D E) F;
}
