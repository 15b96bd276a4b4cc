//! The bytes of a value.

use crate::refused;
use bincode::{DefaultOptions, Options};
use serde::de::DeserializeOwned;
use serde::Serialize;

/// The byte before what `bincode` writes.
const VALUE: u8 = 1;

/// The options with which a value is written and read.
fn options() -> impl Options {
    DefaultOptions::new()
}

/// How many bytes `bincode` writes for a value, or why serde refuses it.
pub(crate) fn size(value: &(impl Serialize + ?Sized)) -> Result<u64, bincode::Error> {
    options().serialized_size(value)
}

/// Writes a value after what the list has. If serde refuses the value, this writes bytes that
/// [`read`] refuses and [`refusal`](crate::refusal) reads. A `Message` that you implement by hand
/// may call it.
///
/// ```
/// let mut bytes = Vec::new();
/// seryugo_serde::write(&(3_u32, "apple"), &mut bytes);
/// assert_eq!(bytes, b"\x01\x03\x05apple");
/// assert_eq!(seryugo_serde::read(&bytes), Some((3_u32, "apple".to_string())));
/// ```
pub fn write<T: Serialize + ?Sized>(value: &T, bytes: &mut Vec<u8>) {
    let start = bytes.len();
    bytes.push(VALUE);
    if let Err(reason) = options().serialize_into(&mut *bytes, value) {
        bytes.truncate(start);
        refused::write(&reason, bytes);
    }
}

/// Reads a value back from all of these bytes. `None` if they are no such value.
///
/// ```
/// assert_eq!(seryugo_serde::read::<u8>(&[1, 5]), Some(5));
/// assert_eq!(seryugo_serde::read::<u8>(&[1, 5, 6]), None);
/// ```
#[must_use]
pub fn read<T: DeserializeOwned>(bytes: &[u8]) -> Option<T> {
    let (VALUE, value) = bytes.split_first().map(|(first, rest)| (*first, rest))? else {
        return None;
    };
    options().deserialize(value).ok()
}
