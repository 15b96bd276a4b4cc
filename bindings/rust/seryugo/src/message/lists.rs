//! Lists and maps of messages.

use crate::message::{read_part, write_length, write_part, Message};
use std::collections::{BTreeMap, HashMap};
use std::hash::{BuildHasher, Hash};

/// Writes each message with its length before it. Bytes have none.
#[inline]
fn write_list<T: Message>(list: &[T], bytes: &mut Vec<u8>) {
    match T::bytes_of(list) {
        Some(piece) => bytes.extend_from_slice(piece),
        None => list.iter().for_each(|message| write_part(message, bytes)),
    }
}

#[inline]
fn with_bytes<T: Message, O>(list: &[T], use_bytes: impl FnOnce(&[u8]) -> O) -> O {
    if let Some(piece) = T::bytes_of(list) {
        return use_bytes(piece);
    }
    let mut bytes = Vec::new();
    write_list(list, &mut bytes);
    use_bytes(&bytes)
}

#[inline]
fn read_list<T: Message>(bytes: &[u8]) -> Option<Vec<T>> {
    if let Some(list) = T::list_of(bytes) {
        return Some(list);
    }
    let (mut list, mut rest) = (Vec::new(), bytes);
    while !rest.is_empty() {
        list.push(read_part(&mut rest)?);
    }
    Some(list)
}

impl<T: Message> Message for Vec<T> {
    #[inline]
    fn write_to(&self, bytes: &mut Vec<u8>) {
        write_list(self, bytes);
    }

    #[inline]
    fn with_bytes<O>(&self, use_bytes: impl FnOnce(&[u8]) -> O) -> O {
        with_bytes(self, use_bytes)
    }

    #[inline]
    fn from_bytes(bytes: &[u8]) -> Option<Vec<T>> {
        read_list(bytes)
    }
}

impl<T: Message> Message for Box<[T]> {
    #[inline]
    fn write_to(&self, bytes: &mut Vec<u8>) {
        write_list(self, bytes);
    }

    #[inline]
    fn with_bytes<O>(&self, use_bytes: impl FnOnce(&[u8]) -> O) -> O {
        with_bytes(self, use_bytes)
    }

    #[inline]
    fn from_bytes(bytes: &[u8]) -> Option<Box<[T]>> {
        read_list(bytes).map(Vec::into_boxed_slice)
    }
}

/// Writes the pairs of a map as a list of tuples.
fn write_pairs<'m, K: Message + 'm, V: Message + 'm>(
    pairs: impl Iterator<Item = (&'m K, &'m V)>,
    bytes: &mut Vec<u8>,
) {
    let mut pair = Vec::new();
    for (key, value) in pairs {
        write_part(key, &mut pair);
        value.write_to(&mut pair);
        write_length(pair.len(), bytes);
        bytes.append(&mut pair);
    }
}

/// The map of these pairs. `None` if two have the same key.
fn read_pairs<K, V, M>(bytes: &[u8], len: fn(&M) -> usize) -> Option<M>
where
    K: Message,
    V: Message,
    M: FromIterator<(K, V)>,
{
    let pairs = read_list::<(K, V)>(bytes)?;
    let count = pairs.len();
    let map = pairs.into_iter().collect();
    (len(&map) == count).then_some(map)
}

impl<K: Message + Ord, V: Message> Message for BTreeMap<K, V> {
    fn write_to(&self, bytes: &mut Vec<u8>) {
        write_pairs(self.iter(), bytes);
    }

    fn from_bytes(bytes: &[u8]) -> Option<BTreeMap<K, V>> {
        read_pairs(bytes, BTreeMap::len)
    }
}

impl<K: Message + Eq + Hash, V: Message, S: BuildHasher + Default> Message for HashMap<K, V, S> {
    fn write_to(&self, bytes: &mut Vec<u8>) {
        write_pairs(self.iter(), bytes);
    }

    fn from_bytes(bytes: &[u8]) -> Option<HashMap<K, V, S>> {
        read_pairs(bytes, HashMap::len)
    }
}
