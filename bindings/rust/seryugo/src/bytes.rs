//! The calls of a switchboard of bytes.

use crate::calls::Calls;
use crate::door::Asked;
use crate::error::Error;
use crate::explore::{self, Step};
use crate::journal::entry::Entry;
use crate::message::carries::{Bytes, Carries, MessageKind, Seal};
use crate::message::received::{RawEntry, Received};
use crate::message::sent_as::{Encoded, SentAs};
use crate::message::Message;
use crate::raw::{EntrySource, Handle, Messages};

impl MessageKind for Bytes {
    type Message = Vec<u8>;
}

impl<T: Message> Carries<T> for Bytes {
    const SEAL: Seal = Seal;

    #[inline]
    fn with_sent<M: SentAs<T>, O>(message: &M, call: impl FnOnce(&[u8]) -> O) -> O {
        match message.encoded() {
            Encoded::Message(message) => message.with_bytes(call),
            Encoded::Bytes(bytes) => call(bytes),
        }
    }

    fn owned<M: SentAs<T>>(message: &M) -> Vec<u8> {
        Self::with_sent(message, <[u8]>::to_vec)
    }

    #[inline]
    fn read(received: &Received) -> Result<T, Error> {
        let bytes = received.as_slice();
        T::from_bytes(bytes).ok_or_else(|| Error::unreadable::<T>(bytes))
    }
}

impl Calls for Bytes {
    type Sent<'m> = &'m [u8];
    type OwnedMessage = Vec<u8>;
    type Received = Received;

    #[inline]
    fn nothing() -> Received {
        Received::nothing()
    }

    fn sent(kept: &Vec<u8>) -> &[u8] {
        kept
    }

    #[inline]
    fn length(message: &[u8]) -> u64 {
        message.len() as u64
    }

    fn received_length(message: &Received) -> u64 {
        message.as_slice().len() as u64
    }

    const MESSAGES: Messages = Messages::Bytes;

    #[inline]
    fn send(room: &mut Handle, seat: u64, mailbox: u64, message: &[u8]) -> u32 {
        // SAFETY: the slice is good for the call, which keeps a copy.
        unsafe { seryugo_bytes_send_from(room, seat, mailbox, message.as_ptr(), message.len()) }
    }

    #[inline]
    fn recv(room: &mut Handle, seat: u64, source: u64, is_again: bool, to: &mut Received) -> u32 {
        seryugo_bytes_recv(room, seat, source, is_again, to)
    }

    #[inline]
    fn sending(step: Step, seat: u64, message: Self::Sent<'_>) -> Asked<'_> {
        Asked::first(step, seat).with_bytes(message)
    }

    #[inline]
    fn make(asked: &Asked, room: &mut Handle, to: &mut Received) -> u32 {
        asked.hand_over(room, to)
    }

    fn held(room: &mut Handle, variable: u64, to: &mut Received) -> u32 {
        seryugo_bytes_held(room, variable, to)
    }

    #[inline]
    fn lane_send(lane: &mut Handle, message: &[u8]) -> u32 {
        // SAFETY: the slice is good for the call, which keeps a copy.
        unsafe { seryugo_bytes_lane_send_from(lane, message.as_ptr(), message.len()) }
    }

    #[inline]
    fn feed_recv(feed: &mut Handle, to: &mut Received) -> u32 {
        seryugo_bytes_feed_recv(feed, to)
    }

    const OTHER_VERSIONS: [&'static str; 2] = ["1", "3"];

    fn word(message: &Vec<u8>) -> String {
        explore::word_of(message)
    }

    fn message_of(word: &str) -> Option<Vec<u8>> {
        explore::bytes_of(word)
    }

    fn entry(handle: &mut Handle, source: EntrySource, at: u64) -> Result<Entry<Bytes>, Error> {
        RawEntry::copied(|entry| seryugo_bytes_entry_at(handle, source, at, entry))
    }
}

unsafe extern "C" {
    fn seryugo_bytes_send_from(
        room: &mut Handle,
        seat: u64,
        mailbox: u64,
        at: *const u8,
        length: usize,
    ) -> u32;
    safe fn seryugo_bytes_recv(
        room: &mut Handle,
        seat: u64,
        source: u64,
        is_again: bool,
        message: &mut Received,
    ) -> u32;
    safe fn seryugo_bytes_held(room: &mut Handle, variable: u64, message: &mut Received) -> u32;
    fn seryugo_bytes_lane_send_from(lane: &mut Handle, at: *const u8, length: usize) -> u32;
    safe fn seryugo_bytes_feed_recv(feed: &mut Handle, message: &mut Received) -> u32;
    safe fn seryugo_bytes_entry_at(
        handle: &mut Handle,
        source: EntrySource,
        at: u64,
        entry: &mut RawEntry,
    ) -> u32;
}
