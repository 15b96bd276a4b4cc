//! The calls of a switchboard of numbers.

use crate::calls::Calls;
use crate::door::Asked;
use crate::error::Error;
use crate::explore::Step;
use crate::journal::entry::{Call, Entry, Reply, Who};
use crate::message::carries::{Carries, MessageKind, Numbers, Seal};
use crate::message::sent_as::{Encoded, SentAs};
use crate::message::Message;
use crate::raw::{done, EntrySource, Handle, Messages};

impl MessageKind for Numbers {
    type Message = u64;
}

impl Carries<u64> for Numbers {
    const SEAL: Seal = Seal;

    #[inline]
    fn with_sent<M: SentAs<u64>, O>(message: &M, call: impl FnOnce(u64) -> O) -> O {
        call(Self::owned(message))
    }

    #[inline]
    fn owned<M: SentAs<u64>>(message: &M) -> u64 {
        match message.encoded() {
            Encoded::Message(number) => *number,
            // No bytes are sent as a number, so that this is never reached.
            Encoded::Bytes(bytes) => u64::from_bytes(bytes).unwrap_or_default(),
        }
    }

    #[inline]
    fn read(received: &u64) -> Result<u64, Error> {
        Ok(*received)
    }
}

impl Calls for Numbers {
    type Sent<'m> = u64;
    type OwnedMessage = u64;
    type Received = u64;

    #[inline]
    fn nothing() -> u64 {
        0
    }

    fn sent(kept: &u64) -> u64 {
        *kept
    }

    #[inline]
    fn length(_: u64) -> u64 {
        0
    }

    fn received_length(_: &u64) -> u64 {
        0
    }

    const MESSAGES: Messages = Messages::Numbers;

    #[inline]
    fn send(room: &mut Handle, seat: u64, mailbox: u64, message: u64) -> u32 {
        seryugo_send(room, seat, mailbox, message)
    }

    #[inline]
    fn recv(room: &mut Handle, seat: u64, source: u64, is_again: bool, to: &mut u64) -> u32 {
        seryugo_recv(room, seat, source, is_again, to)
    }

    #[inline]
    fn sending(step: Step, seat: u64, message: Self::Sent<'_>) -> Asked<'_> {
        Asked::first(step, seat).with_number(message)
    }

    #[inline]
    fn make(asked: &Asked, room: &mut Handle, to: &mut u64) -> u32 {
        asked.give(room, to)
    }

    fn held(room: &mut Handle, variable: u64, to: &mut u64) -> u32 {
        seryugo_held(room, variable, to)
    }

    #[inline]
    fn lane_send(lane: &mut Handle, message: u64) -> u32 {
        seryugo_lane_send(lane, message)
    }

    #[inline]
    fn feed_recv(feed: &mut Handle, to: &mut u64) -> u32 {
        seryugo_feed_recv(feed, to)
    }

    const OTHER_VERSIONS: [&'static str; 2] = ["2", "4"];

    fn word(message: &u64) -> String {
        message.to_string()
    }

    fn message_of(word: &str) -> Option<u64> {
        word.parse().ok()
    }

    fn entry(handle: &mut Handle, source: EntrySource, at: u64) -> Result<Entry<Numbers>, Error> {
        let mut raw = RawEntry::default();
        done(seryugo_entry_at(handle, source, at, &mut raw))?;
        let RawEntry { maker, call, reply } = raw;
        Ok(Entry {
            who: Who::of(maker.kind, maker.number)?,
            call: Call::of(call.kind, call.object, || call.message)?,
            reply: Reply::of(reply.kind, reply.given, || reply.given)?,
        })
    }
}

#[repr(C)]
#[derive(Default)]
struct RawEntry {
    maker: RawMaker,
    call: RawCall,
    reply: RawReply,
}

#[repr(C)]
#[derive(Default)]
pub struct RawMaker {
    pub kind: u32,
    pub number: u64,
}

#[repr(C)]
#[derive(Default)]
struct RawCall {
    kind: u32,
    object: u64,
    message: u64,
}

#[repr(C)]
#[derive(Default)]
struct RawReply {
    kind: u32,
    given: u64,
}

unsafe extern "C" {
    safe fn seryugo_send(room: &mut Handle, seat: u64, mailbox: u64, message: u64) -> u32;
    safe fn seryugo_recv(
        room: &mut Handle,
        seat: u64,
        source: u64,
        is_again: bool,
        message: &mut u64,
    ) -> u32;
    safe fn seryugo_held(room: &mut Handle, variable: u64, message: &mut u64) -> u32;
    safe fn seryugo_lane_send(lane: &mut Handle, message: u64) -> u32;
    safe fn seryugo_feed_recv(feed: &mut Handle, message: &mut u64) -> u32;
    safe fn seryugo_entry_at(
        handle: &mut Handle,
        source: EntrySource,
        at: u64,
        entry: &mut RawEntry,
    ) -> u32;
}
