//! The library's calls that have a message, for both kinds of switchboard.

use crate::door::Asked;
use crate::error::Error;
use crate::explore::{Step, StepKind};
use crate::journal::entry::Entry;
use crate::message::carries::{Carries, MessageKind};
use crate::raw::{done, EntrySource, Handle, Messages};

/// A call that gives an object a message.
#[derive(Clone, Copy)]
pub enum Give {
    Send,
    Multicast,
    Put,
}

/// A call that reads a message of an object.
#[derive(Clone, Copy, PartialEq, Eq)]
pub enum Read {
    Recv,
    Get,
    Take,
}

/// What a kind of switchboard has to have. Each call that returns a `u32` returns the library's
/// code. A call that is done has written what it received.
pub trait Calls: Sized {
    /// What a call that sends is given.
    type Sent<'m>: Copy + Send + Sync + Unpin;
    /// A message to send, with its owner.
    type OwnedMessage: Send + Sync;
    /// A message that was received.
    type Received: Send + Sync;

    /// What a call that receives writes to.
    fn nothing() -> Self::Received;

    fn sent(kept: &Self::OwnedMessage) -> Self::Sent<'_>;

    /// How many bytes of a line depend on what is sent.
    fn length(message: Self::Sent<'_>) -> u64;

    /// How many depend on what was received.
    fn received_length(message: &Self::Received) -> u64;

    /// Which messages the library is asked for.
    const MESSAGES: Messages;

    /// Sends, and receives, by functions of the library's own: most calls are these.
    fn send(room: &mut Handle, seat: u64, mailbox: u64, message: Self::Sent<'_>) -> u32;
    fn recv(
        room: &mut Handle,
        seat: u64,
        source: u64,
        is_again: bool,
        to: &mut Self::Received,
    ) -> u32;
    /// A call that sends this message.
    fn sending(step: Step, seat: u64, message: Self::Sent<'_>) -> Asked<'_>;
    /// Makes a call that gives a message.
    fn make(asked: &Asked, room: &mut Handle, to: &mut Self::Received) -> u32;

    #[inline]
    fn give(call: Give, room: &mut Handle, seat: u64, object: u64, message: Self::Sent<'_>) -> u32 {
        match call {
            Give::Send => Self::send(room, seat, object, message),
            Give::Multicast | Give::Put => Self::give_by_door(call.on(object), room, seat, message),
        }
    }

    // It isn't part of a caller's code, nor are the others like it: so that has sends and receives alone.
    #[inline(never)]
    fn give_by_door(step: Step, room: &mut Handle, seat: u64, message: Self::Sent<'_>) -> u32 {
        Self::sending(step, seat, message).give(room, &mut 0)
    }

    /// A call that may block.
    #[inline]
    fn ask(
        call: Read,
        room: &mut Handle,
        seat: u64,
        object: u64,
        is_again: bool,
        to: &mut Self::Received,
    ) -> u32 {
        match call {
            Read::Recv => Self::recv(room, seat, object, is_again, to),
            Read::Get | Read::Take => {
                Self::read_by_door(call.ask_of(object), room, seat, is_again, to)
            }
        }
    }

    /// The same, but it never blocks.
    #[inline]
    fn poll(call: Read, room: &mut Handle, seat: u64, object: u64, to: &mut Self::Received) -> u32 {
        Self::read_by_door(call.ask_of(object).polled(), room, seat, false, to)
    }

    #[inline(never)]
    fn read_by_door(
        step: Step,
        room: &mut Handle,
        seat: u64,
        is_again: bool,
        to: &mut Self::Received,
    ) -> u32 {
        Self::make(&Asked::first(step, seat).again(is_again), room, to)
    }

    fn mvar_init(room: &mut Handle, seat: u64, message: Self::Sent<'_>, variable: &mut u64) -> u32 {
        Self::sending(StepKind::MVarInit.makes(), seat, message).give(room, variable)
    }

    #[inline(never)]
    fn swap(
        room: &mut Handle,
        seat: u64,
        variable: u64,
        message: Self::Sent<'_>,
        is_again: bool,
        to: &mut Self::Received,
    ) -> u32 {
        let asked = Self::sending(StepKind::Swap.on(variable), seat, message);
        Self::make(&asked.again(is_again), room, to)
    }

    fn held(room: &mut Handle, variable: u64, to: &mut Self::Received) -> u32;
    fn lane_send(lane: &mut Handle, message: Self::Sent<'_>) -> u32;
    fn feed_recv(feed: &mut Handle, to: &mut Self::Received) -> u32;

    /// The versions of a journal's text whose messages are the other kind's.
    const OTHER_VERSIONS: [&'static str; 2];

    /// The word of a message in a journal's text.
    fn word(message: &Self::Message) -> String
    where
        Self: MessageKind;

    /// The message of such a word.
    fn message_of(word: &str) -> Option<Self::Message>
    where
        Self: MessageKind;

    /// The entry at a position of a room's journal, or at a place of a taken one.
    fn entry(handle: &mut Handle, source: EntrySource, at: u64) -> Result<Entry<Self>, Error>
    where
        Self: MessageKind;
}

/// The message that a call has received, if it was done.
#[inline]
pub fn received<R: Carries<T>, T>(code: u32, received: &R::Received) -> Result<T, Error> {
    done(code)?;
    R::read(received)
}
