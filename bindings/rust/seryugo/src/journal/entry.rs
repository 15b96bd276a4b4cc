//! Entries of the journal.

use crate::error::Error;
use crate::message::carries::{Bytes, MessageKind};
use std::alloc::{handle_alloc_error, Layout};

/// Who made a call, by its number.
///
/// ```
/// use seryugo::Who;
///
/// let board = seryugo::Switchboard::of_numbers(1_000)?;
/// let mut seat = board.seat()?;
/// seat.mailbox()?;
/// assert_eq!(board.entry(0).map(|entry| entry.who), Some(Who::Seat(seat.number())));
/// # Ok::<(), seryugo::Error>(())
/// ```
#[derive(Clone, Copy, Debug, PartialEq, Eq, PartialOrd, Ord, Hash)]
pub enum Who {
    /// A seat.
    Seat(u64),
    /// A lane.
    Lane(u64),
    /// A feed.
    Feed(u64),
}

/// A call, with the number of its object, and its message: a `u64`, or bytes.
///
/// ```
/// use seryugo::Call;
///
/// let board = seryugo::Switchboard::of_numbers(1_000)?;
/// let mut seat = board.seat()?;
/// let mailbox = seat.mailbox()?;
/// seat.send(mailbox, 5)?;
/// seat.recv(mailbox)?;
/// let calls = (0..3).filter_map(|at| Some(board.entry(at)?.call));
/// assert_eq!(calls.collect::<Vec<_>>(), [Call::NewMailbox, Call::Send(0, 5), Call::Recv(0)]);
/// # Ok::<(), seryugo::Error>(())
/// ```
#[derive(Clone, Copy, Debug, PartialEq, Eq, Hash)]
pub enum Call<M> {
    /// Makes a mailbox.
    NewMailbox,
    /// Makes a channel.
    NewChannel,
    /// Makes a port of this channel.
    NewPort(u64),
    /// Makes a port at the place of this port.
    CopyPort(u64),
    /// Closes this port.
    ClosePort(u64),
    /// Makes an empty i-variable.
    NewIVar,
    /// Makes an empty m-variable.
    NewMVar,
    /// Makes an m-variable that holds this message.
    MVarInit(M),
    /// Sends to this mailbox this message.
    Send(u64, M),
    /// Sends to each port of this channel this message.
    Multicast(u64, M),
    /// Receives from this mailbox or port.
    Recv(u64),
    /// Receives from this mailbox or port what is there.
    RecvPoll(u64),
    /// Fills this variable with this message.
    Put(u64, M),
    /// Reads this variable.
    Get(u64),
    /// Reads this variable if it is full.
    GetPoll(u64),
    /// Reads and empties this m-variable.
    Take(u64),
    /// Reads and empties this m-variable if it is full.
    TakePoll(u64),
    /// Stores in this m-variable this message, and reads the one before.
    Swap(u64, M),
}

/// What a call was answered.
///
/// ```
/// use seryugo::Reply;
///
/// let board = seryugo::Switchboard::of_numbers(1_000)?;
/// let mut seat = board.seat()?;
/// let variable = seat.mvar_init(5)?;
/// seat.put(variable, 6)?;
/// seat.take(variable)?;
/// let replies = (0..3).filter_map(|at| Some(board.entry(at)?.reply));
/// assert_eq!(replies.collect::<Vec<_>>(), [Reply::Made(0), Reply::Put, Reply::Got(5)]);
/// # Ok::<(), seryugo::Error>(())
/// ```
#[derive(Clone, Copy, Debug, PartialEq, Eq, Hash)]
pub enum Reply<M> {
    /// The call was done, and gives nothing.
    Done,
    /// The number of the object that was made.
    Made(u64),
    /// The message that was received or read.
    Got(M),
    /// A poll found no message.
    Nothing,
    /// The variable was full, and stays as it was.
    Put,
    /// The port is closed.
    Closed,
}

/// One accepted call.
///
/// ```
/// use seryugo::{Call, Entry, Reply, Who};
///
/// let board = seryugo::Switchboard::of_numbers(1_000)?;
/// board.seat()?.mailbox()?;
/// let entry = Entry {
///     who: Who::Seat(0),
///     call: Call::NewMailbox,
///     reply: Reply::Made(0),
/// };
/// assert_eq!(board.entry(0), Some(entry));
/// # Ok::<(), seryugo::Error>(())
/// ```
#[derive(Clone, Copy, Debug, PartialEq, Eq, Hash)]
pub struct Entry<R: MessageKind = Bytes> {
    /// Who made the call.
    pub who: Who,
    /// The call.
    pub call: Call<R::Message>,
    /// What it was answered.
    pub reply: Reply<R::Message>,
}

impl Who {
    pub(crate) fn of(kind: u32, number: u64) -> Result<Who, Error> {
        Ok(match kind {
            0 => Who::Seat(number),
            1 => Who::Lane(number),
            2 => Who::Feed(number),
            other => return Err(Error::Unknown(other)),
        })
    }
}

impl<M> Call<M> {
    /// The message that it gives.
    pub(crate) fn message(&self) -> Option<&M> {
        match self {
            Call::MVarInit(message) => Some(message),
            Call::Send(_, message) | Call::Multicast(_, message) => Some(message),
            Call::Put(_, message) | Call::Swap(_, message) => Some(message),
            _ => None,
        }
    }

    /// The call of a number of `SERYUGO_CALL_` in `seryugo.h`.
    pub(crate) fn of(
        kind: u32,
        object: u64,
        message: impl FnOnce() -> M,
    ) -> Result<Call<M>, Error> {
        Ok(match kind {
            0 => Call::NewMailbox,
            1 => Call::NewChannel,
            2 => Call::NewPort(object),
            3 => Call::CopyPort(object),
            4 => Call::ClosePort(object),
            5 => Call::NewIVar,
            6 => Call::NewMVar,
            7 => Call::MVarInit(message()),
            8 => Call::Send(object, message()),
            9 => Call::Multicast(object, message()),
            10 => Call::Recv(object),
            11 => Call::RecvPoll(object),
            12 => Call::Put(object, message()),
            13 => Call::Get(object),
            14 => Call::GetPoll(object),
            15 => Call::Take(object),
            16 => Call::TakePoll(object),
            17 => Call::Swap(object, message()),
            other => return Err(Error::Unknown(other)),
        })
    }
}

impl<M> Reply<M> {
    pub(crate) fn of(kind: u32, name: u64, message: impl FnOnce() -> M) -> Result<Reply<M>, Error> {
        Ok(match kind {
            0 => Reply::Done,
            1 => Reply::Made(name),
            2 => Reply::Got(message()),
            3 => Reply::Nothing,
            4 => Reply::Put,
            5 => Reply::Closed,
            other => return Err(Error::Unknown(other)),
        })
    }
}

/// The entry that a call has read, if there is one. If there was no memory for it, this aborts the
/// program.
pub(crate) fn found<R: MessageKind>(read: Result<Entry<R>, Error>) -> Option<Entry<R>> {
    if matches!(read, Err(Error::NoMemory)) {
        handle_alloc_error(Layout::new::<Entry<R>>());
    }
    read.ok()
}
