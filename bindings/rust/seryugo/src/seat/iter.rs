//! What a seat receives, one message after the other.

use crate::error::Error;
use crate::message::carries::{Carries, MessageKind};
use crate::message::names::Source;
use crate::seat::owned::Holds;
use crate::seat::Seat;
use crate::switchboard::Switchboard;
use std::fmt;
use std::iter::FusedIterator;

/// The messages of a mailbox or a port, each received as it is asked for. It blocks while there is
/// none. It ends if the port is closed, or if a call fails.
///
/// It borrows the seat. If you want to call from the seat between two messages, use `while let` and
/// [`Seat::recv`].
///
/// ```
/// use seryugo::{Error, Switchboard};
///
/// # fn main() -> Result<(), Error> {
/// let board = Switchboard::new(1_000)?;
/// let (mut seat, mut other) = (board.seat()?, board.seat()?);
/// let mailbox = seat.mailbox::<u64>()?;
/// std::thread::scope(|scope| {
///     scope.spawn(move || (1..=3_u64).try_for_each(|message| other.send(mailbox, message)));
///     let mut messages = seat.iter(mailbox);
///     assert_eq!(messages.by_ref().sum::<u64>(), 6);
///     assert_eq!(messages.error(), Some(Error::Stalled));
/// });
/// # Ok(())
/// # }
/// ```
#[must_use = "an iterator receives nothing before it is asked"]
pub struct Iter<'s, 'a, R: MessageKind, S, H: Holds<R> = &'a Switchboard<R>> {
    seat: &'s mut Seat<'a, R, H>,
    source: S,
    is_over: bool,
    error: Option<Error>,
}

/// The messages that wait in a mailbox or at a port. It blocks never, and ends if there is none, if
/// the port is closed, or if a call fails.
///
/// ```
/// # let board = seryugo::Switchboard::new(1_000)?;
/// let mut seat = board.seat()?;
/// let mailbox = seat.mailbox::<u64>()?;
/// seat.send(mailbox, 5)?;
/// seat.send(mailbox, 6)?;
/// let mut messages = seat.try_iter(mailbox);
/// assert_eq!(messages.by_ref().collect::<Vec<_>>(), [5, 6]);
/// assert_eq!(messages.error(), None);
/// # Ok::<(), seryugo::Error>(())
/// ```
#[must_use = "an iterator receives nothing before it is asked"]
pub struct TryIter<'s, 'a, R: MessageKind, S, H: Holds<R> = &'a Switchboard<R>> {
    seat: &'s mut Seat<'a, R, H>,
    source: S,
    error: Option<Error>,
}

impl<'a, R: MessageKind, H: Holds<R>> Seat<'a, R, H> {
    /// Receives the messages of a mailbox or a port in a loop, which ends if the port is closed or
    /// a call fails: see [`Iter`].
    ///
    /// ```
    /// # let board = seryugo::Switchboard::new(1_000)?;
    /// let mut seat = board.seat()?;
    /// let channel = seat.channel::<u64>()?;
    /// let port = seat.port(channel)?;
    /// seat.multicast(channel, 5)?;
    /// for message in seat.iter(port) {
    ///     assert_eq!(message, 5);
    /// }
    /// # Ok::<(), seryugo::Error>(())
    /// ```
    pub fn iter<S: Source>(&mut self, source: S) -> Iter<'_, 'a, R, S, H>
    where
        R: Carries<S::Message>,
    {
        Iter {
            seat: self,
            source,
            is_over: false,
            error: None,
        }
    }

    /// Receives the messages that wait now in a loop, and never blocks: see [`TryIter`].
    ///
    /// ```
    /// # let board = seryugo::Switchboard::new(1_000)?;
    /// let mut seat = board.seat()?;
    /// let mailbox = seat.mailbox::<u64>()?;
    /// assert_eq!(seat.try_iter(mailbox).count(), 0);
    /// # Ok::<(), seryugo::Error>(())
    /// ```
    pub fn try_iter<S: Source>(&mut self, source: S) -> TryIter<'_, 'a, R, S, H>
    where
        R: Carries<S::Message>,
    {
        TryIter {
            seat: self,
            source,
            error: None,
        }
    }
}

impl<R: MessageKind, S, H: Holds<R>> Iter<'_, '_, R, S, H> {
    /// The error that ended it, if one did.
    ///
    /// ```
    /// # let board = seryugo::Switchboard::new(1_000)?;
    /// # let mut seat = board.seat()?;
    /// let mailbox = seat.mailbox::<u64>()?;
    /// let mut messages = seat.iter(mailbox);
    /// assert_eq!(messages.next(), None);
    /// assert_eq!(messages.error(), Some(seryugo::Error::Stalled));
    /// # Ok::<(), seryugo::Error>(())
    /// ```
    pub fn error(&self) -> Option<Error> {
        self.error.clone()
    }
}

impl<R: MessageKind, S, H: Holds<R>> TryIter<'_, '_, R, S, H> {
    /// The error that ended it the last time, if one did.
    ///
    /// ```
    /// # let board = seryugo::Switchboard::new(1_000)?;
    /// # let mut seat = board.seat()?;
    /// let mailbox = seat.mailbox::<u64>()?;
    /// let mut messages = seat.try_iter(mailbox);
    /// assert_eq!((messages.next(), messages.error()), (None, None));
    /// # Ok::<(), seryugo::Error>(())
    /// ```
    pub fn error(&self) -> Option<Error> {
        self.error.clone()
    }
}

impl<R: Carries<S::Message>, S: Source, H: Holds<R>> Iterator for Iter<'_, '_, R, S, H> {
    type Item = S::Message;

    fn next(&mut self) -> Option<S::Message> {
        if self.is_over {
            return None;
        }
        let message = match self.seat.recv(self.source) {
            Ok(received) => S::message(received),
            Err(error) => {
                self.error = Some(error);
                None
            }
        };
        self.is_over = message.is_none();
        message
    }
}

impl<R: Carries<S::Message>, S: Source, H: Holds<R>> FusedIterator for Iter<'_, '_, R, S, H> {}

impl<R: Carries<S::Message>, S: Source, H: Holds<R>> Iterator for TryIter<'_, '_, R, S, H> {
    type Item = S::Message;

    fn next(&mut self) -> Option<S::Message> {
        match self.seat.recv_poll(self.source) {
            Ok(message) => {
                self.error = None;
                message
            }
            Err(error) => {
                self.error = Some(error);
                None
            }
        }
    }
}

impl<R: MessageKind, S, H: Holds<R>> fmt::Debug for Iter<'_, '_, R, S, H> {
    fn fmt(&self, f: &mut fmt::Formatter<'_>) -> fmt::Result {
        f.debug_struct("Iter")
            .field("seat", &self.seat)
            .field("error", &self.error)
            .finish_non_exhaustive()
    }
}

impl<R: MessageKind, S, H: Holds<R>> fmt::Debug for TryIter<'_, '_, R, S, H> {
    fn fmt(&self, f: &mut fmt::Formatter<'_>) -> fmt::Result {
        f.debug_struct("TryIter")
            .field("seat", &self.seat)
            .field("error", &self.error)
            .finish_non_exhaustive()
    }
}
