//! The two kinds of switchboard.

use crate::calls::Calls;
use crate::error::Error;
use crate::message::sent_as::SentAs;
use std::fmt::Debug;
use std::hash::Hash;

/// A switchboard whose messages are bytes. Values of each type that implements
/// [`Message`](crate::Message) are turned into bytes and back.
///
/// ```
/// use seryugo::{Bytes, Switchboard};
///
/// let board: Switchboard<Bytes> = Switchboard::new(1_000)?;
/// let mut seat = board.seat()?;
/// let (names, ages) = (seat.mailbox::<String>()?, seat.mailbox::<u8>()?);
/// seat.send(names, "Ann")?;
/// seat.send(ages, 41)?;
/// assert_eq!((seat.recv(names)?, seat.recv(ages)?), ("Ann".to_string(), 41));
/// # Ok::<(), seryugo::Error>(())
/// ```
#[derive(Clone, Copy, Debug, PartialEq, Eq, Hash)]
pub enum Bytes {}

/// A switchboard whose messages are `u64` alone. Its calls are the fastest.
///
/// ```
/// use seryugo::{Numbers, Switchboard};
///
/// let board: Switchboard<Numbers> = Switchboard::of_numbers(1_000)?;
/// let mut seat = board.seat()?;
/// let mailbox = seat.mailbox()?;
/// seat.send(mailbox, 5)?;
/// assert_eq!(seat.recv(mailbox)?, 5);
/// # Ok::<(), seryugo::Error>(())
/// ```
///
/// It has objects of numbers alone:
///
/// ```compile_fail,E0277
/// let board = seryugo::Switchboard::of_numbers(1_000)?;
/// let mailbox = board.seat()?.mailbox::<String>()?;
/// # Ok::<(), seryugo::Error>(())
/// ```
#[derive(Clone, Copy, Debug, PartialEq, Eq, Hash)]
pub enum Numbers {}

/// The kind of messages of a switchboard: [`Bytes`] or [`Numbers`].
///
/// ```
/// use seryugo::{Error, MessageKind, Switchboard};
///
/// /// Cuts the journal, and returns how many entries it has had.
/// fn cut<R: MessageKind>(board: &Switchboard<R>) -> Result<u64, Error> {
///     board.cut()?;
///     Ok(board.cut_at())
/// }
/// assert_eq!(cut(&Switchboard::new(1_000)?)?, 0);
/// assert_eq!(cut(&Switchboard::of_numbers(1_000)?)?, 0);
/// # Ok::<(), Error>(())
/// ```
pub trait MessageKind: Calls + Copy + Debug + Eq + Hash + Send + Sync + 'static {
    /// What an entry of the journal has of a message: a `u64`, or the bytes.
    type Message: Clone + Debug + Eq + Hash + Send + Sync + 'static;
}

/// The name that [`MessageKind`] had before. Each `MessageKind` is one.
#[deprecated(note = "it is called `MessageKind`")]
pub trait Room: MessageKind {}

#[allow(deprecated)]
impl<R: MessageKind> Room for R {}

/// A switchboard that takes messages of this type: [`Numbers`] takes `u64`, and [`Bytes`] each type
/// that implements [`Message`](crate::Message).
///
/// ```
/// use seryugo::{Carries, Error, Mailbox, Seat, Switchboard};
///
/// fn send_twice<R>(seat: &mut Seat<'_, R>, mailbox: Mailbox<u64>) -> Result<(), Error>
/// where
///     R: Carries<u64>,
/// {
///     seat.send(mailbox, 5)?;
///     Ok(seat.send(mailbox, 5)?)
/// }
/// let (board, other) = (Switchboard::new(1_000)?, Switchboard::of_numbers(1_000)?);
/// let (mut seat, mut other_seat) = (board.seat()?, other.seat()?);
/// let (mailbox, other_mailbox) = (seat.mailbox()?, other_seat.mailbox()?);
/// send_twice(&mut seat, mailbox)?;
/// send_twice(&mut other_seat, other_mailbox)?;
/// # Ok::<(), Error>(())
/// ```
#[diagnostic::on_unimplemented(
    message = "a switchboard of `{Self}` takes no messages of the type `{T}`",
    note = "one of bytes takes each type that implements `Message`, and one of numbers `u64`"
)]
pub trait Carries<T>: MessageKind {
    /// Seals the trait.
    #[doc(hidden)]
    const SEAL: Seal;

    /// Makes a call with what is sent.
    #[doc(hidden)]
    fn with_sent<M: SentAs<T>, O>(message: &M, call: impl FnOnce(Self::Sent<'_>) -> O) -> O;

    /// Owns what is sent, for a call that is made again later.
    #[doc(hidden)]
    fn owned<M: SentAs<T>>(message: &M) -> Self::OwnedMessage;

    /// The message that was received.
    #[doc(hidden)]
    fn read(received: &Self::Received) -> Result<T, Error>;
}

/// What an implementation of [`Carries`] has.
pub struct Seal;
