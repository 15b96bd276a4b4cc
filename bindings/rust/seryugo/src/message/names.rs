//! The names of objects, each with its kind and the type of its messages.

use crate::error::Error;
use crate::message::kind::Kind;
use crate::raw::code;
use std::fmt;
use std::hash::{Hash, Hasher};
use std::marker::PhantomData;

/// What tells an object from all others of the process.
#[derive(Clone, Copy, PartialEq, Eq, Hash)]
pub struct Name {
    /// The number of the switchboard that has it.
    pub(crate) board: u64,
    /// The object's number there.
    pub(crate) number: u64,
}

macro_rules! names {
    ($($(#[$doc:meta])* $name:ident)*) => {$(
        $(#[$doc])*
        pub struct $name<T> {
            name: Name,
            message: PhantomData<fn() -> T>,
        }

        impl<T> Clone for $name<T> {
            #[inline]
            fn clone(&self) -> $name<T> {
                *self
            }
        }

        impl<T> Copy for $name<T> {}

        impl<T> PartialEq for $name<T> {
            fn eq(&self, other: &$name<T>) -> bool {
                self.name == other.name
            }
        }

        impl<T> Eq for $name<T> {}

        impl<T> Hash for $name<T> {
            fn hash<H: Hasher>(&self, state: &mut H) {
                self.name.hash(state);
            }
        }

        impl<T> fmt::Debug for $name<T> {
            fn fmt(&self, f: &mut fmt::Formatter<'_>) -> fmt::Result {
                f.debug_tuple(stringify!($name)).field(&self.name.number).finish()
            }
        }

        impl<T> Object for $name<T> {
            type Message = T;

            fn number(self) -> u64 {
                self.name.number
            }
        }

        impl<T> Named for $name<T> {
            const KIND: Kind = Kind::$name;

            #[inline]
            fn of(name: Name) -> $name<T> {
                $name {
                    name,
                    message: PhantomData,
                }
            }

            #[inline]
            fn name(self) -> Name {
                self.name
            }
        }
    )*};
}

names! {
    /// A mailbox: what is sent is received once, in order.
    ///
    /// ```
    /// # let board = seryugo::Switchboard::new(1_000)?;
    /// # let mut seat = board.seat()?;
    /// let mailbox = seat.mailbox::<String>()?;
    /// seat.send(mailbox, "one")?;
    /// seat.send(mailbox, "two")?;
    /// assert_eq!(seat.recv(mailbox)?, "one");
    /// # Ok::<(), seryugo::Error>(())
    /// ```
    ///
    /// It takes no message of another type:
    ///
    /// ```compile_fail,E0277
    /// # let board = seryugo::Switchboard::new(1_000)?;
    /// # let mut seat = board.seat()?;
    /// let mailbox = seat.mailbox::<u64>()?;
    /// seat.send(mailbox, "one")?;
    /// # Ok::<(), seryugo::Error>(())
    /// ```
    Mailbox
    /// A channel: what is multicast goes to every port.
    ///
    /// ```
    /// # let board = seryugo::Switchboard::new(1_000)?;
    /// # let mut seat = board.seat()?;
    /// let channel = seat.channel::<u64>()?;
    /// seat.multicast(channel, 1)?;
    /// assert_eq!(board.sent(channel)?, 1);
    /// # Ok::<(), seryugo::Error>(())
    /// ```
    Channel
    /// A port of a channel: it receives what is multicast from its start on.
    ///
    /// ```
    /// # let board = seryugo::Switchboard::new(1_000)?;
    /// # let mut seat = board.seat()?;
    /// let channel = seat.channel::<u64>()?;
    /// let port = seat.port(channel)?;
    /// seat.multicast(channel, 1)?;
    /// assert_eq!(seat.recv(port)?, Some(1));
    /// # Ok::<(), seryugo::Error>(())
    /// ```
    Port
    /// A variable that is filled once.
    ///
    /// ```
    /// # let board = seryugo::Switchboard::new(1_000)?;
    /// # let mut seat = board.seat()?;
    /// let variable = seat.ivar::<bool>()?;
    /// assert!(seat.put(variable, true)?);
    /// assert_eq!(seat.get(variable)?, true);
    /// # Ok::<(), seryugo::Error>(())
    /// ```
    IVar
    /// A variable that is filled and emptied again.
    ///
    /// ```
    /// # let board = seryugo::Switchboard::new(1_000)?;
    /// # let mut seat = board.seat()?;
    /// let variable = seat.mvar_init('a')?;
    /// assert_eq!(seat.swap(variable, 'b')?, 'a');
    /// assert_eq!(seat.take(variable)?, 'b');
    /// # Ok::<(), seryugo::Error>(())
    /// ```
    MVar
}

/// An object of any kind, by its name.
///
/// A name belongs to the switchboard that made it. On another one each call with it fails with
/// [`Error::NoSuch`](crate::Error::NoSuch).
///
/// ```
/// use seryugo::Object;
///
/// let board = seryugo::Switchboard::new(1_000)?;
/// let mut seat = board.seat()?;
/// assert_eq!(seat.mailbox::<u64>()?.number(), 0);
/// assert_eq!(seat.mvar::<String>()?.number(), 1);
/// # Ok::<(), seryugo::Error>(())
/// ```
pub trait Object: Named {
    /// The type of its messages.
    type Message;

    /// The number by which the journal tells the object's calls.
    fn number(self) -> u64;
}

/// A name with its kind.
pub trait Named: Copy {
    const KIND: Kind;

    fn of(name: Name) -> Self;

    fn name(self) -> Name;
}

/// What messages are received from: a mailbox or a port.
///
/// ```
/// use seryugo::{Error, Seat, Source};
///
/// fn sum(seat: &mut Seat<'_>, source: impl Source<Message = u64>) -> u64 {
///     seat.try_iter(source).sum()
/// }
/// # let board = seryugo::Switchboard::new(1_000)?;
/// # let mut seat = board.seat()?;
/// # let mailbox = seat.mailbox()?;
/// # seat.send(mailbox, 5)?;
/// # assert_eq!(sum(&mut seat, mailbox), 5);
/// # Ok::<(), Error>(())
/// ```
pub trait Source: Object {
    /// What `recv` returns: a message of a mailbox, or `Some` message of a port that is open.
    type Received;

    #[doc(hidden)]
    fn received(message: Option<Self::Message>) -> Result<Self::Received, Error>;

    #[doc(hidden)]
    fn message(received: Self::Received) -> Option<Self::Message>;
}

impl<T> Source for Mailbox<T> {
    type Received = T;

    #[inline]
    fn received(message: Option<T>) -> Result<T, Error> {
        match message {
            Some(message) => Ok(message),
            // It is made only here: it would have to be dropped elsewhere.
            None => Err(Error::Unknown(code::CLOSED)),
        }
    }

    #[inline]
    fn message(received: T) -> Option<T> {
        Some(received)
    }
}

impl<T> Source for Port<T> {
    type Received = Option<T>;

    #[inline]
    fn received(message: Option<T>) -> Result<Option<T>, Error> {
        Ok(message)
    }

    #[inline]
    fn message(received: Option<T>) -> Option<T> {
        received
    }
}

/// What a lane leads to: a mailbox or a channel.
///
/// ```
/// use seryugo::{Error, Switchboard, Target};
///
/// fn send_all(board: &Switchboard, target: impl Target<Message = u64>) -> Result<(), Error> {
///     let mut lane = board.lane(target, 8)?;
///     (0..8).try_for_each(|message| lane.send(message))?;
///     lane.close()?;
///     Ok(())
/// }
/// # let board = Switchboard::new(1_000)?;
/// # let mailbox = board.seat()?.mailbox()?;
/// # send_all(&board, mailbox)?;
/// # assert_eq!(board.sent(mailbox)?, 8);
/// # Ok::<(), Error>(())
/// ```
pub trait Target: Object {}

impl<T> Target for Mailbox<T> {}
impl<T> Target for Channel<T> {}

/// What holds a message, or is empty: an i-variable or an m-variable.
///
/// ```
/// use seryugo::{Error, Message, Switchboard, Variable};
///
/// fn is_full<T: Message>(
///     board: &Switchboard,
///     variable: impl Variable<Message = T>,
/// ) -> Result<bool, Error> {
///     Ok(board.held(variable)?.is_some())
/// }
/// # let board = Switchboard::new(1_000)?;
/// # let mut seat = board.seat()?;
/// # assert!(is_full(&board, seat.mvar_init(5)?)? && !is_full(&board, seat.ivar::<String>()?)?);
/// # Ok::<(), Error>(())
/// ```
pub trait Variable: Object {}

impl<T> Variable for IVar<T> {}
impl<T> Variable for MVar<T> {}
