//! The kinds of objects, and what is wrong with an object that a call can't take.

use crate::error::Error;
use std::fmt;

/// What an object is.
///
/// ```
/// use seryugo::{Error, Kind, Switchboard};
///
/// let board = Switchboard::new(1_000)?;
/// let mut seat = board.seat()?;
/// seat.channel::<u64>()?;
/// seat.ivar::<u64>()?;
/// assert_eq!(board.kind(0), Ok(Kind::Channel));
/// assert_eq!(board.kind(1)?.to_string(), "i-variable");
/// # Ok::<(), Error>(())
/// ```
#[derive(Clone, Copy, Debug, PartialEq, Eq, Hash)]
pub enum Kind {
    /// A [`Mailbox`](crate::Mailbox).
    Mailbox,
    /// A [`Channel`](crate::Channel).
    Channel,
    /// A [`Port`](crate::Port), open or closed.
    Port,
    /// An [`IVar`](crate::IVar).
    IVar,
    /// An [`MVar`](crate::MVar).
    MVar,
}

impl Kind {
    /// The kind that the library numbers so.
    pub(crate) fn of(number: u64) -> Result<Kind, Error> {
        Ok(match number {
            0 => Kind::Mailbox,
            1 => Kind::Channel,
            2 => Kind::Port,
            3 => Kind::IVar,
            4 => Kind::MVar,
            other => return Err(Error::Unknown(other as u32)),
        })
    }

    /// The kind with the article that it takes.
    fn with_article(self) -> &'static str {
        match self {
            Kind::Mailbox => "a mailbox",
            Kind::Channel => "a channel",
            Kind::Port => "a port",
            Kind::IVar => "an i-variable",
            Kind::MVar => "an m-variable",
        }
    }
}

impl fmt::Display for Kind {
    fn fmt(&self, f: &mut fmt::Formatter<'_>) -> fmt::Result {
        f.write_str(match self {
            Kind::Mailbox => "mailbox",
            Kind::Channel => "channel",
            Kind::Port => "port",
            Kind::IVar => "i-variable",
            Kind::MVar => "m-variable",
        })
    }
}

/// What there isn't, if a call fails with [`Error::NoSuch`].
///
/// ```
/// use seryugo::{Error, Kind, Missing, Switchboard};
///
/// let (board, other) = (Switchboard::new(1_000)?, Switchboard::new(1_000)?);
/// let (mut seat, mut other_seat) = (board.seat()?, other.seat()?);
///
/// let missing = board.mailbox::<u64>(7).unwrap_err();
/// assert_eq!(missing, Error::NoSuch(Missing::Object(7)));
/// assert_eq!(missing.to_string(), "there is no object 7 on this switchboard");
///
/// let mailbox = other_seat.mailbox::<u64>()?;
/// let elsewhere = seat.recv(mailbox).unwrap_err();
/// assert_eq!(elsewhere, Error::NoSuch(Missing::Elsewhere(Kind::Mailbox, 0)));
/// assert_eq!(elsewhere.to_string(), "mailbox 0 is another switchboard's");
/// # Ok::<(), Error>(())
/// ```
#[derive(Clone, Copy, Debug, PartialEq, Eq, Hash)]
#[non_exhaustive]
pub enum Missing {
    /// The switchboard has no object of this number.
    Object(u64),
    /// The object of this kind and number is another switchboard's. That of a switchboard from
    /// before a restart is, too: find it again by its number.
    Elsewhere(Kind, u64),
    /// The object of this kind and number doesn't count what the call reads.
    Count(Kind, u64),
    /// No open lane has this number.
    Lane(u64),
}

impl fmt::Display for Missing {
    fn fmt(&self, f: &mut fmt::Formatter<'_>) -> fmt::Result {
        match self {
            Missing::Object(number) => {
                write!(f, "there is no object {number} on this switchboard")
            }
            Missing::Elsewhere(kind, number) => {
                write!(f, "{kind} {number} is another switchboard's")
            }
            Missing::Count(kind, number) => {
                write!(f, "{kind} {number} has no such count of messages")
            }
            Missing::Lane(number) => {
                write!(f, "there is no open lane {number} on this switchboard")
            }
        }
    }
}

/// Why an object can't take a call that fails with [`Error::WrongKind`].
///
/// ```
/// use seryugo::{Error, Kind, Misfit, Switchboard};
///
/// let board = Switchboard::new(1_000)?;
/// let channel = board.seat()?.channel::<u64>()?;
/// let misfit = board.mailbox::<u64>(0).unwrap_err();
/// let (is, wanted) = (Kind::Channel, Kind::Mailbox);
/// assert_eq!(misfit, Error::WrongKind(Misfit::Kind { number: 0, is, wanted }));
/// assert_eq!(misfit.to_string(), "object 0 is a channel, and no mailbox");
///
/// let feed = board.feed(channel, 8)?;
/// let misfit = board.seat()?.recv(feed.port()).unwrap_err();
/// assert_eq!(misfit, Error::WrongKind(Misfit::Feed(1)));
/// assert_eq!(misfit.to_string(), "port 1 is that of an open feed, which alone receives from it");
/// # Ok::<(), Error>(())
/// ```
#[derive(Clone, Copy, Debug, PartialEq, Eq, Hash)]
#[non_exhaustive]
pub enum Misfit {
    /// The object of this number is of another kind than the call takes.
    Kind {
        /// The object's number.
        number: u64,
        /// What it is.
        is: Kind,
        /// What the call takes.
        wanted: Kind,
    },
    /// The port of this number is that of an open feed, which alone receives from it and closes it.
    Feed(u64),
}

impl fmt::Display for Misfit {
    fn fmt(&self, f: &mut fmt::Formatter<'_>) -> fmt::Result {
        match self {
            Misfit::Kind { number, is, wanted } => {
                write!(f, "object {number} is {}, and no {wanted}", is.with_article())
            }
            Misfit::Feed(port) => {
                write!(f, "port {port} is that of an open feed, which alone receives from it")
            }
        }
    }
}
