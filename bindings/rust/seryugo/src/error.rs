//! Why a call failed.

pub(crate) mod cause;

use crate::error::cause::FileCause;
use crate::explore::Diverged;
use crate::message::kind::{Misfit, Missing};
use crate::raw::code;
use crate::switchboard::waiting::write_last_stall;
use crate::version::Version;
use std::any;
use std::fmt;

/// Why a call failed. A call that failed changed nothing, with some exceptions:
///
/// - [`Lane::close`](crate::Lane::close) has ended the lane, and may have moved some of its
///   messages.
/// - If it fails with [`Unreadable`](Error::Unreadable), the message was received, and its bytes
///   are in the error.
/// - [`Seat::request`](crate::Seat::request) may have sent its question, which
///   [`RequestError::was_sent`](crate::RequestError::was_sent) says.
/// - A call that fails with [`FileLost`](Error::FileLost) may be in the journal's file.
///
/// A `drain` or a `pump` that failed moved nothing. If a message after the first is refused, it
/// returns how many moved.
///
/// ```
/// use seryugo::{Error, Switchboard};
///
/// # fn main() -> Result<(), Error> {
/// let board = Switchboard::new(1)?;
/// let mut seat = board.seat()?;
/// let mailbox = seat.mailbox::<String>()?;
/// let refused = seat.send(mailbox, "hello").unwrap_err();
/// assert_eq!(refused.error, Error::JournalFull);
/// assert!(refused.error.is_retryable());
/// board.cut()?;
/// seat.send(mailbox, refused.message)?;
/// # Ok(())
/// # }
/// ```
#[derive(Clone, Debug, PartialEq, Eq, Hash)]
pub enum Error {
    /// The seat waits, or has left; or the switchboard has closed the lane.
    Gone,
    /// A lane or a feed is open, so that the journal can't be cut.
    Busy,
    /// There is none of this name or number: [`Missing`] says which. The name may be of another
    /// switchboard, or the call reads what objects of this kind don't have.
    NoSuch(Missing),
    /// The object can't take this call: [`Misfit`] says why. It is of another kind, or an open feed
    /// alone may make the call.
    WrongKind(Misfit),
    /// The journal has as many entries since the last cut as its limit says.
    JournalFull,
    /// Nobody took entries that were cut from the journal:
    /// [`Switchboard::keeping_error`](crate::Switchboard::keeping_error) says why. The switchboard
    /// keeps them.
    NotKept,
    /// The call would wait, and no present seat or open lane could ever answer it: a deadlock. No
    /// call fails so while a seat waits with a time limit or as a future, while a
    /// [`Guest`](crate::Guest) is there, or while a seat is [expected](crate::Switchboard::expect).
    /// Its text says who waited at what, as the last call of the thread that prints it failed so.
    Stalled,
    /// There was no memory for it.
    NoMemory,
    /// Not as many messages were seen of a lane as were sent on it.
    Unseen,
    /// The lane has no free slot until it is drained.
    Full,
    /// A limit isn't from 1 to 2^32, a capacity isn't from 1 to 1024, or a message has more than
    /// 2^32 - 1 bytes.
    OutOfBounds,
    /// A message is too long. The journal isn't written as text, since no reader would take the
    /// line, of more than 4,194,304 bytes. Or a file or a sink takes the journal, and the message has
    /// more than 1,398,000 bytes, or both messages of a swap.
    TooLong,
    /// The call's time limit passed before there was an answer.
    TimedOut,
    /// A server has received the question, and [declines](crate::Asker::decline) to answer it.
    Declined,
    /// The message was received, and it can't be read as the type that its object has.
    Unreadable {
        /// The type's name, in the words of [`type_name`](std::any::type_name).
        wanted: &'static str,
        /// The message's bytes.
        bytes: Vec<u8>,
    },
    /// Another switchboard has the journal's file, of this process or of another one.
    FileBusy,
    /// The file is no journal.
    NoJournal,
    /// The journal's text has a version that the linked library doesn't read.
    OtherVersion,
    /// The journal's messages are numbers, and the switchboard is one of bytes, or the other way
    /// round.
    OtherMessages,
    /// The journal begins after a cut: what was before isn't in the file.
    BeginsLater,
    /// This line of the journal's file, counted from 1, has a fault: the file was changed.
    Fault(u64),
    /// The entry at this position of the journal's file, counted from 0, isn't lawful: the file was
    /// changed.
    Unlawful(u64),
    /// The system refused what opening the journal's file needs.
    FileFailed(FileCause),
    /// The disk is full, or the system lets the journal's file grow no further. The call wasn't made.
    /// A `drain` or a `pump` of many long messages may have moved them: they are kept once there is
    /// room.
    FileFull(FileCause),
    /// The journal's file is lost, since a sync failed or others cut the file: nobody knows whether
    /// the call is there. Each later call fails so, and all who wait are woken.
    FileLost(FileCause),
    /// The process is a child of a fork: the journal's file is its parent's. What returns no `Error`,
    /// as [`Switchboard::entries`](crate::Switchboard::entries), panics there.
    Forked,
    /// A [file](crate::Switchboard::open) keeps the journal, and alone cuts it.
    HasFile,
    /// The switchboard is [rerun](crate::explore::rerun), and the run isn't the journal's any more.
    /// Each call fails so from there on.
    Diverged(Box<Diverged>),
    /// The switchboard is [rerun](crate::explore::rerun), and all entries of the journal were made.
    RerunEnded,
    /// The library that is linked isn't of the version that this crate wants. No call was made.
    Version {
        /// The version of the library.
        library: Version,
        /// The version that this crate wants.
        wanted: Version,
    },
    /// The library returned a code that this version of it never returns there.
    Unknown(u32),
}

impl Error {
    /// The error of a code that the library returned. Two codes need an object to be one: see
    /// `missing` and `misfit`. No call that names no object returns them.
    #[cold]
    pub(crate) fn of_code(code: u32) -> Error {
        match code {
            code::GONE => Error::Gone,
            code::BUSY => Error::Busy,
            code::JOURNAL_FULL => Error::JournalFull,
            code::STALLED => Error::Stalled,
            code::NO_MEMORY => Error::NoMemory,
            code::UNSEEN => Error::Unseen,
            code::FULL => Error::Full,
            code::OUT_OF_BOUNDS => Error::OutOfBounds,
            code::TOO_LONG => Error::TooLong,
            code::NOT_KEPT => Error::NotKept,
            code::NO_JOURNAL => Error::NoJournal,
            code::FILE_BUSY => Error::FileBusy,
            code::OTHER_VERSION => Error::OtherVersion,
            code::OTHER_MESSAGES => Error::OtherMessages,
            code::BEGINS_LATER => Error::BeginsLater,
            code::FILE_FULL => Error::FileFull(FileCause::last()),
            code::FILE_LOST => Error::FileLost(FileCause::last()),
            code::FORKED => Error::Forked,
            other => Error::Unknown(other),
        }
    }

    /// The error of a call that may have failed since this isn't there.
    #[cold]
    pub(crate) fn missing(self, missing: Missing) -> Error {
        match self {
            Error::Unknown(code::NO_SUCH) => Error::NoSuch(missing),
            other => other,
        }
    }

    /// The error of a call that may have failed since the object is so.
    #[cold]
    pub(crate) fn misfit(self, misfit: Misfit) -> Error {
        match self {
            Error::Unknown(code::WRONG_KIND) => Error::WrongKind(misfit),
            other => other,
        }
    }

    /// What was received and isn't a message of this type.
    #[cold]
    pub(crate) fn unreadable<T>(bytes: &[u8]) -> Error {
        Error::Unreadable {
            wanted: any::type_name::<T>(),
            bytes: bytes.to_vec(),
        }
    }

    /// Whether the same call may succeed later, once something else has changed:
    ///
    /// - `JournalFull`: the journal was cut. `NotKept`: its entries were taken.
    /// - `Busy`: the lanes and feeds were closed. `Full`: the lane was drained.
    /// - `FileBusy`: the other one has closed the file. `FileFull`: the disk has room.
    /// - `NoMemory`: memory was freed. `TimedOut`, `Unseen`: more time has passed.
    ///
    /// ```
    /// use seryugo::Error;
    ///
    /// assert!(Error::TimedOut.is_retryable());
    /// assert!(!Error::Stalled.is_retryable());
    /// ```
    #[must_use]
    pub fn is_retryable(&self) -> bool {
        match self {
            Error::JournalFull | Error::NotKept | Error::Busy | Error::Full => true,
            Error::NoMemory | Error::TimedOut | Error::Unseen => true,
            Error::FileBusy | Error::FileFull(_) => true,
            Error::NoJournal | Error::OtherVersion | Error::OtherMessages => false,
            Error::BeginsLater | Error::Fault(_) | Error::Unlawful(_) => false,
            Error::FileFailed(_) | Error::FileLost(_) | Error::Forked | Error::HasFile => false,
            Error::Gone | Error::NoSuch(_) | Error::WrongKind(_) | Error::Stalled => false,
            Error::OutOfBounds | Error::TooLong | Error::Declined => false,
            Error::Diverged(_) | Error::RerunEnded => false,
            Error::Unreadable { .. } | Error::Version { .. } | Error::Unknown(_) => false,
        }
    }
}

/// What `Stalled` says in each text.
const STALLED: &str = "no seat and no lane is left that could answer this call";

impl Error {
    /// Why a call was refused, in words that don't depend on the thread.
    pub(crate) fn why(&self) -> String {
        match self {
            Error::Stalled => STALLED.to_string(),
            other => other.to_string(),
        }
    }
}

impl fmt::Display for Error {
    fn fmt(&self, f: &mut fmt::Formatter<'_>) -> fmt::Result {
        f.write_str(match self {
            Error::Gone => "the seat waits or has left, or the lane was closed",
            Error::Busy => "the journal can't be cut while a lane or a feed is open",
            Error::NoSuch(missing) => return missing.fmt(f),
            Error::WrongKind(misfit) => return misfit.fmt(f),
            Error::JournalFull => "the journal is full until it is cut or taken",
            Error::NotKept => "nobody took the entries that were cut from the journal",
            Error::Stalled => {
                write!(f, "{STALLED}; if somebody comes later, announce it by `hold` or `expect`")?;
                return write_last_stall(f);
            }
            Error::NoMemory => "there is no memory for this call",
            Error::Unseen => "not all messages that were sent on the lane were seen",
            Error::Full => "the lane has no free slot until it is drained",
            Error::OutOfBounds => {
                "a limit isn't from 1 to 2^32, a capacity isn't from 1 to 1024, or a message has \
                 more than 2^32 - 1 bytes"
            }
            Error::TooLong => {
                "a message of the journal is so long that no reader would take its line"
            }
            Error::FileBusy => "another switchboard has the journal's file",
            Error::NoJournal => "the file is no journal",
            Error::OtherVersion => {
                "the journal's text has a version that the linked library doesn't read"
            }
            Error::OtherMessages => {
                "the journal's messages are those of the other kind of switchboard"
            }
            Error::BeginsLater => "the journal begins after a cut, and what was before is missing",
            Error::Fault(line) => {
                return write!(f, "line {line} of the journal's file has a fault")
            }
            Error::Unlawful(at) => {
                return write!(f, "the entry at position {at} of the journal's file isn't lawful")
            }
            Error::FileFailed(why) => return why.after("the system refused the journal's file", f),
            Error::FileFull(why) => {
                return why.after("the disk has no room for the journal's file", f)
            }
            Error::FileLost(why) => {
                return why.after("the journal's file is lost, and nobody knows what it has", f)
            }
            Error::Forked => "a child of a fork can't use the journal's file of its parent",
            Error::HasFile => "a file keeps the journal, and alone cuts it",
            Error::TimedOut => "the time limit passed before there was an answer",
            Error::Declined => "a server has declined to answer the question",
            Error::Diverged(diverged) => return diverged.fmt(f),
            Error::RerunEnded => "the rerun has made all entries of the journal",
            Error::Unreadable { wanted, bytes } => {
                let (length, plural) = (bytes.len(), if bytes.len() == 1 { "" } else { "s" });
                return write!(
                    f,
                    "the message received, of {length} byte{plural}, is no `{wanted}`"
                );
            }
            Error::Version { library, wanted } => {
                return write!(
                    f,
                    "the linked library has the version {library}, and this crate wants {wanted}"
                )
            }
            Error::Unknown(code) => {
                return write!(
                    f,
                    "the linked library returned the code {code}, which this crate doesn't know"
                )
            }
        })
    }
}

impl std::error::Error for Error {
    fn source(&self) -> Option<&(dyn std::error::Error + 'static)> {
        let (Error::FileFailed(why) | Error::FileFull(why) | Error::FileLost(why)) = self else {
            return None;
        };
        why.io_error().map(|error| error as _)
    }
}

/// A message that wasn't sent, and why. It becomes its [`Error`] by `?`, which drops the message.
///
/// A `swap` is the only call that may have stored the message nevertheless: if the error is
/// [`Error::Unreadable`], the variable has the new message, and the error has the bytes of the one
/// before.
///
/// ```
/// use seryugo::{Error, SendError, Switchboard};
///
/// # fn main() -> Result<(), Error> {
/// let (board, other) = (Switchboard::new(1_000)?, Switchboard::new(1_000)?);
/// let mailbox = other.seat()?.mailbox::<String>()?;
/// let refused: SendError<&str> = board.seat()?.send(mailbox, "hello").unwrap_err();
/// assert!(matches!(refused.error, Error::NoSuch(_)));
/// let why = "mailbox 0 is another switchboard's";
/// assert_eq!(refused.to_string(), format!("the message wasn't sent: {why}"));
/// assert_eq!(refused.into_message(), "hello");
/// # Ok(())
/// # }
/// ```
///
/// If you send a reference and return `Box<dyn std::error::Error>`, drop the reference by
/// `map_err(Error::from)`: such a box takes no borrowed message.
///
/// ```
/// use seryugo::{Error, Switchboard};
///
/// fn send(text: &str) -> Result<(), Box<dyn std::error::Error>> {
///     let board = Switchboard::new(1_000)?;
///     let mut seat = board.seat()?;
///     let mailbox = seat.mailbox::<String>()?;
///     seat.send(mailbox, text).map_err(Error::from)?;
///     Ok(())
/// }
/// assert!(send("hello").is_ok());
/// ```
#[derive(Clone, PartialEq, Eq, Hash)]
pub struct SendError<M> {
    /// What the call was given.
    pub message: M,
    /// Why it failed.
    pub error: Error,
}

impl<M> SendError<M> {
    /// What the call was given.
    ///
    /// ```
    /// # let board = seryugo::Switchboard::new(1)?;
    /// # let mut seat = board.seat()?;
    /// let mailbox = seat.mailbox::<String>()?;
    /// let refused = seat.send(mailbox, "hello").unwrap_err();
    /// assert_eq!(refused.into_message(), "hello");
    /// # Ok::<(), seryugo::Error>(())
    /// ```
    pub fn into_message(self) -> M {
        self.message
    }
}

impl<M> fmt::Debug for SendError<M> {
    fn fmt(&self, f: &mut fmt::Formatter<'_>) -> fmt::Result {
        f.debug_struct("SendError").field("error", &self.error).finish_non_exhaustive()
    }
}

impl<M> fmt::Display for SendError<M> {
    fn fmt(&self, f: &mut fmt::Formatter<'_>) -> fmt::Result {
        write!(f, "the message wasn't sent: {}", self.error)
    }
}

impl<M> std::error::Error for SendError<M> {
    fn source(&self) -> Option<&(dyn std::error::Error + 'static)> {
        Some(&self.error)
    }
}

impl<M> From<SendError<M>> for Error {
    fn from(refused: SendError<M>) -> Error {
        refused.error
    }
}

/// The same result, with what the call was given if it failed.
#[inline]
pub(crate) fn handing_back<T, M>(answer: Result<T, Error>, message: M) -> Result<T, SendError<M>> {
    match answer {
        Ok(answer) => Ok(answer),
        Err(error) => Err(SendError { message, error }),
    }
}
