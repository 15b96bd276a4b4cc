//! Lanes.

use crate::error::{handing_back, Error, SendError};
use crate::explore::{RerunLane, StepKind};
use crate::message::carries::{Carries, MessageKind};
use crate::message::names::Named;
use crate::message::sent_as::SentAs;
use crate::raw::{self, code, done, Handle};
use crate::seat::owned::Holds;
use crate::switchboard::Switchboard;
use std::fmt;
use std::marker::PhantomData;
use std::sync::Arc;

/// A lane, on which one thread sends without the lock. End it by [`close`](Lane::close), which
/// loses nothing.
///
/// It may go to another thread, and two can't share it. If it is dropped, it moves its messages
/// into the journal and is closed. Those for which the journal has no room are lost:
/// [`Switchboard::lost`] counts them. If a [file](Switchboard::open) keeps the journal, a message is
/// kept once it is drained: one that is still in the ring goes with the process.
///
/// ```
/// use seryugo::{Error, Switchboard};
///
/// # fn main() -> Result<(), Error> {
/// let board = Switchboard::new(1_000)?;
/// let mut seat = board.seat()?;
/// let mailbox = seat.mailbox::<String>()?;
/// let mut lane = board.lane(mailbox, 1)?;
/// lane.send("one")?;
/// let refused = lane.send("two").unwrap_err();
/// assert_eq!(refused.error, Error::Full);
/// assert_eq!(lane.drain()?, 1);
/// lane.send(refused.message)?;
/// lane.close()?;
/// assert_eq!(seat.recv(mailbox)?, "one");
/// assert_eq!(seat.recv(mailbox)?, "two");
/// # Ok(())
/// # }
/// ```
///
/// Two threads can't share it:
///
/// ```compile_fail,E0277
/// fn shared<T: Sync>() {}
/// shared::<seryugo::Lane<seryugo::Numbers, u64>>();
/// ```
pub struct Lane<'a, R: MessageKind, T, H: Holds<R> = &'a Switchboard<R>> {
    board: H,
    ring: Ring<R>,
    number: u64,
    /// How many messages were sent on it.
    sent: u64,
    is_closed: bool,
    message: PhantomData<fn(T)>,
    kind: PhantomData<&'a R>,
}

/// The ring on which a lane sends.
enum Ring<R: MessageKind> {
    Own(Handle),
    /// The switchboard is explored.
    Explored(Handle),
    /// The rerun of the switchboard has it.
    Rerun(Arc<RerunLane<R>>),
}

impl<'a, R: MessageKind, T, H: Holds<R>> Lane<'a, R, T, H> {
    /// Opens a lane at a switchboard.
    pub(crate) fn at(board: H, target: impl Named, capacity: usize) -> Result<Self, Error> {
        let target = board.here(target)?;
        let open = || board.locked()?.open_lane(target, capacity);
        let (handle, number) =
            board.pass_by(StepKind::OpenLane.on(target), open, |(_, number)| *number)?;
        let ring = if board.is_explored() {
            Ring::Explored(handle)
        } else {
            board.lane_again(number, handle).map_or_else(Ring::Own, Ring::Rerun)
        };
        Ok(Lane {
            board,
            ring,
            number,
            sent: 0,
            is_closed: false,
            message: PhantomData,
            kind: PhantomData,
        })
    }

    /// The lane's number, by which the journal tells its messages, and [`Switchboard::drain`] finds
    /// it.
    ///
    /// ```
    /// # let board = seryugo::Switchboard::new(1_000)?;
    /// # let mailbox = board.seat()?.mailbox::<u64>()?;
    /// let mut lane = board.lane(mailbox, 8)?;
    /// lane.send(5).unwrap();
    /// assert_eq!(board.drain(lane.number())?, 1);
    /// # Ok::<(), seryugo::Error>(())
    /// ```
    #[must_use]
    pub fn number(&self) -> u64 {
        self.number
    }

    /// Sends a message, which the next drain may move into the journal. It takes no lock, and never
    /// blocks.
    ///
    /// ```
    /// # let board = seryugo::Switchboard::new(1_000)?;
    /// # let mailbox = board.seat()?.mailbox::<u64>()?;
    /// let mut lane = board.lane(mailbox, 8)?;
    /// assert!(lane.send(5).is_ok());
    /// assert_eq!(board.owed(mailbox)?, 0);
    /// lane.close()?;
    /// assert_eq!(board.owed(mailbox)?, 1);
    /// # Ok::<(), seryugo::Error>(())
    /// ```
    ///
    /// # Errors
    ///
    /// [`SendError`] hands the message back. `Full`: the lane has no free slot until it is drained.
    /// `NoMemory`, `OutOfBounds` and `TooLong`: as of [`Seat::send`](crate::Seat::send).
    #[inline]
    pub fn send<M: SentAs<T>>(&mut self, message: M) -> Result<(), SendError<M>>
    where
        R: Carries<T>,
    {
        let sent = match &mut self.ring {
            Ring::Own(lane) => done(R::with_sent(&message, |sent| {
                if R::length(sent) > self.board.most {
                    return code::TOO_LONG;
                }
                R::lane_send(lane, sent)
            })),
            Ring::Explored(_) => self.send_explored(&message),
            Ring::Rerun(lane) => self.board.lane_sends(lane, R::owned(&message)),
        };
        self.sent += u64::from(sent.is_ok());
        handing_back(sent, message)
    }

    #[cold]
    fn send_explored<M: SentAs<T>>(&mut self, message: &M) -> Result<(), Error>
    where
        R: Carries<T>,
    {
        let step = StepKind::LaneSend.on(self.number);
        let Ring::Explored(lane) = &mut self.ring else {
            return Ok(());
        };
        let send = || done(R::with_sent(message, |sent| R::lane_send(lane, sent)));
        self.board.pass_by(step, send, |()| 0)
    }

    /// Moves what was sent into the journal, under the lock: how many messages.
    ///
    /// ```
    /// # let board = seryugo::Switchboard::new(1_000)?;
    /// # let mailbox = board.seat()?.mailbox::<u64>()?;
    /// let mut lane = board.lane(mailbox, 8)?;
    /// lane.send(5).unwrap();
    /// lane.send(6).unwrap();
    /// assert_eq!(lane.drain()?, 2);
    /// assert_eq!(lane.drain()?, 0);
    /// # Ok::<(), seryugo::Error>(())
    /// ```
    ///
    /// # Errors
    ///
    /// `JournalFull`, `NotKept` and `NoMemory`: no message has moved. [`FileFull`](Error::FileFull),
    /// `FileLost` and `Forked`, if a file keeps the journal.
    pub fn drain(&mut self) -> Result<u64, Error> {
        match &self.ring {
            Ring::Own(_) | Ring::Explored(_) => self.board.drain(self.number),
            Ring::Rerun(lane) => self.board.lane_drains(lane),
        }
    }

    /// Moves all that was sent into the journal, and closes the lane. If a message is refused, the
    /// lane comes back to be closed again or abandoned. The messages before it have moved.
    ///
    /// ```
    /// use seryugo::{Error, Switchboard};
    ///
    /// # fn main() -> Result<(), Error> {
    /// let board = Switchboard::new(2)?;
    /// let mut seat = board.seat()?;
    /// let mailbox = seat.mailbox::<u64>()?;
    /// let mut lane = board.lane(mailbox, 8)?;
    /// lane.send(5).unwrap();
    /// lane.send(6).unwrap();
    /// let unclosed = lane.close().unwrap_err();
    /// assert_eq!(unclosed.error(), Error::JournalFull);
    /// assert_eq!(unclosed.abandon(), 1);
    /// assert_eq!((board.owed(mailbox)?, board.lost()), (1, 1));
    /// # Ok(())
    /// # }
    /// ```
    ///
    /// # Errors
    ///
    /// `NoMemory`, `NotKept`, or `JournalFull`. Cut a full journal by
    /// [`cut_open`](Switchboard::cut_open), and close the lane again.
    #[must_use = "a lane that wasn't closed loses messages when it is dropped"]
    pub fn close(mut self) -> Result<(), UnclosedLane<'a, R, T, H>> {
        if let Ring::Own(lane) | Ring::Explored(lane) = &mut self.ring {
            // A lane that is open on both sides can be ended.
            raw::seryugo_lane_finish(lane);
        }
        self.close_finished()
    }

    fn close_finished(mut self) -> Result<(), UnclosedLane<'a, R, T, H>> {
        let (board, number) = (&self.board, self.number);
        let close = || match &mut self.ring {
            Ring::Own(lane) | Ring::Explored(lane) => board.close_lane(number, lane),
            Ring::Rerun(lane) => board.lane_closes(lane),
        };
        let closed = board.pass_by(StepKind::CloseLane.on(number), close, |()| 0);
        match closed {
            Ok(()) => {
                self.is_closed = true;
                Ok(())
            }
            Err(error) => Err(UnclosedLane { lane: self, error }),
        }
    }

    fn end(&mut self) -> u64 {
        self.is_closed = true;
        let end = || match &self.ring {
            Ring::Own(_) | Ring::Explored(_) => Ok(self.board.end_lane(self.number, self.sent)),
            Ring::Rerun(lane) => Ok(self.board.lane_ends(lane, self.sent)),
        };
        let lost = self.board.pass_by(StepKind::CloseLane.on(self.number), end, |lost| *lost);
        lost.unwrap_or_default()
    }
}

impl<R: MessageKind, T, H: Holds<R>> Drop for Lane<'_, R, T, H> {
    fn drop(&mut self) {
        if !self.is_closed {
            self.end();
        }
    }
}

/// A lane that has ended, and could not be closed. Close it again, or abandon it. If it is dropped,
/// it is abandoned.
///
/// If the journal is full, cut it by [`cut_open`](Switchboard::cut_open), and close the lane again.
/// If there was no memory, close it again later.
///
/// It becomes its [`Error`] by `?`. That drops it.
///
/// ```
/// use seryugo::{Error, Switchboard};
///
/// # fn main() -> Result<(), Error> {
/// let board = Switchboard::new(2)?;
/// let mut seat = board.seat()?;
/// let mailbox = seat.mailbox::<u64>()?;
/// let (mut lane, mut other) = (board.lane(mailbox, 8)?, board.lane(mailbox, 8)?);
/// lane.send(5).unwrap();
/// other.send(6).unwrap();
/// lane.close()?;
/// let unclosed = other.close().unwrap_err();
/// let why = "the journal is full until it is cut or taken";
/// assert_eq!(unclosed.to_string(), format!("lane 1 isn't closed: {why}"));
/// let unclosed = unclosed.close().unwrap_err();
/// assert_eq!(unclosed.abandon(), 1);
/// # Ok(())
/// # }
/// ```
#[must_use = "a lane that wasn't closed loses messages when it is dropped"]
pub struct UnclosedLane<'a, R: MessageKind, T, H: Holds<R> = &'a Switchboard<R>> {
    lane: Lane<'a, R, T, H>,
    error: Error,
}

impl<'a, R: MessageKind, T, H: Holds<R>> UnclosedLane<'a, R, T, H> {
    /// Why the lane could not be closed.
    ///
    /// ```
    /// # let board = seryugo::Switchboard::new(1)?;
    /// let mailbox = board.seat()?.mailbox::<u64>()?;
    /// let mut lane = board.lane(mailbox, 8)?;
    /// lane.send(5).unwrap();
    /// let unclosed = lane.close().unwrap_err();
    /// assert_eq!(unclosed.error(), seryugo::Error::JournalFull);
    /// # Ok::<(), seryugo::Error>(())
    /// ```
    #[must_use]
    pub fn error(&self) -> Error {
        self.error.clone()
    }

    /// The lane's number.
    ///
    /// ```
    /// # let board = seryugo::Switchboard::new(1)?;
    /// let mailbox = board.seat()?.mailbox::<u64>()?;
    /// let mut lane = board.lane(mailbox, 8)?;
    /// lane.send(5).unwrap();
    /// let unclosed = lane.close().unwrap_err();
    /// assert_eq!(unclosed.number(), 0);
    /// # Ok::<(), seryugo::Error>(())
    /// ```
    #[must_use]
    pub fn number(&self) -> u64 {
        self.lane.number
    }

    /// Closes it as [`Lane::close`] does.
    ///
    /// ```
    /// # let board = seryugo::Switchboard::new(1)?;
    /// let mailbox = board.seat()?.mailbox::<u64>()?;
    /// let mut lane = board.lane(mailbox, 8)?;
    /// lane.send(5).unwrap();
    /// let unclosed = lane.close().unwrap_err();
    /// assert!(unclosed.close().is_err());
    /// assert_eq!(board.lost(), 1);
    /// # Ok::<(), seryugo::Error>(())
    /// ```
    ///
    /// # Errors
    ///
    /// As [`Lane::close`].
    #[must_use = "a lane that wasn't closed loses messages when it is dropped"]
    pub fn close(self) -> Result<(), UnclosedLane<'a, R, T, H>> {
        self.lane.close_finished()
    }

    /// Moves what the journal has room for, and closes the lane: how many messages are lost.
    ///
    /// ```
    /// # let board = seryugo::Switchboard::new(1)?;
    /// let mailbox = board.seat()?.mailbox::<u64>()?;
    /// let mut lane = board.lane(mailbox, 8)?;
    /// lane.send(5).unwrap();
    /// let unclosed = lane.close().unwrap_err();
    /// assert_eq!(unclosed.abandon(), 1);
    /// board.cut()?;
    /// # Ok::<(), seryugo::Error>(())
    /// ```
    #[must_use]
    pub fn abandon(mut self) -> u64 {
        self.lane.end()
    }
}

impl<R: MessageKind, T, H: Holds<R>> fmt::Debug for UnclosedLane<'_, R, T, H> {
    fn fmt(&self, f: &mut fmt::Formatter<'_>) -> fmt::Result {
        f.debug_struct("UnclosedLane")
            .field("number", &self.lane.number)
            .field("error", &self.error)
            .finish_non_exhaustive()
    }
}

impl<R: MessageKind, T, H: Holds<R>> fmt::Display for UnclosedLane<'_, R, T, H> {
    fn fmt(&self, f: &mut fmt::Formatter<'_>) -> fmt::Result {
        write!(f, "lane {} isn't closed: {}", self.lane.number, self.error)
    }
}

impl<R: MessageKind, T, H: Holds<R>> std::error::Error for UnclosedLane<'_, R, T, H> {
    fn source(&self) -> Option<&(dyn std::error::Error + 'static)> {
        Some(&self.error)
    }
}

impl<R: MessageKind, T, H: Holds<R>> From<UnclosedLane<'_, R, T, H>> for Error {
    fn from(unclosed: UnclosedLane<'_, R, T, H>) -> Error {
        unclosed.error
    }
}

impl<R: MessageKind, T, H: Holds<R>> fmt::Debug for Lane<'_, R, T, H> {
    fn fmt(&self, f: &mut fmt::Formatter<'_>) -> fmt::Result {
        f.debug_struct("Lane")
            .field("number", &self.number)
            .field("sent", &self.sent)
            .finish_non_exhaustive()
    }
}
