//! What a seat, a lane or a feed has of its switchboard: a reference to it, or a share.

use crate::error::Error;
use crate::message::carries::{Bytes, Carries, MessageKind};
use crate::message::names::{Channel, Target};
use crate::rings::feed::Feed;
use crate::rings::lane::Lane;
use crate::seat::Seat;
use crate::switchboard::Switchboard;
use std::ops::Deref;
use std::sync::Arc;

/// What a seat, a lane or a feed has of its switchboard: a reference, or a share in an [`Arc`].
///
/// A function that takes both kinds of seats:
///
/// ```
/// use seryugo::{Bytes, Error, Holds, Mailbox, Seat, Switchboard};
/// use std::sync::Arc;
///
/// fn greet(
///     seat: &mut Seat<'_, Bytes, impl Holds<Bytes>>,
///     mailbox: Mailbox<String>,
/// ) -> Result<(), Error> {
///     Ok(seat.send(mailbox, "hello")?)
/// }
/// # fn main() -> Result<(), Error> {
/// let board = Arc::new(Switchboard::new(1_000)?);
/// let (mut seat, mut owned) = (board.seat()?, board.seat_owned()?);
/// let mailbox = seat.mailbox()?;
/// greet(&mut seat, mailbox)?;
/// greet(&mut owned, mailbox)?;
/// assert_eq!(board.owed(mailbox)?, 2);
/// # Ok(())
/// # }
/// ```
pub trait Holds<R: MessageKind>: Deref<Target = Switchboard<R>> + Sealed {}

impl<R: MessageKind> Holds<R> for &Switchboard<R> {}
impl<R: MessageKind> Holds<R> for Arc<Switchboard<R>> {}

/// As long as such a value is there, it leads to the same switchboard, which doesn't move.
pub trait Sealed {}

impl<R: MessageKind> Sealed for &Switchboard<R> {}
impl<R: MessageKind> Sealed for Arc<Switchboard<R>> {}

/// A seat that has a share of its switchboard. It may be stored beside it, and moved into a thread
/// or a task. See [`Switchboard::seat_owned`].
pub type OwnedSeat<R = Bytes> = Seat<'static, R, Arc<Switchboard<R>>>;

/// A lane that has a share of its switchboard. See [`Switchboard::lane_owned`].
pub type OwnedLane<R, T> = Lane<'static, R, T, Arc<Switchboard<R>>>;

/// A feed that has a share of its switchboard. See [`Switchboard::feed_owned`].
pub type OwnedFeed<R, T> = Feed<'static, R, T, Arc<Switchboard<R>>>;

/// # Seats, lanes and feeds that go anywhere
///
/// They have a share of the switchboard, and may be dropped in any order with it. The switchboard
/// goes with the last of them. It closes its [file](Switchboard::open) then, and hands nothing over
/// to a sink: call [`keep`](Switchboard::keep) before.
/// A sink of the switchboard that has one of them keeps the switchboard for ever.
impl<R: MessageKind> Switchboard<R> {
    /// A new seat as [`seat`](Switchboard::seat) makes it, that goes anywhere.
    ///
    /// ```
    /// use seryugo::{Error, Mailbox, OwnedSeat, Switchboard};
    /// use std::sync::Arc;
    /// use std::thread;
    ///
    /// struct Worker {
    ///     board: Arc<Switchboard>,
    ///     seat: OwnedSeat,
    ///     jobs: Mailbox<String>,
    /// }
    ///
    /// impl Worker {
    ///     fn new(board: Arc<Switchboard>) -> Result<Worker, Error> {
    ///         let mut seat = board.seat_owned()?;
    ///         let jobs = seat.mailbox()?;
    ///         Ok(Worker { board, seat, jobs })
    ///     }
    /// }
    /// # fn main() -> Result<(), Error> {
    /// let mut worker = Worker::new(Arc::new(Switchboard::new(1_000)?))?;
    /// let (mut seat, jobs) = (worker.board.seat_owned()?, worker.jobs);
    /// let sender = thread::spawn(move || seat.send(jobs, "dig"));
    /// assert_eq!(worker.seat.recv(jobs)?, "dig");
    /// assert!(sender.join().unwrap().is_ok());
    /// # Ok(())
    /// # }
    /// ```
    ///
    /// # Errors
    ///
    /// `NoMemory`.
    pub fn seat_owned(self: &Arc<Self>) -> Result<OwnedSeat<R>, Error> {
        Seat::at(Arc::clone(self))
    }

    /// Opens a lane as [`lane`](Switchboard::lane) does, that goes anywhere.
    ///
    /// ```
    /// use seryugo::Switchboard;
    /// use std::sync::Arc;
    /// use std::thread;
    ///
    /// # fn main() -> Result<(), seryugo::Error> {
    /// let board = Arc::new(Switchboard::new(1_000)?);
    /// let mut seat = board.seat_owned()?;
    /// let mailbox = seat.mailbox::<u64>()?;
    /// let mut lane = board.lane_owned(mailbox, 8)?;
    /// let sender = thread::spawn(move || {
    ///     lane.send(5)?;
    ///     Ok::<(), seryugo::Error>(lane.close()?)
    /// });
    /// assert_eq!(seat.recv(mailbox)?, 5);
    /// assert_eq!(sender.join().unwrap(), Ok(()));
    /// # Ok(())
    /// # }
    /// ```
    ///
    /// # Errors
    ///
    /// As [`lane`](Switchboard::lane).
    pub fn lane_owned<G: Target>(
        self: &Arc<Self>,
        target: G,
        capacity: usize,
    ) -> Result<OwnedLane<R, G::Message>, Error>
    where
        R: Carries<G::Message>,
    {
        Lane::at(Arc::clone(self), target, capacity)
    }

    /// Opens a feed as [`feed`](Switchboard::feed) does, that goes anywhere.
    ///
    /// ```
    /// use seryugo::Switchboard;
    /// use std::sync::Arc;
    /// use std::thread;
    ///
    /// # fn main() -> Result<(), seryugo::Error> {
    /// let board = Arc::new(Switchboard::new(1_000)?);
    /// let mut seat = board.seat_owned()?;
    /// let channel = seat.channel::<u64>()?;
    /// let mut feed = board.feed_owned(channel, 8)?;
    /// seat.multicast(channel, 5)?;
    /// let reader = thread::spawn(move || {
    ///     feed.pump()?;
    ///     feed.recv()
    /// });
    /// assert_eq!(reader.join().unwrap(), Ok(Some(5)));
    /// # Ok(())
    /// # }
    /// ```
    ///
    /// # Errors
    ///
    /// As [`feed`](Switchboard::feed).
    pub fn feed_owned<T>(
        self: &Arc<Self>,
        channel: Channel<T>,
        capacity: usize,
    ) -> Result<OwnedFeed<R, T>, Error>
    where
        R: Carries<T>,
    {
        Feed::at(Arc::clone(self), channel, capacity)
    }
}
