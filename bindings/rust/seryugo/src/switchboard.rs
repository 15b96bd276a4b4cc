//! A room under a lock, on which threads call and wait.

pub(crate) mod asking;
pub(crate) mod call;
pub(crate) mod expected;
pub(crate) mod fences;
pub(crate) mod guest;
pub(crate) mod journal;
pub(crate) mod lock;
pub(crate) mod locked;
pub(crate) mod moving;
pub(crate) mod objects;
pub(crate) mod state;
pub(crate) mod waiting;

use crate::error::Error;
use crate::explore::{Conductor, StepKind};
use crate::journal::file::OpenFile;
use crate::message::carries::{Bytes, Carries, MessageKind, Numbers};
use crate::message::kind::Missing;
use crate::message::names::{Channel, Name, Named, Target};
use crate::park::cache_padded::CachePadded;
use crate::park::table::Parkers;
use crate::raw::{self, Handle};
use crate::rings::feed::Feed;
use crate::rings::lane::Lane;
use crate::seat::Seat;
use crate::switchboard::lock::Lock;
use crate::switchboard::state::State;
use crate::version;
use std::fmt;
use std::marker::PhantomData;
use std::sync::atomic::{AtomicU64, Ordering};

/// Objects, the journal of every call that was accepted, and the seats from which threads call.
///
/// ```
/// use seryugo::{Error, Switchboard};
///
/// # fn main() -> Result<(), Error> {
/// let board = Switchboard::new(1_000)?;
/// let mut seat = board.seat()?;
/// let mut other = board.seat()?;
/// let mailbox = seat.mailbox::<u64>()?;
/// let received = std::thread::scope(|scope| {
///     let receiver = scope.spawn(move || other.recv(mailbox));
///     seat.send(mailbox, 5)?;
///     receiver.join().unwrap()
/// })?;
/// assert_eq!(received, 5);
/// assert_eq!(board.owed(mailbox)?, 0);
/// # Ok(())
/// # }
/// ```
pub struct Switchboard<R: MessageKind = Bytes> {
    /// Threads that wake others read what lies beside the lock.
    pub(crate) state: CachePadded<Lock<State<R>>>,
    pub(crate) parkers: Parkers,
    /// No other switchboard of the process has it. The names of the objects have it too.
    number: u64,
    /// Who decides when its calls are made, if it is explored or rerun.
    pub(crate) conductor: Option<Conductor<R>>,
    /// The file that keeps its journal.
    pub(crate) file: Option<Box<OpenFile>>,
    /// The most bytes of a lane's message, for lanes: they have no lock.
    pub(crate) most: u64,
    kind: PhantomData<fn() -> R>,
}

/// How many switchboards were made.
static MADE: AtomicU64 = AtomicU64::new(0);

impl Switchboard {
    /// A switchboard of bytes with no objects, whose journal takes `limit` entries between two
    /// cuts, from 1 to 2^32.
    ///
    /// ```
    /// use seryugo::{Error, Switchboard};
    ///
    /// let board = Switchboard::new(1_000)?;
    /// assert_eq!(board.entries(), 0);
    /// assert_eq!(Switchboard::new(0).err(), Some(Error::OutOfBounds));
    /// # Ok::<(), seryugo::Error>(())
    /// ```
    ///
    /// # Errors
    ///
    /// `OutOfBounds`, `NoMemory`, and `Version` if the linked library isn't of this crate's
    /// version.
    pub fn new(limit: u64) -> Result<Switchboard, Error> {
        Switchboard::with_limit(limit)
    }
}

impl Switchboard<Numbers> {
    /// A switchboard of numbers, with no objects. See [`new`](Switchboard::new).
    ///
    /// ```
    /// let board = seryugo::Switchboard::of_numbers(1_000)?;
    /// let mut seat = board.seat()?;
    /// let mailbox = seat.mailbox::<u64>()?;
    /// seat.send(mailbox, 5)?;
    /// assert_eq!(seat.recv(mailbox)?, 5);
    /// # Ok::<(), seryugo::Error>(())
    /// ```
    ///
    /// # Errors
    ///
    /// As [`new`](Switchboard::new).
    pub fn of_numbers(limit: u64) -> Result<Switchboard<Numbers>, Error> {
        Switchboard::with_limit(limit)
    }
}

impl<R: MessageKind> Switchboard<R> {
    pub(crate) fn with_limit(limit: u64) -> Result<Switchboard<R>, Error> {
        version::check()?;
        let room = Handle::opened(|room| raw::seryugo_open_room(R::MESSAGES, limit, room))?;
        Ok(Switchboard::over(room, limit))
    }

    /// A switchboard over a room in which no seat was made yet, and whose journal takes this many
    /// entries between two cuts.
    pub(crate) fn over(handle: Handle, limit: u64) -> Switchboard<R> {
        Switchboard {
            state: CachePadded(Lock::new(State::new(handle, limit))),
            parkers: Parkers::new(),
            number: MADE.fetch_add(1, Ordering::Relaxed),
            conductor: None,
            file: None,
            most: u64::MAX,
            kind: PhantomData,
        }
    }

    /// The number of an object, if this switchboard has it.
    #[inline]
    pub(crate) fn here<N: Named>(&self, object: N) -> Result<u64, Error> {
        let name = object.name();
        if name.board == self.number {
            Ok(name.number)
        } else {
            Err(Error::NoSuch(Missing::Elsewhere(N::KIND, name.number)))
        }
    }

    /// The name of the object with this number.
    pub(crate) fn name<N: Named>(&self, number: u64) -> N {
        N::of(Name {
            board: self.number,
            number,
        })
    }

    /// A new seat. Make all seats before the first thread waits, or say by
    /// [`expect`](Switchboard::expect) how many will come: else a call without a limit may fail with
    /// `Stalled`.
    ///
    /// ```
    /// # let board = seryugo::Switchboard::new(1_000)?;
    /// let (mut ann, mut ben) = (board.seat()?, board.seat()?);
    /// let mailbox = ben.mailbox::<u64>()?;
    /// ann.send(mailbox, 5)?;
    /// assert_eq!(ben.recv(mailbox)?, 5);
    /// # Ok::<(), seryugo::Error>(())
    /// ```
    ///
    /// # Errors
    ///
    /// `NoMemory`.
    pub fn seat(&self) -> Result<Seat<'_, R>, Error> {
        Seat::at(self)
    }

    /// Opens a lane to a mailbox or a channel, whose ring has room for `capacity` messages, from 1
    /// to 1024.
    ///
    /// ```
    /// # let board = seryugo::Switchboard::new(1_000)?;
    /// # let mut seat = board.seat()?;
    /// let mailbox = seat.mailbox::<u64>()?;
    /// let mut lane = board.lane(mailbox, 8)?;
    /// lane.send(5).unwrap();
    /// lane.close()?;
    /// assert_eq!(seat.recv(mailbox)?, 5);
    /// # Ok::<(), seryugo::Error>(())
    /// ```
    ///
    /// # Errors
    ///
    /// `NoSuch`: the name is of another switchboard. `OutOfBounds`: the capacity isn't from 1 to
    /// 1024. `NoMemory`.
    pub fn lane<G: Target>(
        &self,
        target: G,
        capacity: usize,
    ) -> Result<Lane<'_, R, G::Message>, Error>
    where
        R: Carries<G::Message>,
    {
        Lane::at(self, target, capacity)
    }

    /// Moves what was sent on the lane of this number into the journal, for a thread that has not
    /// the lane: how many messages.
    ///
    /// ```
    /// # let board = seryugo::Switchboard::new(1_000)?;
    /// # let mut seat = board.seat()?;
    /// let mailbox = seat.mailbox::<u64>()?;
    /// let mut lane = board.lane(mailbox, 8)?;
    /// lane.send(5).unwrap();
    /// assert_eq!(board.drain(lane.number())?, 1);
    /// # Ok::<(), seryugo::Error>(())
    /// ```
    ///
    /// # Errors
    ///
    /// `NoSuch`: no open lane has this number. `JournalFull`, `NotKept` and `NoMemory`: no message
    /// has moved.
    pub fn drain(&self, lane: u64) -> Result<u64, Error> {
        let drain = || match self.follower() {
            None => self.change(None, |state| state.drain(lane)),
            Some(follower) => self.drained_again(follower, lane),
        };
        let drained = self.pass_by(StepKind::Drain.on(lane), drain, |count| *count);
        drained.map_err(|error| error.missing(Missing::Lane(lane)))
    }

    /// Closes a lane that has ended, once all of its messages have moved.
    pub(crate) fn close_lane(&self, number: u64, lane: &mut Handle) -> Result<(), Error> {
        self.change(None, |state| state.close_lane(number, lane))
    }

    /// Closes a lane on which this many messages were sent: how many are lost.
    pub(crate) fn end_lane(&self, number: u64, sent: u64) -> u64 {
        self.change(None, |state| Ok(state.end_lane(number, sent))).unwrap_or(sent)
    }

    /// How many messages were lost: those of lanes that were dropped or abandoned while the journal
    /// had no room for them, or the library no memory. [`Lane::close`] loses none.
    ///
    /// ```
    /// # let board = seryugo::Switchboard::new(1)?;
    /// let mailbox = board.seat()?.mailbox::<u64>()?;
    /// let mut lane = board.lane(mailbox, 8)?;
    /// lane.send(5).unwrap();
    /// drop(lane);
    /// assert_eq!(board.lost(), 1);
    /// # Ok::<(), seryugo::Error>(())
    /// ```
    pub fn lost(&self) -> u64 {
        self.pass_to_look_at_all();
        self.looked_at(|state| state.lost())
    }

    /// Opens a feed of what is multicast on a channel from now on, whose ring has room for
    /// `capacity` messages.
    ///
    /// ```
    /// # let board = seryugo::Switchboard::new(1_000)?;
    /// # let mut seat = board.seat()?;
    /// let channel = seat.channel::<u64>()?;
    /// let mut feed = board.feed(channel, 8)?;
    /// seat.multicast(channel, 5)?;
    /// feed.pump()?;
    /// assert_eq!(feed.recv()?, Some(5));
    /// # Ok::<(), seryugo::Error>(())
    /// ```
    ///
    /// # Errors
    ///
    /// [Those of a seat's call](crate::Seat#how-a-call-fails). `OutOfBounds`: the capacity isn't
    /// from 1 to 1024.
    pub fn feed<T>(&self, channel: Channel<T>, capacity: usize) -> Result<Feed<'_, R, T>, Error>
    where
        R: Carries<T>,
    {
        Feed::at(self, channel, capacity)
    }

    /// The room, before any thread has the switchboard.
    pub(crate) fn state_mut(&mut self) -> &mut State<R> {
        self.state.0.get_mut()
    }
}

impl<R: MessageKind> fmt::Debug for Switchboard<R> {
    fn fmt(&self, f: &mut fmt::Formatter<'_>) -> fmt::Result {
        let mut shown = f.debug_struct("Switchboard");
        shown.field("number", &self.number);
        match self.waiting_now() {
            Some(waiting) => shown.field("waiting", &waiting),
            None => shown.field("waiting", &format_args!("<locked>")),
        };
        shown.finish_non_exhaustive()
    }
}
