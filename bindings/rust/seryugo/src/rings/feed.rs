//! Feeds.

use crate::calls::received;
use crate::error::Error;
use crate::explore::StepKind;
use crate::journal::entry::Who;
use crate::message::carries::{Carries, MessageKind};
use crate::message::names::{Channel, Port};
use crate::raw::{self, code, written, Handle};
use crate::seat::owned::Holds;
use crate::switchboard::call::Line;
use crate::switchboard::Switchboard;
use std::fmt;
use std::marker::PhantomData;

/// A feed of what is multicast on a channel, from which one thread takes without the lock what was
/// pumped. It may go to another thread, and two can't share it. It ends when it is dropped. Its port
/// stays open then, and the channel keeps each message for it: have a seat
/// [close](crate::Seat::close) the [port](Feed::port), or receive from it.
///
/// If a [file](Switchboard::open) keeps the journal, a message counts as received once it is pumped:
/// after the end of the process no feed and no port has it again.
///
/// ```
/// use seryugo::{Error, Switchboard};
///
/// # fn main() -> Result<(), Error> {
/// let board = Switchboard::new(1_000)?;
/// let mut seat = board.seat()?;
/// let channel = seat.channel::<u64>()?;
/// let mut feed = board.feed(channel, 8)?;
/// seat.multicast(channel, 5)?;
/// assert_eq!(feed.recv()?, None);
/// assert_eq!(feed.pump()?, 1);
/// assert_eq!(feed.recv()?, Some(5));
/// # Ok(())
/// # }
/// ```
///
/// Two threads can't share it:
///
/// ```compile_fail,E0277
/// fn shared<T: Sync>() {}
/// shared::<seryugo::Feed<seryugo::Numbers, u64>>();
/// ```
pub struct Feed<'a, R: MessageKind, T, H: Holds<R> = &'a Switchboard<R>> {
    board: H,
    handle: Handle,
    number: u64,
    port: Port<T>,
    kind: PhantomData<&'a R>,
}

impl<R: MessageKind, T, H: Holds<R>> Feed<'_, R, T, H> {
    /// Opens a feed at a switchboard.
    pub(crate) fn at(board: H, channel: Channel<T>, capacity: usize) -> Result<Self, Error> {
        let channel = board.here(channel)?;
        let open = |room: &mut Handle| {
            let mut number = 0;
            let feed = Handle::opened(|feed| {
                raw::seryugo_feed_open(room, channel, capacity, feed, &mut number)
            });
            feed.map(|feed| (feed, number))
        };
        let open = || board.open_feed(channel, |state| state.enter(Line::SHORT, open));
        let (mut handle, number) =
            board.pass_by(StepKind::OpenFeed.on(channel), open, |(_, number)| *number)?;
        let port = written(|port| raw::seryugo_feed_port(&mut handle, port))?;
        board.lock().fed.insert(number, port);
        Ok(Feed {
            port: board.name(port),
            board,
            handle,
            number,
            kind: PhantomData,
        })
    }

    /// The feed's number, by which the journal tells what it receives.
    ///
    /// ```
    /// # let board = seryugo::Switchboard::new(1_000)?;
    /// # let mut seat = board.seat()?;
    /// # let channel = seat.channel::<u64>()?;
    /// let feed = board.feed(channel, 8)?;
    /// assert_eq!(feed.number(), 0);
    /// # Ok::<(), seryugo::Error>(())
    /// ```
    #[must_use]
    pub fn number(&self) -> u64 {
        self.number
    }

    /// Returns the feed's port. Until the feed has ended, a seat's call that receives from it or
    /// closes it fails.
    ///
    /// ```
    /// # let board = seryugo::Switchboard::new(1_000)?;
    /// # let mut seat = board.seat()?;
    /// # let channel = seat.channel::<u64>()?;
    /// let feed = board.feed(channel, 8)?;
    /// let port = feed.port();
    /// assert!(matches!(seat.recv(port), Err(seryugo::Error::WrongKind(_))));
    /// drop(feed);
    /// assert_eq!(seat.recv_poll(port), Ok(None));
    /// # Ok::<(), seryugo::Error>(())
    /// ```
    #[must_use]
    pub fn port(&self) -> Port<T> {
        self.port
    }

    /// Receives what the feed is owed, under the lock, while there is room for it: how many
    /// messages.
    ///
    /// ```
    /// # let board = seryugo::Switchboard::new(1_000)?;
    /// # let mut seat = board.seat()?;
    /// # let channel = seat.channel::<u64>()?;
    /// let mut feed = board.feed(channel, 8)?;
    /// seat.multicast(channel, 5)?;
    /// assert_eq!(feed.pump()?, 1);
    /// assert_eq!(feed.pump()?, 0);
    /// # Ok::<(), seryugo::Error>(())
    /// ```
    ///
    /// # Errors
    ///
    /// `JournalFull`, `NotKept` and `NoMemory`: nothing was received. [`FileFull`](Error::FileFull),
    /// `FileLost` and `Forked`, if a file keeps the journal.
    pub fn pump(&mut self) -> Result<u64, Error> {
        let pump = || self.board.pump(self.number);
        self.board.pass_by(StepKind::Pump.on(self.number), pump, |count| *count)
    }

    /// The next message that was pumped. It takes no lock.
    ///
    /// ```
    /// # let board = seryugo::Switchboard::new(1_000)?;
    /// # let mut seat = board.seat()?;
    /// # let channel = seat.channel::<u64>()?;
    /// let mut feed = board.feed(channel, 8)?;
    /// seat.multicast(channel, 5)?;
    /// feed.pump()?;
    /// assert_eq!(feed.recv()?, Some(5));
    /// assert_eq!(feed.recv()?, None);
    /// # Ok::<(), seryugo::Error>(())
    /// ```
    ///
    /// # Errors
    ///
    /// `Unreadable` if the message can't be read as this type: then it is taken. `NoMemory`: then
    /// it is still to be taken.
    #[inline]
    pub fn recv(&mut self) -> Result<Option<T>, Error>
    where
        R: Carries<T>,
    {
        self.board.count_step(|| StepKind::FeedRecv.on(self.number));
        let mut found = R::nothing();
        match R::feed_recv(&mut self.handle, &mut found) {
            code::NOTHING => Ok(None),
            code => {
                self.board.settle_feed()?;
                received::<R, T>(code, &found).map(Some)
            }
        }
    }
}

impl<R: MessageKind, T, H: Holds<R>> Drop for Feed<'_, R, T, H> {
    fn drop(&mut self) {
        let number = self.number;
        self.board.pass(StepKind::EndFeed.on(number));
        self.board.change_unsettled(None, |state| {
            state.fed.remove(&number);
            raw::seryugo_feed_end(&mut state.handle, number)
        });
        self.board.leaves(Who::Feed(number));
    }
}

impl<R: MessageKind, T, H: Holds<R>> fmt::Debug for Feed<'_, R, T, H> {
    fn fmt(&self, f: &mut fmt::Formatter<'_>) -> fmt::Result {
        f.debug_struct("Feed")
            .field("number", &self.number)
            .field("port", &self.port)
            .finish_non_exhaustive()
    }
}
