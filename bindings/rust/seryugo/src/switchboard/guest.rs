//! Guests, and seats that are still to be made: while somebody will come, no call fails with
//! `Stalled`.

use crate::error::Error;
use crate::message::carries::{Bytes, MessageKind};
use crate::seat::owned::Holds;
use crate::switchboard::state::State;
use crate::switchboard::Switchboard;
use std::fmt;
use std::marker::PhantomData;
use std::sync::Arc;

/// Says that somebody else will come, until it is dropped: while it is there, no call fails with
/// [`Error::Stalled`]. [`Switchboard::hold`] makes one.
///
/// ```
/// use seryugo::{Error, Switchboard};
/// use std::time::Duration;
///
/// # fn main() -> Result<(), Error> {
/// let board = Switchboard::new(1_000)?;
/// let mut seat = board.seat()?;
/// let mailbox = seat.mailbox::<u64>()?;
/// let guest = board.hold()?;
/// std::thread::scope(|scope| {
///     let waiter = scope.spawn(move || seat.recv(mailbox));
///     std::thread::sleep(Duration::from_millis(1));
///     assert!(!waiter.is_finished());
///     drop(guest);
///     assert_eq!(waiter.join().unwrap(), Err(Error::Stalled));
/// });
/// # Ok(())
/// # }
/// ```
#[must_use = "a guest that is dropped holds nobody up"]
pub struct Guest<'a, R: MessageKind = Bytes, H: Holds<R> = &'a Switchboard<R>> {
    board: H,
    kind: PhantomData<&'a R>,
}

/// A guest that has a share of its switchboard, and goes anywhere. See
/// [`Switchboard::hold_owned`].
pub type OwnedGuest<R = Bytes> = Guest<'static, R, Arc<Switchboard<R>>>;

impl<R: MessageKind, H: Holds<R>> Guest<'_, R, H> {
    fn at(board: H) -> Result<Self, Error> {
        board.locked()?.hold()?;
        Ok(Guest {
            board,
            kind: PhantomData,
        })
    }
}

impl<R: MessageKind, H: Holds<R>> Drop for Guest<'_, R, H> {
    fn drop(&mut self) {
        self.board.change_unsettled(None, State::remove_guest);
    }
}

impl<R: MessageKind, H: Holds<R>> fmt::Debug for Guest<'_, R, H> {
    fn fmt(&self, f: &mut fmt::Formatter<'_>) -> fmt::Result {
        f.debug_struct("Guest").finish_non_exhaustive()
    }
}

/// # Who will come
///
/// A call that waits fails with [`Error::Stalled`] if nothing could answer it any more, unless a seat
/// waits with a time limit or as a future. These say that somebody will come, or that no timer ends
/// such waits.
impl<R: MessageKind> Switchboard<R> {
    /// Returns a [`Guest`]. While one is there, no call fails with [`Error::Stalled`]. If the last
    /// one is dropped while all seats wait, one of their calls fails with `Stalled`, and the next
    /// once that seat has left.
    ///
    /// A guest has no entry in the journal. One that comes while nobody is expected takes as much
    /// memory as a seat, until the switchboard goes.
    ///
    /// ```
    /// use seryugo::{Error, Switchboard};
    ///
    /// # fn main() -> Result<(), Error> {
    /// let board = Switchboard::new(1_000)?;
    /// let guest = board.hold()?;
    /// let mut waits = board.seat()?;
    /// let mailbox = waits.mailbox::<u64>()?;
    /// std::thread::scope(|scope| {
    ///     let waiter = scope.spawn(move || (waits.recv(mailbox), waits.recv(mailbox)));
    ///     // The waiter's seat waits alone, maybe, and isn't stalled.
    ///     board.seat()?.send(mailbox, 5)?;
    ///     drop(guest);
    ///     assert_eq!(waiter.join().unwrap(), (Ok(5), Err(Error::Stalled)));
    ///     Ok(())
    /// })
    /// # }
    /// ```
    ///
    /// # Errors
    ///
    /// `NoMemory`.
    pub fn hold(&self) -> Result<Guest<'_, R>, Error> {
        Guest::at(self)
    }

    /// Returns a guest as [`hold`](Switchboard::hold) does, that goes anywhere.
    ///
    /// ```
    /// use seryugo::{Error, Switchboard};
    /// use std::sync::Arc;
    /// use std::thread;
    ///
    /// # fn main() -> Result<(), Error> {
    /// let board = Arc::new(Switchboard::new(1_000)?);
    /// let mut seat = board.seat_owned()?;
    /// let mailbox = seat.mailbox::<u64>()?;
    /// let guest = board.hold_owned()?;
    /// let sender = thread::spawn(move || {
    ///     let mut seat = board.seat_owned()?;
    ///     drop(guest);
    ///     Ok::<(), Error>(seat.send(mailbox, 5)?)
    /// });
    /// assert_eq!(seat.recv(mailbox), Ok(5));
    /// assert_eq!(sender.join().unwrap(), Ok(()));
    /// # Ok(())
    /// # }
    /// ```
    ///
    /// # Errors
    ///
    /// `NoMemory`.
    pub fn hold_owned(self: &Arc<Self>) -> Result<OwnedGuest<R>, Error> {
        Guest::at(Arc::clone(self))
    }

    /// Lets calls fail with [`Error::Stalled`] also while seats wait with a time limit or as futures,
    /// and those calls too. Say it if your futures wait for nothing else, and no timer or socket ends
    /// them.
    ///
    /// ```
    /// use seryugo::{Error, Switchboard};
    /// use std::time::Duration;
    ///
    /// let board = Switchboard::new(1_000)?.open_waits_stall();
    /// let mut seat = board.seat()?;
    /// let mailbox = seat.mailbox::<u64>()?;
    /// assert_eq!(seat.recv_timeout(mailbox, Duration::from_secs(60)), Err(Error::Stalled));
    /// # Ok::<(), Error>(())
    /// ```
    #[must_use]
    pub fn open_waits_stall(mut self) -> Switchboard<R> {
        self.state_mut().let_open_waits_stall();
        self
    }

    /// From now on this many seats are still to be made. Each [`seat`](Switchboard::seat) and
    /// [`seat_owned`](Switchboard::seat_owned) uses one up, and so does each new half of a mailbox.
    /// Until all are made, no call fails with [`Error::Stalled`], as while a [`Guest`] is there.
    ///
    /// It puts this number in place of the one before. If fewer seats come, say `expect(0)`.
    ///
    /// ```
    /// use seryugo::{Error, Switchboard};
    /// use std::sync::Arc;
    /// use std::thread;
    ///
    /// # fn main() -> Result<(), Error> {
    /// let board = Arc::new(Switchboard::new(1_000)?);
    /// let mut seat = board.seat_owned()?;
    /// let mailbox = seat.mailbox::<u64>()?;
    /// board.expect(4)?;
    /// for number in 0..4 {
    ///     let board = board.clone();
    ///     thread::spawn(move || board.seat_owned()?.send(mailbox, number).map_err(Error::from));
    /// }
    /// // It ends once all four have sent, and have left.
    /// assert_eq!(seat.iter(mailbox).sum::<u64>(), 6);
    /// # Ok(())
    /// # }
    /// ```
    ///
    /// # Errors
    ///
    /// `NoMemory`.
    pub fn expect(&self, seats: u64) -> Result<(), Error> {
        self.change(None, |state| state.expect(seats))
    }
}
