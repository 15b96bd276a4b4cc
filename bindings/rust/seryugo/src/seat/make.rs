//! The calls of a seat that make objects, and close a port.

use crate::door::Asked;
use crate::error::{handing_back, Error, SendError};
use crate::explore::{Step, StepKind};
use crate::message::carries::{Carries, MessageKind};
use crate::message::kind::Misfit;
use crate::message::names::{Channel, IVar, MVar, Mailbox, Named, Port};
use crate::raw::{code, done, done_or, Handle};
use crate::seat::owned::Holds;
use crate::seat::Seat;
use crate::switchboard::call::Line;
use crate::switchboard::state::State;

/// # Calls that make objects
impl<R: MessageKind, H: Holds<R>> Seat<'_, R, H> {
    /// Makes a mailbox of messages of a type.
    ///
    /// ```
    /// # let board = seryugo::Switchboard::new(1_000)?;
    /// # let mut seat = board.seat()?;
    /// let (names, ages) = (seat.mailbox::<String>()?, seat.mailbox::<u8>()?);
    /// assert_eq!((board.owed(names)?, board.owed(ages)?), (0, 0));
    /// # Ok::<(), seryugo::Error>(())
    /// ```
    ///
    /// # Errors
    ///
    /// [The usual ones](crate::Seat#how-a-call-fails).
    pub fn mailbox<T>(&mut self) -> Result<Mailbox<T>, Error>
    where
        R: Carries<T>,
    {
        self.make_bare(StepKind::Mailbox.makes())
    }

    /// Makes a channel of messages of a type.
    ///
    /// ```
    /// # let board = seryugo::Switchboard::new(1_000)?;
    /// # let mut seat = board.seat()?;
    /// let channel = seat.channel::<(String, u64)>()?;
    /// assert_eq!(board.sent(channel)?, 0);
    /// # Ok::<(), seryugo::Error>(())
    /// ```
    ///
    /// # Errors
    ///
    /// [The usual ones](crate::Seat#how-a-call-fails).
    pub fn channel<T>(&mut self) -> Result<Channel<T>, Error>
    where
        R: Carries<T>,
    {
        self.make_bare(StepKind::Channel.makes())
    }

    /// Makes a port of a channel, which receives what is multicast from now on.
    ///
    /// ```
    /// # let board = seryugo::Switchboard::new(1_000)?;
    /// # let mut seat = board.seat()?;
    /// let channel = seat.channel::<u64>()?;
    /// seat.multicast(channel, 1)?;
    /// let port = seat.port(channel)?;
    /// seat.multicast(channel, 2)?;
    /// assert_eq!(seat.recv(port)?, Some(2));
    /// # Ok::<(), seryugo::Error>(())
    /// ```
    ///
    /// # Errors
    ///
    /// [The usual ones](crate::Seat#how-a-call-fails).
    pub fn port<T>(&mut self, channel: Channel<T>) -> Result<Port<T>, Error> {
        let channel = self.here(channel)?;
        self.make_bare(StepKind::Port.on(channel))
    }

    /// Makes a port at this port's place. Returns `None` if this port was closed.
    ///
    /// ```
    /// # let board = seryugo::Switchboard::new(1_000)?;
    /// # let mut seat = board.seat()?;
    /// # let channel = seat.channel::<u64>()?;
    /// let port = seat.port(channel)?;
    /// seat.multicast(channel, 1)?;
    /// if let Some(copy) = seat.copy(port)? {
    ///     assert_eq!(seat.recv(copy)?, Some(1));
    /// }
    /// assert_eq!(seat.recv(port)?, Some(1));
    /// # Ok::<(), seryugo::Error>(())
    /// ```
    ///
    /// # Errors
    ///
    /// [The usual ones](crate::Seat#how-a-call-fails).
    pub fn copy<T>(&mut self, port: Port<T>) -> Result<Option<Port<T>>, Error> {
        let port = self.here(port)?;
        let mut number = 0;
        let step = StepKind::Copy.on(port);
        let code = self
            .call(step, Line::SHORT, |room, seat| Asked::first(step, seat).give(room, &mut number));
        let is_open = done_or(code?, code::CLOSED)?;
        Ok(is_open.then(|| self.board.name(number)))
    }

    /// Closes a port: whether it was open.
    ///
    /// ```
    /// # let board = seryugo::Switchboard::new(1_000)?;
    /// # let mut seat = board.seat()?;
    /// # let channel = seat.channel::<u64>()?;
    /// let port = seat.port(channel)?;
    /// assert!(seat.close(port)?);
    /// assert!(!seat.close(port)?);
    /// assert_eq!(seat.recv(port)?, None);
    /// # Ok::<(), seryugo::Error>(())
    /// ```
    ///
    /// # Errors
    ///
    /// [The usual ones](crate::Seat#how-a-call-fails).
    pub fn close<T>(&mut self, port: Port<T>) -> Result<bool, Error> {
        let port = self.here(port)?;
        let step = StepKind::Close.on(port);
        let code =
            self.call(step, Line::SHORT, |room, seat| Asked::first(step, seat).give(room, &mut 0));
        done_or(code?, code::CLOSED).map_err(|error| error.misfit(Misfit::Feed(port)))
    }

    /// Makes an empty i-variable.
    ///
    /// ```
    /// # let board = seryugo::Switchboard::new(1_000)?;
    /// # let mut seat = board.seat()?;
    /// let variable = seat.ivar::<u64>()?;
    /// assert!(seat.put(variable, 5)?);
    /// assert!(!seat.put(variable, 6)?);
    /// # Ok::<(), seryugo::Error>(())
    /// ```
    ///
    /// # Errors
    ///
    /// [The usual ones](crate::Seat#how-a-call-fails).
    pub fn ivar<T>(&mut self) -> Result<IVar<T>, Error>
    where
        R: Carries<T>,
    {
        self.make_bare(StepKind::IVar.makes())
    }

    /// Makes an empty m-variable.
    ///
    /// ```
    /// # let board = seryugo::Switchboard::new(1_000)?;
    /// # let mut seat = board.seat()?;
    /// let variable = seat.mvar::<u64>()?;
    /// seat.put(variable, 5)?;
    /// assert_eq!(seat.take(variable)?, 5);
    /// assert!(seat.put(variable, 6)?);
    /// # Ok::<(), seryugo::Error>(())
    /// ```
    ///
    /// # Errors
    ///
    /// [The usual ones](crate::Seat#how-a-call-fails).
    pub fn mvar<T>(&mut self) -> Result<MVar<T>, Error>
    where
        R: Carries<T>,
    {
        self.make_bare(StepKind::MVar.makes())
    }

    /// Makes an m-variable that holds this, of this type.
    ///
    /// ```
    /// # let board = seryugo::Switchboard::new(1_000)?;
    /// # let mut seat = board.seat()?;
    /// let variable = seat.mvar_init(5)?;
    /// assert_eq!(seat.take(variable)?, 5);
    /// # Ok::<(), seryugo::Error>(())
    /// ```
    ///
    /// # Errors
    ///
    /// [The usual ones](crate::Seat#how-a-call-fails). [`SendError`] hands the message back.
    pub fn mvar_init<T>(&mut self, message: T) -> Result<MVar<T>, SendError<T>>
    where
        R: Carries<T>,
    {
        let made = R::with_sent(&message, |sent| {
            let line = Line::of(R::length(sent));
            self.make(StepKind::MVarInit.makes(), line, |room, seat, name| {
                R::mvar_init(room, seat, sent, name)
            })
        });
        handing_back(made, message)
    }

    /// Makes an object that holds no message.
    fn make_bare<N: Named>(&mut self, step: Step) -> Result<N, Error> {
        self.make(step, Line::SHORT, |room, seat, name| Asked::first(step, seat).give(room, name))
    }

    fn make<N: Named>(
        &mut self,
        step: Step,
        line: Line,
        call: impl FnOnce(&mut Handle, u64, &mut u64) -> u32,
    ) -> Result<N, Error> {
        let mut number = 0;
        done(self.call(step, line, |room, seat| call(room, seat, &mut number))?)?;
        Ok(self.board.name(number))
    }
}

/// # Objects that are found again
///
/// A program that goes on from a [file](crate::Switchboard::open) finds its objects by their numbers. They
/// count from 0, in the order in which the objects were made. Each of these calls finds the object
/// of a number, or makes it if its number is the next one. It does so in one turn under the lock:
/// threads that call it at the same time get one object.
///
/// The journal has no types: name the type that the object had. Make what has a fixed number before
/// other objects. The first [`request`](Seat::request) of a seat makes a mailbox too.
impl<R: MessageKind, H: Holds<R>> Seat<'_, R, H> {
    /// Finds the mailbox of this number, or makes it.
    ///
    /// ```
    /// use seryugo::{Error, Missing};
    ///
    /// # let board = seryugo::Switchboard::new(1_000)?;
    /// # let mut seat = board.seat()?;
    /// let letters = seat.mailbox_again::<String>(0)?;
    /// assert_eq!(board.seat()?.mailbox_again(0), Ok(letters));
    /// assert_eq!(seat.mailbox_again::<u64>(2), Err(Error::NoSuch(Missing::Object(1))));
    /// assert!(matches!(seat.channel_again::<u64>(0), Err(Error::WrongKind(_))));
    /// # Ok::<(), seryugo::Error>(())
    /// ```
    ///
    /// # Errors
    ///
    /// `NoSuch`: there is no object of the number before. `WrongKind`: the object of this number is
    /// no mailbox. And [the usual ones](crate::Seat#how-a-call-fails).
    pub fn mailbox_again<T>(&mut self, number: u64) -> Result<Mailbox<T>, Error>
    where
        R: Carries<T>,
    {
        self.again(number, StepKind::Mailbox)
    }

    /// Finds the channel of this number, or makes it.
    ///
    /// ```
    /// # let board = seryugo::Switchboard::new(1_000)?;
    /// # let mut seat = board.seat()?;
    /// let news = seat.channel_again::<String>(0)?;
    /// assert_eq!(board.channel(0), Ok(news));
    /// # Ok::<(), seryugo::Error>(())
    /// ```
    ///
    /// # Errors
    ///
    /// As [`mailbox_again`](Seat::mailbox_again).
    pub fn channel_again<T>(&mut self, number: u64) -> Result<Channel<T>, Error>
    where
        R: Carries<T>,
    {
        self.again(number, StepKind::Channel)
    }

    /// Finds the i-variable of this number, or makes an empty one.
    ///
    /// ```
    /// # let board = seryugo::Switchboard::new(1_000)?;
    /// # let mut seat = board.seat()?;
    /// let winner = seat.ivar_again::<String>(0)?;
    /// assert!(seat.put(winner, "Ann")?);
    /// assert_eq!(board.held(seat.ivar_again::<String>(0)?)?, Some("Ann".to_string()));
    /// # Ok::<(), seryugo::Error>(())
    /// ```
    ///
    /// # Errors
    ///
    /// As [`mailbox_again`](Seat::mailbox_again).
    pub fn ivar_again<T>(&mut self, number: u64) -> Result<IVar<T>, Error>
    where
        R: Carries<T>,
    {
        self.again(number, StepKind::IVar)
    }

    /// Finds the m-variable of this number, or makes an empty one.
    ///
    /// ```
    /// # let board = seryugo::Switchboard::new(1_000)?;
    /// # let mut seat = board.seat()?;
    /// let sum = seat.mvar_again::<u64>(0)?;
    /// seat.put(sum, 5)?;
    /// assert_eq!(board.held(seat.mvar_again::<u64>(0)?)?, Some(5));
    /// # Ok::<(), seryugo::Error>(())
    /// ```
    ///
    /// # Errors
    ///
    /// As [`mailbox_again`](Seat::mailbox_again).
    pub fn mvar_again<T>(&mut self, number: u64) -> Result<MVar<T>, Error>
    where
        R: Carries<T>,
    {
        self.again(number, StepKind::MVar)
    }

    fn again<N: Named>(&mut self, number: u64, kind: StepKind) -> Result<N, Error> {
        let (seat, step) = (self.ready(), kind.makes());
        let follower = self.board.follower();
        if follower.is_some_and(|follower| self.board.makes_again(follower, seat, number)) {
            return self.make_bare(step);
        }
        let find = || {
            let again = |state: &mut State<R>| {
                state.again(seat, number, N::KIND, |room, seat, name| {
                    Asked::first(step, seat).give(room, name)
                })
            };
            self.board.change(Some(&self.parker), again)
        };
        self.board.pass_by(StepKind::LookAtAll.makes(), find, |()| number)?;
        Ok(self.board.name(number))
    }
}
