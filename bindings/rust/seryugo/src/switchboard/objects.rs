//! A switchboard's objects, found by number and read.
//!
//! What is read is so at some moment of the call: other threads may go on before the call returns.

use crate::calls::received;
use crate::error::Error;
use crate::message::carries::{Carries, MessageKind};
use crate::message::kind::{Kind, Misfit, Missing};
use crate::message::names::{Channel, IVar, MVar, Mailbox, Named, Object, Port, Target, Variable};
use crate::raw::{self, code, Reader};
use crate::switchboard::Switchboard;

impl<R: MessageKind> Switchboard<R> {
    /// The mailbox of this number, as of a switchboard that goes on from a journal. Objects are
    /// numbered in the order in which they were made, from 0. The journal has no types: name the
    /// type that the mailbox had.
    ///
    /// ```
    /// use seryugo::{Error, Missing, Switchboard};
    ///
    /// # fn main() -> Result<(), Error> {
    /// let board = Switchboard::new(1_000)?;
    /// let mut seat = board.seat()?;
    /// let (mailbox, channel) = (seat.mailbox::<u64>()?, seat.channel::<u64>()?);
    /// let port = seat.port(channel)?;
    /// let (ivar, mvar) = (seat.ivar::<u64>()?, seat.mvar::<u64>()?);
    /// assert_eq!(board.mailbox(0), Ok(mailbox));
    /// assert_eq!(board.channel(1), Ok(channel));
    /// assert_eq!(board.port(2), Ok(port));
    /// assert_eq!(board.ivar(3), Ok(ivar));
    /// assert_eq!(board.mvar(4), Ok(mvar));
    /// let misfit = board.mailbox::<u64>(1).unwrap_err();
    /// assert_eq!(misfit.to_string(), "object 1 is a channel, and no mailbox");
    /// assert_eq!(board.mailbox::<u64>(5), Err(Error::NoSuch(Missing::Object(5))));
    /// # Ok(())
    /// # }
    /// ```
    ///
    /// # Errors
    ///
    /// `NoSuch` if there is no object of this number, and `WrongKind` if it isn't a mailbox.
    pub fn mailbox<T>(&self, number: u64) -> Result<Mailbox<T>, Error>
    where
        R: Carries<T>,
    {
        self.named(number)
    }

    /// The channel of this number. See [`mailbox`](Switchboard::mailbox).
    ///
    /// ```
    /// # let board = seryugo::Switchboard::new(1_000)?;
    /// # let mut seat = board.seat()?;
    /// let channel = seat.channel::<u64>()?;
    /// assert_eq!(board.channel(0), Ok(channel));
    /// # Ok::<(), seryugo::Error>(())
    /// ```
    ///
    /// # Errors
    ///
    /// As [`mailbox`](Switchboard::mailbox).
    pub fn channel<T>(&self, number: u64) -> Result<Channel<T>, Error>
    where
        R: Carries<T>,
    {
        self.named(number)
    }

    /// The port of this number, open or closed. See [`mailbox`](Switchboard::mailbox).
    ///
    /// ```
    /// # let board = seryugo::Switchboard::new(1_000)?;
    /// # let mut seat = board.seat()?;
    /// let channel = seat.channel::<u64>()?;
    /// let port = seat.port(channel)?;
    /// assert_eq!(board.port(1), Ok(port));
    /// # Ok::<(), seryugo::Error>(())
    /// ```
    ///
    /// # Errors
    ///
    /// As [`mailbox`](Switchboard::mailbox).
    pub fn port<T>(&self, number: u64) -> Result<Port<T>, Error>
    where
        R: Carries<T>,
    {
        self.named(number)
    }

    /// The i-variable of this number. See [`mailbox`](Switchboard::mailbox).
    ///
    /// ```
    /// # let board = seryugo::Switchboard::new(1_000)?;
    /// # let mut seat = board.seat()?;
    /// let variable = seat.ivar::<u64>()?;
    /// assert_eq!(board.ivar(0), Ok(variable));
    /// # Ok::<(), seryugo::Error>(())
    /// ```
    ///
    /// # Errors
    ///
    /// As [`mailbox`](Switchboard::mailbox).
    pub fn ivar<T>(&self, number: u64) -> Result<IVar<T>, Error>
    where
        R: Carries<T>,
    {
        self.named(number)
    }

    /// The m-variable of this number. See [`mailbox`](Switchboard::mailbox).
    ///
    /// ```
    /// # let board = seryugo::Switchboard::new(1_000)?;
    /// # let mut seat = board.seat()?;
    /// let variable = seat.mvar::<u64>()?;
    /// assert_eq!(board.mvar(0), Ok(variable));
    /// # Ok::<(), seryugo::Error>(())
    /// ```
    ///
    /// # Errors
    ///
    /// As [`mailbox`](Switchboard::mailbox).
    pub fn mvar<T>(&self, number: u64) -> Result<MVar<T>, Error>
    where
        R: Carries<T>,
    {
        self.named(number)
    }

    /// The name of an object of this number, if it has this kind.
    fn named<N: Named>(&self, number: u64) -> Result<N, Error> {
        self.pass_to_look_at_all();
        let (is, wanted) = (self.kind(number)?, N::KIND);
        if is == wanted {
            Ok(self.name(number))
        } else {
            Err(Error::WrongKind(Misfit::Kind { number, is, wanted }))
        }
    }

    /// What the object of this number is.
    ///
    /// ```
    /// use seryugo::{Kind, Switchboard};
    ///
    /// let board = Switchboard::new(1_000)?;
    /// board.seat()?.mailbox::<u64>()?;
    /// assert_eq!(board.kind(0), Ok(Kind::Mailbox));
    /// # Ok::<(), seryugo::Error>(())
    /// ```
    ///
    /// # Errors
    ///
    /// `NoSuch` if there is no object of this number.
    pub fn kind(&self, number: u64) -> Result<Kind, Error> {
        let kind = self.number_of(number, Reader::Kind);
        Kind::of(kind.map_err(|error| error.missing(Missing::Object(number)))?)
    }

    /// How many messages were sent to a mailbox, or multicast on a channel.
    ///
    /// ```
    /// # let board = seryugo::Switchboard::new(1_000)?;
    /// # let mut seat = board.seat()?;
    /// let mailbox = seat.mailbox::<u64>()?;
    /// seat.send(mailbox, 5)?;
    /// seat.send(mailbox, 6)?;
    /// seat.recv(mailbox)?;
    /// assert_eq!(board.sent(mailbox)?, 2);
    /// # Ok::<(), seryugo::Error>(())
    /// ```
    ///
    /// # Errors
    ///
    /// `NoSuch`: the name is of another switchboard.
    pub fn sent(&self, object: impl Target) -> Result<u64, Error> {
        self.read_of(object, Reader::Sent)
    }

    /// How many were received from a mailbox or a port.
    ///
    /// ```
    /// # let board = seryugo::Switchboard::new(1_000)?;
    /// # let mut seat = board.seat()?;
    /// let mailbox = seat.mailbox::<u64>()?;
    /// seat.send(mailbox, 5)?;
    /// seat.send(mailbox, 6)?;
    /// seat.recv(mailbox)?;
    /// assert_eq!(board.got(mailbox)?, 1);
    /// # Ok::<(), seryugo::Error>(())
    /// ```
    ///
    /// # Errors
    ///
    /// `NoSuch`: the name is of another switchboard, or nothing is received from such an object.
    pub fn got(&self, object: impl Object) -> Result<u64, Error> {
        self.read_of(object, Reader::Got)
    }

    /// How many wait in a mailbox, or are owed to an open port.
    ///
    /// ```
    /// # let board = seryugo::Switchboard::new(1_000)?;
    /// # let mut seat = board.seat()?;
    /// let mailbox = seat.mailbox::<u64>()?;
    /// seat.send(mailbox, 5)?;
    /// seat.send(mailbox, 6)?;
    /// seat.recv(mailbox)?;
    /// assert_eq!(board.owed(mailbox)?, 1);
    /// # Ok::<(), seryugo::Error>(())
    /// ```
    ///
    /// # Errors
    ///
    /// `NoSuch`: the name is of another switchboard, or nothing is owed by such an object.
    pub fn owed(&self, object: impl Object) -> Result<u64, Error> {
        self.read_of(object, Reader::Owed)
    }

    /// How many of a mailbox or a channel are kept.
    ///
    /// ```
    /// # let board = seryugo::Switchboard::new(1_000)?;
    /// # let mut seat = board.seat()?;
    /// let mailbox = seat.mailbox::<u64>()?;
    /// seat.send(mailbox, 5)?;
    /// seat.send(mailbox, 6)?;
    /// seat.recv(mailbox)?;
    /// assert!(board.kept(mailbox)? >= board.owed(mailbox)?);
    /// # Ok::<(), seryugo::Error>(())
    /// ```
    ///
    /// # Errors
    ///
    /// `NoSuch`: the name is of another switchboard.
    pub fn kept(&self, object: impl Target) -> Result<u64, Error> {
        self.read_of(object, Reader::Kept)
    }

    /// What a variable holds; `None` if it is empty.
    ///
    /// ```
    /// # let board = seryugo::Switchboard::new(1_000)?;
    /// # let mut seat = board.seat()?;
    /// let variable = seat.mvar_init(5)?;
    /// assert_eq!(board.held(variable)?, Some(5));
    /// seat.take(variable)?;
    /// assert_eq!(board.held(variable)?, None);
    /// # Ok::<(), seryugo::Error>(())
    /// ```
    ///
    /// # Errors
    ///
    /// `NoSuch`: the name is of another switchboard. `NoMemory`. `Unreadable`: it holds what can't
    /// be read as this type, and holds it still.
    pub fn held<V: Variable>(&self, variable: V) -> Result<Option<V::Message>, Error>
    where
        R: Carries<V::Message>,
    {
        let variable = self.here(variable)?;
        self.pass_to_look(variable);
        let mut found = R::nothing();
        let code = self.look(|state| R::held(&mut state.handle, variable, &mut found))?;
        match code {
            code::NOTHING => Ok(None),
            code => received::<R, _>(code, &found).map(Some),
        }
    }

    /// Whether a port is open.
    ///
    /// ```
    /// # let board = seryugo::Switchboard::new(1_000)?;
    /// # let mut seat = board.seat()?;
    /// let channel = seat.channel::<u64>()?;
    /// seat.multicast(channel, 5)?;
    /// let port = seat.port(channel)?;
    /// assert!(board.is_open(port)?);
    /// seat.close(port)?;
    /// assert!(!board.is_open(port)?);
    /// # Ok::<(), seryugo::Error>(())
    /// ```
    ///
    /// # Errors
    ///
    /// `NoSuch`: the name is of another switchboard.
    pub fn is_open<T>(&self, port: Port<T>) -> Result<bool, Error> {
        let port = self.here(port)?;
        self.pass_to_look(port);
        Ok(self.look(|state| raw::read(&mut state.handle, Reader::IsOpen, port))?? != 0)
    }

    /// A port's channel.
    ///
    /// ```
    /// # let board = seryugo::Switchboard::new(1_000)?;
    /// # let mut seat = board.seat()?;
    /// let channel = seat.channel::<u64>()?;
    /// seat.multicast(channel, 5)?;
    /// let port = seat.port(channel)?;
    /// assert_eq!(board.channel_of(port)?, channel);
    /// # Ok::<(), seryugo::Error>(())
    /// ```
    ///
    /// # Errors
    ///
    /// `NoSuch`: the name is of another switchboard.
    pub fn channel_of<T>(&self, port: Port<T>) -> Result<Channel<T>, Error> {
        let channel = self.read_of(port, Reader::Channel)?;
        Ok(self.name(channel))
    }

    /// How many messages had been multicast on a port's channel before the first that it receives.
    ///
    /// ```
    /// # let board = seryugo::Switchboard::new(1_000)?;
    /// # let mut seat = board.seat()?;
    /// let channel = seat.channel::<u64>()?;
    /// seat.multicast(channel, 5)?;
    /// let port = seat.port(channel)?;
    /// assert_eq!(board.start_of(port)?, 1);
    /// # Ok::<(), seryugo::Error>(())
    /// ```
    ///
    /// # Errors
    ///
    /// `NoSuch`: the name is of another switchboard.
    pub fn start_of<T>(&self, port: Port<T>) -> Result<u64, Error> {
        self.read_of(port, Reader::Start)
    }

    /// A number that an object has.
    fn read_of<N: Named>(&self, object: N, reader: Reader) -> Result<u64, Error> {
        let number = self.here(object)?;
        let read = self.number_of(number, reader);
        read.map_err(|error| error.missing(Missing::Count(N::KIND, number)))
    }

    /// A number that the object with this number has.
    fn number_of(&self, object: u64, reader: Reader) -> Result<u64, Error> {
        self.pass_to_look(object);
        self.look(|state| raw::read(&mut state.handle, reader, object))?
    }
}
