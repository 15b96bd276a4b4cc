//! The calls of a seat that wait: until they are answered, up to a time limit, or as futures.

use crate::calls::{self, Read};
use crate::error::{handing_back, Error, SendError};
use crate::message::carries::{Carries, MessageKind};
use crate::message::names::{MVar, Source, Variable};
use crate::message::sent_as::SentAs;
use crate::seat::owned::Holds;
use crate::seat::pending::{held, received, received_from, PendingCall};
use crate::seat::Seat;
use std::time::{Duration, Instant};

/// # Calls that wait
///
/// `recv`, `get`, `take` and `swap` block until they are answered. Those that end in `_timeout` and
/// `_deadline` fail with [`Error::TimedOut`] once their time has passed. If it has passed before,
/// they make the call once. Those that end in `_async` are futures. They need no executor of a
/// certain kind, and do nothing before they are polled.
///
/// A call that fails and a future that is dropped have done nothing. If the seat was about to be
/// answered, the next seat that waits for the same goes on in its place.
///
/// On a switchboard that is kept on the [disk](crate::Keep::Disk) each returns once the disk has
/// what its answer rests on.
impl<R: MessageKind, H: Holds<R>> Seat<'_, R, H> {
    /// Receives the next message of a mailbox or a port. Blocks while there is none. A mailbox
    /// gives the message. A port gives `Some` message, or `None` once it is closed.
    ///
    /// ```
    /// # let board = seryugo::Switchboard::new(1_000)?;
    /// let mut seat = board.seat()?;
    /// let mailbox = seat.mailbox::<String>()?;
    /// seat.send(mailbox, "hello")?;
    /// assert_eq!(seat.recv(mailbox)?, "hello");
    /// let channel = seat.channel::<u64>()?;
    /// let port = seat.port(channel)?;
    /// seat.multicast(channel, 5)?;
    /// assert_eq!(seat.recv(port)?, Some(5));
    /// seat.close(port)?;
    /// assert_eq!(seat.recv(port)?, None);
    /// # Ok::<(), seryugo::Error>(())
    /// ```
    ///
    /// # Errors
    ///
    /// [The usual ones](crate::Seat#how-a-call-fails). `Stalled`: nothing could answer the call.
    /// `Unreadable`: the message was received, and can't be read as this type.
    #[inline]
    pub fn recv<S: Source>(&mut self, source: S) -> Result<S::Received, Error>
    where
        R: Carries<S::Message>,
    {
        let source = self.here(source)?;
        self.wait(PendingCall::Read(Read::Recv, source), move |code, message| {
            received_from::<R, S>(source, code, message)
        })
    }

    /// The same, but it blocks no longer than this.
    ///
    /// ```
    /// use seryugo::Error;
    /// use std::time::Duration;
    ///
    /// # let board = seryugo::Switchboard::new(1_000)?;
    /// let (mut seat, _other) = (board.seat()?, board.seat()?);
    /// let mailbox = seat.mailbox::<u64>()?;
    /// assert_eq!(seat.recv_timeout(mailbox, Duration::from_millis(1)), Err(Error::TimedOut));
    /// seat.send(mailbox, 5)?;
    /// assert_eq!(seat.recv_timeout(mailbox, Duration::from_millis(1)), Ok(5));
    /// # Ok::<(), seryugo::Error>(())
    /// ```
    ///
    /// # Errors
    ///
    /// As [`recv`](Seat::recv). `TimedOut`: the time has passed.
    pub fn recv_timeout<S: Source>(
        &mut self,
        source: S,
        timeout: Duration,
    ) -> Result<S::Received, Error>
    where
        R: Carries<S::Message>,
    {
        let source = self.here(source)?;
        received::<R, S>(source, self.wait_for(PendingCall::Read(Read::Recv, source), timeout))
    }

    /// The same, but it blocks until then at the latest.
    ///
    /// ```
    /// use seryugo::Error;
    /// use std::time::{Duration, Instant};
    ///
    /// # let board = seryugo::Switchboard::new(1_000)?;
    /// let (mut seat, _other) = (board.seat()?, board.seat()?);
    /// let mailbox = seat.mailbox::<u64>()?;
    /// let deadline = Instant::now() + Duration::from_millis(1);
    /// assert_eq!(seat.recv_deadline(mailbox, deadline), Err(Error::TimedOut));
    /// # Ok::<(), seryugo::Error>(())
    /// ```
    ///
    /// # Errors
    ///
    /// As [`recv_timeout`](Seat::recv_timeout).
    pub fn recv_deadline<S: Source>(
        &mut self,
        source: S,
        deadline: Instant,
    ) -> Result<S::Received, Error>
    where
        R: Carries<S::Message>,
    {
        let source = self.here(source)?;
        received::<R, S>(source, self.wait_until(PendingCall::Read(Read::Recv, source), deadline))
    }

    /// The same as a future.
    ///
    /// ```
    /// # use std::{future::Future, pin::pin, task::{Context, Poll, Waker}};
    /// # let board = seryugo::Switchboard::new(1_000)?;
    /// let (mut seat, mut other) = (board.seat()?, board.seat()?);
    /// let mailbox = seat.mailbox::<u64>()?;
    /// let mut received = pin!(seat.recv_async(mailbox));
    /// let mut context = Context::from_waker(Waker::noop());
    /// assert_eq!(received.as_mut().poll(&mut context), Poll::Pending);
    /// other.send(mailbox, 5)?;
    /// assert_eq!(received.as_mut().poll(&mut context), Poll::Ready(Ok(5)));
    /// # Ok::<(), seryugo::Error>(())
    /// ```
    ///
    /// # Errors
    ///
    /// As [`recv`](Seat::recv).
    pub async fn recv_async<S: Source>(&mut self, source: S) -> Result<S::Received, Error>
    where
        R: Carries<S::Message>,
    {
        let source = self.here(source)?;
        received::<R, S>(source, self.waiting(PendingCall::Read(Read::Recv, source)).await)
    }

    /// Reads a variable, which keeps its message. Blocks while it is empty.
    ///
    /// ```
    /// # let board = seryugo::Switchboard::new(1_000)?;
    /// let mut seat = board.seat()?;
    /// let variable = seat.ivar::<u64>()?;
    /// seat.put(variable, 5)?;
    /// assert_eq!(seat.get(variable)?, 5);
    /// # Ok::<(), seryugo::Error>(())
    /// ```
    ///
    /// # Errors
    ///
    /// [The usual ones](crate::Seat#how-a-call-fails). `Stalled`: nothing could answer the call.
    /// `Unreadable`: what it holds can't be read as this type.
    #[inline]
    pub fn get<V: Variable>(&mut self, variable: V) -> Result<V::Message, Error>
    where
        R: Carries<V::Message>,
    {
        let variable = self.here(variable)?;
        self.wait(PendingCall::Read(Read::Get, variable), calls::received::<R, _>)
    }

    /// The same, but it blocks no longer than this.
    ///
    /// ```
    /// use std::time::Duration;
    ///
    /// # let board = seryugo::Switchboard::new(1_000)?;
    /// let (mut seat, _other) = (board.seat()?, board.seat()?);
    /// let variable = seat.ivar::<u64>()?;
    /// assert_eq!(seat.get_timeout(variable, Duration::ZERO), Err(seryugo::Error::TimedOut));
    /// # Ok::<(), seryugo::Error>(())
    /// ```
    ///
    /// # Errors
    ///
    /// As [`get`](Seat::get). `TimedOut`: the time has passed.
    pub fn get_timeout<V: Variable>(
        &mut self,
        variable: V,
        timeout: Duration,
    ) -> Result<V::Message, Error>
    where
        R: Carries<V::Message>,
    {
        let variable = self.here(variable)?;
        held::<R, _>(self.wait_for(PendingCall::Read(Read::Get, variable), timeout))
    }

    /// The same, but it blocks until then at the latest.
    ///
    /// ```
    /// # let board = seryugo::Switchboard::new(1_000)?;
    /// let (mut seat, _other) = (board.seat()?, board.seat()?);
    /// let variable = seat.ivar::<u64>()?;
    /// let now = std::time::Instant::now();
    /// assert_eq!(seat.get_deadline(variable, now), Err(seryugo::Error::TimedOut));
    /// # Ok::<(), seryugo::Error>(())
    /// ```
    ///
    /// # Errors
    ///
    /// As [`get_timeout`](Seat::get_timeout).
    pub fn get_deadline<V: Variable>(
        &mut self,
        variable: V,
        deadline: Instant,
    ) -> Result<V::Message, Error>
    where
        R: Carries<V::Message>,
    {
        let variable = self.here(variable)?;
        held::<R, _>(self.wait_until(PendingCall::Read(Read::Get, variable), deadline))
    }

    /// The same as a future.
    ///
    /// ```
    /// # use std::{future::Future, pin::pin, task::{Context, Poll, Waker}};
    /// # let board = seryugo::Switchboard::new(1_000)?;
    /// let mut seat = board.seat()?;
    /// let variable = seat.mvar_init(5)?;
    /// let mut context = Context::from_waker(Waker::noop());
    /// assert_eq!(pin!(seat.get_async(variable)).poll(&mut context), Poll::Ready(Ok(5)));
    /// # Ok::<(), seryugo::Error>(())
    /// ```
    ///
    /// # Errors
    ///
    /// As [`get`](Seat::get).
    pub async fn get_async<V: Variable>(&mut self, variable: V) -> Result<V::Message, Error>
    where
        R: Carries<V::Message>,
    {
        let variable = self.here(variable)?;
        held::<R, _>(self.waiting(PendingCall::Read(Read::Get, variable)).await)
    }

    /// Reads and empties an m-variable. Blocks while it is empty.
    ///
    /// ```
    /// # let board = seryugo::Switchboard::new(1_000)?;
    /// let mut seat = board.seat()?;
    /// let variable = seat.mvar_init(5)?;
    /// assert_eq!(seat.take(variable)?, 5);
    /// assert_eq!(board.held(variable)?, None);
    /// # Ok::<(), seryugo::Error>(())
    /// ```
    ///
    /// # Errors
    ///
    /// [The usual ones](crate::Seat#how-a-call-fails). `Stalled`: nothing could answer the call.
    /// `Unreadable`: the message was received, and can't be read as this type.
    #[inline]
    pub fn take<T>(&mut self, variable: MVar<T>) -> Result<T, Error>
    where
        R: Carries<T>,
    {
        let variable = self.here(variable)?;
        self.wait(PendingCall::Read(Read::Take, variable), calls::received::<R, _>)
    }

    /// The same, but it blocks no longer than this.
    ///
    /// ```
    /// use std::time::Duration;
    ///
    /// # let board = seryugo::Switchboard::new(1_000)?;
    /// let (mut seat, _other) = (board.seat()?, board.seat()?);
    /// let variable = seat.mvar_init(5)?;
    /// let limit = Duration::from_millis(1);
    /// assert_eq!(seat.take_timeout(variable, limit), Ok(5));
    /// assert_eq!(seat.take_timeout(variable, limit), Err(seryugo::Error::TimedOut));
    /// # Ok::<(), seryugo::Error>(())
    /// ```
    ///
    /// # Errors
    ///
    /// As [`take`](Seat::take). `TimedOut`: the time has passed.
    pub fn take_timeout<T>(&mut self, variable: MVar<T>, timeout: Duration) -> Result<T, Error>
    where
        R: Carries<T>,
    {
        let variable = self.here(variable)?;
        held::<R, _>(self.wait_for(PendingCall::Read(Read::Take, variable), timeout))
    }

    /// The same, but it blocks until then at the latest.
    ///
    /// ```
    /// # let board = seryugo::Switchboard::new(1_000)?;
    /// let (mut seat, _other) = (board.seat()?, board.seat()?);
    /// let variable = seat.mvar::<u64>()?;
    /// let now = std::time::Instant::now();
    /// assert_eq!(seat.take_deadline(variable, now), Err(seryugo::Error::TimedOut));
    /// # Ok::<(), seryugo::Error>(())
    /// ```
    ///
    /// # Errors
    ///
    /// As [`take_timeout`](Seat::take_timeout).
    pub fn take_deadline<T>(&mut self, variable: MVar<T>, deadline: Instant) -> Result<T, Error>
    where
        R: Carries<T>,
    {
        let variable = self.here(variable)?;
        held::<R, _>(self.wait_until(PendingCall::Read(Read::Take, variable), deadline))
    }

    /// The same as a future.
    ///
    /// ```
    /// # use std::{future::Future, pin::pin, task::{Context, Poll, Waker}};
    /// # let board = seryugo::Switchboard::new(1_000)?;
    /// let mut seat = board.seat()?;
    /// let variable = seat.mvar_init(5)?;
    /// let mut context = Context::from_waker(Waker::noop());
    /// assert_eq!(pin!(seat.take_async(variable)).poll(&mut context), Poll::Ready(Ok(5)));
    /// # Ok::<(), seryugo::Error>(())
    /// ```
    ///
    /// # Errors
    ///
    /// As [`take`](Seat::take).
    pub async fn take_async<T>(&mut self, variable: MVar<T>) -> Result<T, Error>
    where
        R: Carries<T>,
    {
        let variable = self.here(variable)?;
        held::<R, _>(self.waiting(PendingCall::Read(Read::Take, variable)).await)
    }

    /// Stores a message in a full m-variable, and returns the one that it held. Blocks while it is
    /// empty.
    ///
    /// ```
    /// # let board = seryugo::Switchboard::new(1_000)?;
    /// let mut seat = board.seat()?;
    /// let variable = seat.mvar_init(5)?;
    /// assert_eq!(seat.swap(variable, 6)?, 5);
    /// assert_eq!(seat.take(variable)?, 6);
    /// # Ok::<(), seryugo::Error>(())
    /// ```
    ///
    /// # Errors
    ///
    /// [The usual ones](crate::Seat#how-a-call-fails). `Stalled`: nothing could answer the call.
    /// [`SendError`] hands the message back. `Unreadable`: the message was stored nevertheless, and
    /// the error has the bytes of the one before.
    #[inline]
    pub fn swap<T, M: SentAs<T>>(
        &mut self,
        variable: MVar<T>,
        message: M,
    ) -> Result<T, SendError<M>>
    where
        R: Carries<T>,
    {
        let held = self.here(variable).and_then(|variable| {
            R::with_sent(&message, |sent| {
                self.wait(PendingCall::Swap(variable, sent), calls::received::<R, _>)
            })
        });
        handing_back(held, message)
    }

    /// The same, but it blocks no longer than this. If its time passes, the variable is as it was.
    ///
    /// ```
    /// use std::time::Duration;
    ///
    /// # let board = seryugo::Switchboard::new(1_000)?;
    /// let (mut seat, _other) = (board.seat()?, board.seat()?);
    /// let variable = seat.mvar::<u64>()?;
    /// let refused = seat.swap_timeout(variable, 6, Duration::from_millis(1)).unwrap_err();
    /// assert_eq!(refused.error, seryugo::Error::TimedOut);
    /// assert_eq!(board.held(variable)?, None);
    /// # Ok::<(), seryugo::Error>(())
    /// ```
    ///
    /// # Errors
    ///
    /// As [`swap`](Seat::swap). `TimedOut`: the time has passed.
    pub fn swap_timeout<T, M: SentAs<T>>(
        &mut self,
        variable: MVar<T>,
        message: M,
        timeout: Duration,
    ) -> Result<T, SendError<M>>
    where
        R: Carries<T>,
    {
        let held = self.here(variable).and_then(|variable| {
            held::<R, _>(R::with_sent(&message, |sent| {
                self.wait_for(PendingCall::Swap(variable, sent), timeout)
            }))
        });
        handing_back(held, message)
    }

    /// The same, but it blocks until then at the latest.
    ///
    /// ```
    /// # let board = seryugo::Switchboard::new(1_000)?;
    /// let (mut seat, _other) = (board.seat()?, board.seat()?);
    /// let variable = seat.mvar::<u64>()?;
    /// let now = std::time::Instant::now();
    /// let refused = seat.swap_deadline(variable, 6, now).unwrap_err();
    /// assert_eq!(refused.error, seryugo::Error::TimedOut);
    /// # Ok::<(), seryugo::Error>(())
    /// ```
    ///
    /// # Errors
    ///
    /// As [`swap_timeout`](Seat::swap_timeout).
    pub fn swap_deadline<T, M: SentAs<T>>(
        &mut self,
        variable: MVar<T>,
        message: M,
        deadline: Instant,
    ) -> Result<T, SendError<M>>
    where
        R: Carries<T>,
    {
        let held = self.here(variable).and_then(|variable| {
            held::<R, _>(R::with_sent(&message, |sent| {
                self.wait_until(PendingCall::Swap(variable, sent), deadline)
            }))
        });
        handing_back(held, message)
    }

    /// The same as a future.
    ///
    /// ```
    /// # use std::{future::Future, pin::pin, task::{Context, Poll, Waker}};
    /// # let board = seryugo::Switchboard::new(1_000)?;
    /// let mut seat = board.seat()?;
    /// let variable = seat.mvar_init(5)?;
    /// let mut context = Context::from_waker(Waker::noop());
    /// assert_eq!(pin!(seat.swap_async(variable, 6)).poll(&mut context), Poll::Ready(Ok(5)));
    /// # Ok::<(), seryugo::Error>(())
    /// ```
    ///
    /// # Errors
    ///
    /// As [`swap`](Seat::swap).
    pub async fn swap_async<T, M: SentAs<T>>(
        &mut self,
        variable: MVar<T>,
        message: M,
    ) -> Result<T, SendError<M>>
    where
        R: Carries<T>,
    {
        let held = match self.here(variable) {
            Ok(variable) => {
                let owned = R::owned(&message);
                held::<R, _>(self.waiting(PendingCall::Swap(variable, R::sent(&owned))).await)
            }
            Err(error) => Err(error),
        };
        handing_back(held, message)
    }
}
