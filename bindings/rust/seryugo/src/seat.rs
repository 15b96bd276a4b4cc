//! A seat, from which one thread calls.

pub(crate) mod block;
pub(crate) mod iter;
pub(crate) mod make;
pub(crate) mod owned;
pub(crate) mod pending;
pub(crate) mod unreturned;

use crate::calls::{received, Give, Read};
use crate::error::{handing_back, Error, SendError};
use crate::explore::Step;
use crate::journal::entry::Who;
use crate::message::carries::{Bytes, Carries, MessageKind};
use crate::message::kind::Misfit;
use crate::message::names::{Channel, MVar, Mailbox, Named, Source, Variable};
use crate::message::sent_as::SentAs;
use crate::park::table::ParkerAt;
use crate::raw::{self, code, done, done_or, Handle};
use crate::request::answers::Answers;
use crate::seat::owned::Holds;
use crate::seat::pending::{held, PendingCall};
use crate::seat::unreturned::Unreturned;
use crate::switchboard::call::{Line, Wait};
use crate::switchboard::Switchboard;
use std::fmt;
use std::marker::PhantomData;
use std::mem;

/// A seat at a switchboard, for one thread at a time. It leaves when it is dropped. It borrows the
/// switchboard, or has a share of it ([`OwnedSeat`](crate::OwnedSeat)).
///
/// A call that would wait blocks. If all other seats wait, none of them with a time limit or as a
/// future, and no lane is open, it fails with [`Error::Stalled`]: nothing could answer it. While a
/// [`Guest`](crate::Guest) is there, it blocks on. Drop the seat as soon as its thread has no more to do: while the seat is free, no call fails
/// with `Stalled`.
///
/// ```
/// use seryugo::{Error, Switchboard};
///
/// # fn main() -> Result<(), Error> {
/// let board = Switchboard::new(1_000)?;
/// let mut seat = board.seat()?;
/// let variable = seat.mvar::<u64>()?;
/// assert!(seat.put(variable, 3)?);
/// assert!(!seat.put(variable, 4)?);
/// assert_eq!(seat.take(variable)?, 3);
/// assert_eq!(seat.take(variable), Err(Error::Stalled));
/// # Ok(())
/// # }
/// ```
///
/// # How a call waits
///
/// | | a mailbox or a port | a variable | an m-variable |
/// |---|---|---|---|
/// | until it is answered | [`recv`](Seat::recv), [`iter`](Seat::iter) | [`get`](Seat::get) | [`take`](Seat::take), [`swap`](Seat::swap) |
/// | no longer than a time | [`recv_timeout`](Seat::recv_timeout) | [`get_timeout`](Seat::get_timeout) | [`take_timeout`](Seat::take_timeout), [`swap_timeout`](Seat::swap_timeout) |
/// | until a moment | [`recv_deadline`](Seat::recv_deadline) | [`get_deadline`](Seat::get_deadline) | [`take_deadline`](Seat::take_deadline), [`swap_deadline`](Seat::swap_deadline) |
/// | as a future | [`recv_async`](Seat::recv_async) | [`get_async`](Seat::get_async) | [`take_async`](Seat::take_async), [`swap_async`](Seat::swap_async) |
/// | not at all | [`recv_poll`](Seat::recv_poll), [`try_iter`](Seat::try_iter) | [`get_poll`](Seat::get_poll) | [`take_poll`](Seat::take_poll) |
///
/// - [`request`](Seat::request) asks a question and waits for the answer. It has the same forms.
/// - A call whose time passes fails with [`Error::TimedOut`], and has done nothing. Neither has a
///   future that is dropped.
/// - The journal has polls that found nothing. It has no call that timed out.
/// - If all seats wait, and no lane is open, each call that waits fails with [`Error::Stalled`]. It
///   doesn't while a seat waits with a time limit or as a future: its caller may go on. A forgotten
///   future (`mem::forget`) counts until its seat's next call. Programs whose futures wait for
///   nothing else say [`open_waits_stall`](Switchboard::open_waits_stall).
///
/// # How a call fails
///
/// Each call may fail so:
///
/// - `NoSuch`: the name is of another switchboard.
/// - `WrongKind`: a feed receives from the port.
/// - `JournalFull`: the journal has no room for the call's entry. `NotKept`: nobody took the entries of
///   the last full journal.
/// - `TooLong`: the journal can't be written with this message.
/// - `NoMemory`.
/// - If a [file](Switchboard::open) keeps the journal: `FileFull`, `FileLost`, `Forked`.
///
/// If a sink panics ([`WhenFull`](crate::WhenFull)), so does the call that found the journal full.
pub struct Seat<'a, R: MessageKind = Bytes, H: Holds<R> = &'a Switchboard<R>> {
    pub(crate) board: H,
    number: u64,
    pub(crate) parker: ParkerAt,
    /// A wait that may have begun, so that the next call ends it first: a future waits by the seat or
    /// was forgotten, a call that waited is made again, or a sink panicked.
    pub(crate) wait: Wait,
    /// Where its questions are answered, once it has asked one.
    pub(crate) answers: Option<Answers>,
    /// What it received for futures that were dropped before the disk had it.
    pub(crate) unreturned: Vec<Unreturned<R>>,
    kind: PhantomData<&'a R>,
}

impl<R: MessageKind, H: Holds<R>> Seat<'_, R, H> {
    /// Makes a seat at a switchboard.
    pub(crate) fn at(board: H) -> Result<Self, Error> {
        let mut state = board.locked()?;
        let parker = board.parkers.make(state.next_place()).ok_or(Error::NoMemory)?;
        let number = state.new_seat()?;
        board.seat_comes(number);
        // SAFETY: no parker moves, and the seat uses it while it has `board`, which keeps it.
        let parker = unsafe { ParkerAt::new(parker) };
        drop(state);
        Ok(Seat {
            board,
            number,
            parker,
            wait: Wait::BLOCKING,
            answers: None,
            unreturned: Vec::new(),
            kind: PhantomData,
        })
    }

    /// The seat's number, by which the journal tells its calls.
    ///
    /// ```
    /// # let board = seryugo::Switchboard::new(1_000)?;
    /// assert_eq!(board.seat()?.number(), 0);
    /// assert_eq!(board.seat()?.number(), 1);
    /// # Ok::<(), seryugo::Error>(())
    /// ```
    #[must_use]
    pub fn number(&self) -> u64 {
        self.number
    }

    /// Sends a message to a mailbox: the message, a reference to it, or what else may be
    /// [sent as](SentAs) such a message. It never blocks.
    ///
    /// ```
    /// # let board = seryugo::Switchboard::new(1_000)?;
    /// # let mut seat = board.seat()?;
    /// let mailbox = seat.mailbox::<String>()?;
    /// seat.send(mailbox, "Dear Ben")?;
    /// let letter = format!("Dear {}", "Ann");
    /// seat.send(mailbox, &letter)?;
    /// seat.send(mailbox, letter)?;
    /// assert_eq!(seat.recv(mailbox)?, "Dear Ben");
    /// # Ok::<(), seryugo::Error>(())
    /// ```
    ///
    /// # Errors
    ///
    /// [The usual ones](crate::Seat#how-a-call-fails). [`SendError`] hands the message back.
    /// `OutOfBounds`: the message has more than 2^32 - 1 bytes.
    #[inline]
    pub fn send<T, M: SentAs<T>>(
        &mut self,
        mailbox: Mailbox<T>,
        message: M,
    ) -> Result<(), SendError<M>>
    where
        R: Carries<T>,
    {
        let sent = self.here(mailbox).and_then(|mailbox| {
            let code = R::with_sent(&message, |sent| {
                let line = Line::of(R::length(sent));
                self.call(Give::Send.on(mailbox), line, move |room, seat| {
                    R::give(Give::Send, room, seat, mailbox, sent)
                })
            });
            done(code?)
        });
        handing_back(sent, message)
    }

    /// Sends a message to every port of a channel. It never blocks.
    ///
    /// ```
    /// # let board = seryugo::Switchboard::new(1_000)?;
    /// # let mut seat = board.seat()?;
    /// let channel = seat.channel::<u64>()?;
    /// let (one, other) = (seat.port(channel)?, seat.port(channel)?);
    /// seat.multicast(channel, 5)?;
    /// assert_eq!(seat.recv(one)?, Some(5));
    /// assert_eq!(seat.recv(other)?, Some(5));
    /// # Ok::<(), seryugo::Error>(())
    /// ```
    ///
    /// # Errors
    ///
    /// [The usual ones](crate::Seat#how-a-call-fails). As [`send`](Seat::send).
    #[inline]
    pub fn multicast<T, M: SentAs<T>>(
        &mut self,
        channel: Channel<T>,
        message: M,
    ) -> Result<(), SendError<M>>
    where
        R: Carries<T>,
    {
        let sent = self.here(channel).and_then(|channel| {
            let code = R::with_sent(&message, |sent| {
                let line = Line::of(R::length(sent));
                self.call(Give::Multicast.on(channel), line, move |room, seat| {
                    R::give(Give::Multicast, room, seat, channel, sent)
                })
            });
            done(code?)
        });
        handing_back(sent, message)
    }

    /// Receives the next message of a mailbox or a port. Returns `None` if there is none, or if the
    /// port is closed.
    ///
    /// ```
    /// # let board = seryugo::Switchboard::new(1_000)?;
    /// # let mut seat = board.seat()?;
    /// let mailbox = seat.mailbox::<u64>()?;
    /// assert_eq!(seat.recv_poll(mailbox)?, None);
    /// seat.send(mailbox, 5)?;
    /// assert_eq!(seat.recv_poll(mailbox)?, Some(5));
    /// # Ok::<(), seryugo::Error>(())
    /// ```
    ///
    /// # Errors
    ///
    /// [The usual ones](crate::Seat#how-a-call-fails). `Unreadable`: the message was received, and
    /// can't be read as this type.
    #[inline]
    pub fn recv_poll<S: Source>(&mut self, source: S) -> Result<Option<S::Message>, Error>
    where
        R: Carries<S::Message>,
    {
        let source = self.here(source)?;
        let found = self.poll(Read::Recv, source, move |room, seat, to| {
            match R::poll(Read::Recv, room, seat, source, to) {
                code::CLOSED => code::NOTHING,
                code => code,
            }
        });
        found.map_err(|error| error.misfit(Misfit::Feed(source)))
    }

    /// Fills an empty variable: whether it was empty. It never blocks.
    ///
    /// ```
    /// # let board = seryugo::Switchboard::new(1_000)?;
    /// # let mut seat = board.seat()?;
    /// let variable = seat.mvar::<u64>()?;
    /// assert!(seat.put(variable, 5)?);
    /// assert!(!seat.put(variable, 6)?);
    /// assert_eq!(seat.get(variable)?, 5);
    /// # Ok::<(), seryugo::Error>(())
    /// ```
    ///
    /// # Errors
    ///
    /// [The usual ones](crate::Seat#how-a-call-fails). As [`send`](Seat::send).
    #[inline]
    pub fn put<V: Variable, M: SentAs<V::Message>>(
        &mut self,
        variable: V,
        message: M,
    ) -> Result<bool, SendError<M>>
    where
        R: Carries<V::Message>,
    {
        let put = self.here(variable).and_then(|variable| {
            let code = R::with_sent(&message, |sent| {
                let line = Line::of(R::length(sent));
                self.call(Give::Put.on(variable), line, move |room, seat| {
                    R::give(Give::Put, room, seat, variable, sent)
                })
            });
            done_or(code?, code::PUT)
        });
        handing_back(put, message)
    }

    /// Reads a variable, which keeps what it holds. Returns `None` if it is empty.
    ///
    /// ```
    /// # let board = seryugo::Switchboard::new(1_000)?;
    /// # let mut seat = board.seat()?;
    /// let variable = seat.ivar::<u64>()?;
    /// assert_eq!(seat.get_poll(variable)?, None);
    /// seat.put(variable, 5)?;
    /// assert_eq!(seat.get_poll(variable)?, Some(5));
    /// # Ok::<(), seryugo::Error>(())
    /// ```
    ///
    /// # Errors
    ///
    /// [The usual ones](crate::Seat#how-a-call-fails). `Unreadable`: what the variable holds can't
    /// be read as this type.
    #[inline]
    pub fn get_poll<V: Variable>(&mut self, variable: V) -> Result<Option<V::Message>, Error>
    where
        R: Carries<V::Message>,
    {
        let variable = self.here(variable)?;
        self.poll(Read::Get, variable, move |room, seat, to| {
            R::poll(Read::Get, room, seat, variable, to)
        })
    }

    /// Reads and empties an m-variable. Returns `None` if it is empty.
    ///
    /// ```
    /// # let board = seryugo::Switchboard::new(1_000)?;
    /// # let mut seat = board.seat()?;
    /// let variable = seat.mvar_init(5)?;
    /// assert_eq!(seat.take_poll(variable)?, Some(5));
    /// assert_eq!(seat.take_poll(variable)?, None);
    /// # Ok::<(), seryugo::Error>(())
    /// ```
    ///
    /// # Errors
    ///
    /// [The usual ones](crate::Seat#how-a-call-fails). `Unreadable`: the message was received, and
    /// can't be read as this type.
    #[inline]
    pub fn take_poll<T>(&mut self, variable: MVar<T>) -> Result<Option<T>, Error>
    where
        R: Carries<T>,
    {
        let variable = self.here(variable)?;
        self.poll(Read::Take, variable, move |room, seat, to| {
            R::poll(Read::Take, room, seat, variable, to)
        })
    }

    /// The number of an object of this switchboard.
    #[inline]
    pub(crate) fn here(&self, object: impl Named) -> Result<u64, Error> {
        self.board.here(object)
    }

    /// Makes a call that may find a message.
    #[inline]
    fn poll<T>(
        &mut self,
        read: Read,
        object: u64,
        call: impl FnOnce(&mut Handle, u64, &mut R::Received) -> u32,
    ) -> Result<Option<T>, Error>
    where
        R: Carries<T>,
    {
        if let Some(answer) = self.unreturned_to(PendingCall::Read(read, object)) {
            return held::<R, T>(answer).map(Some);
        }
        let mut found = R::nothing();
        let step = read.poll_of(object);
        match self.call(step, Line::SHORT, |room, seat| call(room, seat, &mut found))? {
            code::NOTHING => Ok(None),
            code => received::<R, T>(code, &found).map(Some),
        }
    }

    /// Makes a call that never blocks, with these messages. `Err`: a rerun doesn't let it be made. Where nobody decides
    /// when calls are made, a call that owns what it uses (`move`) puts none of it into memory.
    #[inline]
    pub(crate) fn call(
        &mut self,
        step: Step,
        line: Line,
        call: impl FnOnce(&mut Handle, u64) -> u32,
    ) -> Result<u32, Error> {
        let seat = self.ready();
        let call = move |room: &mut Handle| call(room, seat);
        if let Some(conductor) = &self.board.conductor {
            return self.board.call_conducted(conductor, &self.parker, seat, step, call);
        }
        Ok(self.board.change(Some(&self.parker), move |state| state.enter(line, call)))
    }

    /// The seat's number, once it may call: a future that was forgotten left it waiting, or a call
    /// in which a sink panicked.
    #[inline]
    pub(crate) fn ready(&mut self) -> u64 {
        if self.wait.has_begun() {
            self.withdraw();
        }
        self.number
    }

    /// Ends the wait of a call or a future.
    #[cold]
    pub(crate) fn withdraw(&mut self) {
        let (seat, wait) = (self.number, mem::replace(&mut self.wait, Wait::BLOCKING));
        self.parker.gives_up();
        self.board.change_unsettled(Some(&self.parker), |state| state.end_wait(seat, wait));
        self.parker.forget_waker();
    }
}

impl<R: MessageKind, H: Holds<R>> Drop for Seat<'_, R, H> {
    fn drop(&mut self) {
        let (seat, answers) = (self.number, self.answers.take());
        if let Some(answers) = &answers {
            answers.asked.end();
        }
        if self.wait.has_begun() {
            self.parker.gives_up();
            self.parker.forget_waker();
        }
        // This is one call: the seat leaves also if the waker of another seat panics.
        self.board.change_unsettled(None, |state| {
            state.end_wait(seat, self.wait);
            // The seat isn't parked, so that it may leave.
            raw::seryugo_leave(&mut state.handle, seat);
            state.free_answers.extend(answers);
        });
        self.board.leaves(Who::Seat(seat));
    }
}

impl<R: MessageKind, H: Holds<R>> fmt::Debug for Seat<'_, R, H> {
    fn fmt(&self, f: &mut fmt::Formatter<'_>) -> fmt::Result {
        f.debug_struct("Seat").field("number", &self.number).finish_non_exhaustive()
    }
}
