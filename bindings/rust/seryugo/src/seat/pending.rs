//! A call that may block. It is made again once its seat is woken.

use crate::calls::{self, Calls, Read};
use crate::error::Error;
use crate::explore::{Pass, Step, StepKind};
use crate::journal::keep::Landing;
use crate::message::carries::{Carries, MessageKind};
use crate::message::kind::Misfit;
use crate::message::names::Source;
use crate::raw::{self, code, Handle};
use crate::seat::owned::Holds;
use crate::seat::Seat;
use crate::switchboard::call::{Ask, Line, Wait};
use crate::switchboard::waiting::WaitsAt;
use std::future::Future;
use std::pin::Pin;
use std::task::{Context, Poll, Waker};
use std::time::{Duration, Instant};

/// A call that may block, with the number of its object.
#[derive(Clone, Copy)]
pub(crate) enum PendingCall<'m, R: MessageKind> {
    Read(Read, u64),
    Swap(u64, R::Sent<'m>),
}

impl<R: MessageKind> PendingCall<'_, R> {
    /// What an exploration knows of it.
    #[inline]
    fn step(self) -> Step {
        match self {
            PendingCall::Read(call, object) => call.ask_of(object),
            PendingCall::Swap(variable, _) => StepKind::Swap.on(variable),
        }
    }

    /// The messages of its line.
    #[inline]
    fn line(self) -> Line {
        match self {
            PendingCall::Read(..) => Line::SHORT,
            PendingCall::Swap(variable, stored) => Line::of_swap(R::length(stored), variable),
        }
    }

    /// How this seat asks, in this wait.
    #[inline]
    fn of(self, seat: u64, wait: Wait) -> Ask {
        Ask {
            seat,
            wait,
            line: self.line(),
            at: self.at(),
        }
    }

    /// What a seat waits at.
    #[inline]
    fn at(self) -> WaitsAt {
        match self {
            PendingCall::Read(Read::Recv, source) => WaitsAt::Recv(source),
            PendingCall::Read(Read::Get, variable) => WaitsAt::Get(variable),
            PendingCall::Read(Read::Take, variable) => WaitsAt::Take(variable),
            PendingCall::Swap(variable, _) => WaitsAt::Swap(variable),
        }
    }

    #[inline]
    fn ask(self, room: &mut Handle, seat: u64, is_again: bool, to: &mut R::Received) -> u32 {
        let code = match self {
            PendingCall::Read(call, object) => R::ask(call, room, seat, object, is_again, to),
            PendingCall::Swap(variable, stored) => {
                R::swap(room, seat, variable, stored, is_again, to)
            }
        };
        if is_again && code == code::NO_MEMORY {
            // The seat may be parked still. It isn't to wait after a refusal.
            raw::seryugo_withdraw(room, seat);
        }
        code
    }
}

/// The code that a call that waits has returned, and what it has received if it was done. `Err`: it
/// ended before it was answered.
pub(crate) type Answer<R> = Result<(u32, <R as Calls>::Received), Error>;

/// What was received from the mailbox or the port of this number.
#[inline]
pub(crate) fn received<R: Carries<S::Message>, S: Source>(
    source: u64,
    answer: Answer<R>,
) -> Result<S::Received, Error> {
    let (code, message) = answer?;
    received_from::<R, S>(source, code, &message)
}

/// What a call with this code received from the mailbox or the port of this number.
#[inline]
pub(crate) fn received_from<R: Carries<S::Message>, S: Source>(
    source: u64,
    code: u32,
    message: &R::Received,
) -> Result<S::Received, Error> {
    match code {
        code::DONE => S::received(Some(R::read(message)?)),
        code::CLOSED => S::received(None),
        _ => Err(Error::of_code(code).misfit(Misfit::Feed(source))),
    }
}

/// The message that a variable held.
#[inline]
pub(crate) fn held<R: Carries<T>, T>(answer: Answer<R>) -> Result<T, Error> {
    let (code, message) = answer?;
    calls::received::<R, T>(code, &message)
}

impl<'a, R: MessageKind, H: Holds<R>> Seat<'a, R, H> {
    /// Makes a call that may block, and reads its code and what it has received, which isn't moved.
    #[inline]
    pub(crate) fn wait<T>(
        &mut self,
        call: PendingCall<'_, R>,
        read: impl FnOnce(u32, &R::Received) -> Result<T, Error>,
    ) -> Result<T, Error> {
        self.ready();
        if self.board.conductor.is_some() || !self.unreturned.is_empty() {
            return self.decided(move |seat| {
                let (code, message) = seat.answer_to(call)?;
                read(code, &message)
            });
        }
        let mut message = R::nothing();
        let code = self.wait_freely(call, &mut message);
        read(code, &message)
    }

    /// Makes a call that may block, also one that an exploration or a rerun decides, or that a dropped
    /// future has left. Returns its answer.
    pub(crate) fn answer_to(&mut self, call: PendingCall<'_, R>) -> Answer<R> {
        self.ready();
        let answer = self.unreturned_to(call).or_else(|| self.conducted(call, false));
        answer.unwrap_or_else(|| {
            let mut message = R::nothing();
            Ok((self.wait_freely(call, &mut message), message))
        })
    }

    /// Makes a call that blocks no longer than this. A limit that no clock reaches is none.
    pub(crate) fn wait_for(&mut self, call: PendingCall<'_, R>, timeout: Duration) -> Answer<R> {
        match Instant::now().checked_add(timeout) {
            Some(deadline) => self.wait_until(call, deadline),
            None => self.answer_to(call),
        }
    }

    /// Makes a call that blocks until this deadline at most. After the deadline it makes the call once
    /// more. If that parks the seat, it withdraws the call before others have the lock.
    pub(crate) fn wait_until(&mut self, call: PendingCall<'_, R>, deadline: Instant) -> Answer<R> {
        let seat = self.ready();
        if let Some(answer) = self.unreturned_to(call).or_else(|| self.conducted(call, true)) {
            return answer;
        }
        let mut received = R::nothing();
        let mut wait = Wait::OPEN;
        let mut is_last = deadline <= Instant::now();
        loop {
            let ask = call.of(seat, wait);
            let call = |room: &mut Handle| call.ask(room, seat, wait.is_parked(), &mut received);
            // As in `wait_on`.
            self.wait = wait;
            let code = if is_last {
                self.parker.gives_up();
                self.board.change(Some(&self.parker), |state| state.ask_at_last(ask, call))
            } else {
                self.board.ask(&self.parker, ask, call)
            };
            self.wait = Wait::BLOCKING;
            wait = wait.after(code);
            if !wait.has_begun() {
                return Ok((code, received));
            }
            if is_last {
                return Err(Error::TimedOut);
            }
            is_last = !self.parker.park_until(deadline);
        }
    }

    /// Returns the future of a call that may block.
    pub(crate) fn waiting<'m>(&mut self, call: PendingCall<'m, R>) -> Waiting<'_, 'a, 'm, R, H> {
        self.board.refuse_if_rerun("futures");
        self.ready();
        Waiting {
            seat: self,
            call,
            is_awaited: false,
            settling: None,
        }
    }

    /// Makes a call of a switchboard that is explored or rerun, or one whose answer a dropped future may
    /// have left. It is its own function, so that
    /// the others put nothing into memory for it, and look at no answer twice.
    #[cold]
    fn decided<T>(&mut self, call: impl FnOnce(&mut Self) -> T) -> T {
        call(self)
    }

    /// Makes a call that may block, and that nobody decides: its code. If its seat is parked, this
    /// waits until the seat is woken, and makes the call again.
    #[inline]
    fn wait_freely(&mut self, call: PendingCall<'_, R>, to: &mut R::Received) -> u32 {
        let seat = self.number();
        let ask = call.of(seat, Wait::BLOCKING);
        let code = self.board.ask(&self.parker, ask, |room| call.ask(room, seat, false, to));
        match ask.wait.after(code) {
            wait if wait.has_begun() => self.wait_on(call, wait, to),
            _ => code,
        }
    }

    /// Waits on at such a call: its code.
    fn wait_on(&mut self, call: PendingCall<'_, R>, mut wait: Wait, to: &mut R::Received) -> u32 {
        let seat = self.number();
        loop {
            self.parker.park();
            // If a sink panics in this call, the seat's next one ends the wait, or the seat's end.
            self.wait = wait;
            let again = call.of(seat, wait);
            let is_parked = wait.is_parked();
            let code =
                self.board.ask(&self.parker, again, |room| call.ask(room, seat, is_parked, to));
            self.wait = Wait::BLOCKING;
            wait = wait.after(code);
            if !wait.has_begun() {
                return code;
            }
        }
    }

    /// Lets an exploration or a rerun decide when the call is made. `None`: make it now, as any
    /// other.
    #[inline]
    fn conducted(&mut self, call: PendingCall<'_, R>, is_timed: bool) -> Option<Answer<R>> {
        let conductor = self.board.conductor.as_ref()?;
        let (seat, mut received) = (self.number(), R::nothing());
        let asked = self.board.ask_conducted(conductor, seat, call.step(), is_timed, |state| {
            let ask = call.of(seat, Wait::BLOCKING);
            state.ask_at_last(ask, |room| call.ask(room, seat, false, &mut received))
        });
        asked.transpose().map(|code| Ok((code?, received)))
    }
}

/// A call that waits for its future's task to be woken. If it is dropped before it is answered, it
/// is withdrawn.
pub(crate) struct Waiting<'s, 'a, 'm, R: MessageKind, H: Holds<R>> {
    seat: &'s mut Seat<'a, R, H>,
    call: PendingCall<'m, R>,
    /// Whether an exploration has it among those that have no answer.
    is_awaited: bool,
    /// The answer that isn't on the disk yet. It lies in a box, so that the future may be moved.
    settling: Option<Box<Settling<R>>>,
}

/// An answer that rests on the file up to this position.
struct Settling<R: MessageKind> {
    answer: Answer<R>,
    position: u64,
    landing: Landing,
}

impl<R: MessageKind, H: Holds<R>> Waiting<'_, '_, '_, R, H> {
    /// Makes the call, in this wait. `None` if its seat waits on. Else the answer, and the position up
    /// to which it rests on the file.
    fn ask(&mut self, wait: Wait) -> Option<(Answer<R>, u64)> {
        let (seat, call) = (self.seat.number(), self.call);
        let mut received = R::nothing();
        let ask = call.of(seat, wait);
        let (code, position) = self.seat.board.ask_as::<false>(&self.seat.parker, ask, |room| {
            call.ask(room, seat, wait.is_parked(), &mut received)
        });
        self.seat.wait = wait.after(code);
        (!self.seat.wait.has_begun()).then_some((Ok((code, received)), position))
    }

    /// Hands this answer over, if the disk has what it rests on. Else this keeps it, and has the file
    /// tell when that is so.
    fn land(&mut self, answer: Answer<R>, position: u64) -> Option<Answer<R>> {
        match self.seat.board.landing(position) {
            None => Some(self.seat.board.settled(position, answer)),
            Some(landing) => {
                self.settling = Some(Box::new(Settling {
                    answer,
                    position,
                    landing,
                }));
                None
            }
        }
    }

    /// Makes the call until it is answered, or has its seat woken. The answer may be one that a dropped
    /// future has left.
    fn answered(&mut self, waker: &Waker) -> Option<(Answer<R>, u64)> {
        if let Some(left) = self.seat.take_unreturned(self.call) {
            return Some(left);
        }
        loop {
            let wait = match self.seat.wait {
                wait if wait.has_begun() => wait,
                _ => Wait::OPEN,
            };
            if wait.has_begun() && !self.seat.parker.poll(waker) {
                return None;
            }
            if let Some(answer) = self.ask(wait) {
                return Some(answer);
            }
        }
    }

    /// Hands over an answer that this keeps, once the disk has what it rests on.
    fn landed(&mut self, waker: &Waker) -> Poll<Answer<R>> {
        match self.settling.take() {
            Some(settling) if settling.landing.poll(waker) => {
                Poll::Ready(self.seat.board.settled(settling.position, settling.answer))
            }
            settling => {
                self.settling = settling;
                Poll::Pending
            }
        }
    }

    #[cold]
    fn withdraw_explored(&self) {
        if let Some(play) = self.seat.board.exploration() {
            play.withdraw(&*self.seat.board, self.seat.number());
        }
    }

    /// Lets an exploration decide when the call is made. `None`: make it now, as any other.
    #[inline]
    fn explored(&mut self, waker: &Waker) -> Option<Poll<Answer<R>>> {
        let play = self.seat.board.exploration()?;
        let polled = play.poll(&*self.seat.board, self.seat.number(), self.call.step());
        self.is_awaited = polled.is_none();
        match polled {
            None => {
                // The exploration counts how often its thread polls in vain.
                waker.wake_by_ref();
                Some(Poll::Pending)
            }
            Some(Pass::Stalled) => Some(Poll::Ready(Err(Error::Stalled))),
            Some(_) => None,
        }
    }
}

impl<R: MessageKind, H: Holds<R>> Future for Waiting<'_, '_, '_, R, H> {
    type Output = Answer<R>;

    fn poll(mut self: Pin<&mut Self>, context: &mut Context<'_>) -> Poll<Answer<R>> {
        if let Some(polled) = self.explored(context.waker()) {
            return polled;
        }
        if self.settling.is_some() {
            return self.landed(context.waker());
        }
        let Some((answer, position)) = self.answered(context.waker()) else {
            return Poll::Pending;
        };
        match self.land(answer, position) {
            Some(answer) => Poll::Ready(answer),
            None => self.landed(context.waker()),
        }
    }
}

impl<R: MessageKind, H: Holds<R>> Drop for Waiting<'_, '_, '_, R, H> {
    fn drop(&mut self) {
        if self.is_awaited {
            self.withdraw_explored();
        }
        if let Some(settling) = self.settling.take() {
            self.seat.keep_unreturned(self.call, settling.answer, settling.position);
        }
        self.seat.ready();
    }
}
