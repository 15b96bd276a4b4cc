//! How a thread calls under a switchboard's lock, and wakes the next seat that is due.

use crate::error::Error;
use crate::message::carries::MessageKind;
use crate::park::backoff;
use crate::park::parker::{Parker, Woken};
use crate::park::yields::pass_by_yielding;
use crate::raw::{code, done, Handle};
use crate::switchboard::call::{Ask, Outcome, Wait};
use crate::switchboard::lock::Guard;
use crate::switchboard::state::State;
use crate::switchboard::Switchboard;
use std::mem;

/// Before a thread waits for the lock, it spins and tries it: for this many pauses, and then for
/// twice as many each time. Then it yields and tries it. With a quarter of the pauses, four threads
/// that send took up to 1.4 times as long: too many looked at the lock.
const PAUSES: u32 = 64;
const SPINS: u32 = 4;
const YIELDS: u32 = 4;

impl<R: MessageKind> Switchboard<R> {
    /// Makes a call under the lock, unlocks the room, and then wakes the next seat that is due. If
    /// the call is that of a seat, `by` is the seat's parker. Blocks until the disk has what the
    /// answer rests on, if the file is kept there.
    #[inline]
    pub(crate) fn change<T: Outcome>(
        &self,
        by: Option<&Parker>,
        call: impl FnOnce(&mut State<R>) -> T,
    ) -> T {
        self.change_as::<true, T>(by, call).0
    }

    /// Makes such a call, and doesn't wait for the disk: its answer says nothing.
    pub(crate) fn change_unsettled<T: Outcome>(
        &self,
        by: Option<&Parker>,
        call: impl FnOnce(&mut State<R>) -> T,
    ) {
        self.change_as::<false, T>(by, call);
    }

    /// Makes such a call. If it doesn't settle, this returns the position up to which its answer rests
    /// on the file. What settles does so where the file is, so that calls without one look at nothing.
    #[inline]
    fn change_as<const SETTLES: bool, T: Outcome>(
        &self,
        by: Option<&Parker>,
        call: impl FnOnce(&mut State<R>) -> T,
    ) -> (T, u64) {
        // It is dropped after the lock.
        let panicking = Panicking { board: self, by };
        let Some(mut state) = self.lock_for_call() else {
            mem::forget(panicking);
            return (T::refused(code::FORKED), 0);
        };
        let answer = state.call(call);
        mem::forget(panicking);
        if state.ends_at_once() {
            return (answer, 0);
        }
        self.end_call::<SETTLES, T>(state, by, answer)
    }

    /// Ends a call where a seat may be due, or a file has the journal. It isn't part of each call's
    /// code, so that a caller's compiler takes that into the caller.
    #[inline(never)]
    fn end_call<const SETTLES: bool, T: Outcome>(
        &self,
        state: Guard<'_, State<R>>,
        by: Option<&Parker>,
        answer: T,
    ) -> (T, u64) {
        if state.has_file() {
            return self.keep_call::<SETTLES, T>(state, by, answer, None);
        }
        self.wake_next(state, true, by);
        (answer, 0)
    }

    /// Makes a call that may park the seat, or that of a parked seat again, as `change` does.
    #[inline]
    pub(crate) fn ask(&self, by: &Parker, ask: Ask, call: impl FnOnce(&mut Handle) -> u32) -> u32 {
        self.ask_as::<true>(by, ask, call).0
    }

    /// Makes such a call, as `change_as` does.
    #[inline]
    pub(crate) fn ask_as<const SETTLES: bool>(
        &self,
        by: &Parker,
        ask: Ask,
        call: impl FnOnce(&mut Handle) -> u32,
    ) -> (u32, u64) {
        let panicking = Panicking {
            board: self,
            by: Some(by),
        };
        let Some(mut state) = self.lock_for_call() else {
            mem::forget(panicking);
            return (code::FORKED, 0);
        };
        let code = state.ask_by(by, ask, call);
        mem::forget(panicking);
        if state.ends_at_once() {
            return (code, 0);
        }
        self.end_ask::<SETTLES>(state, by, ask.seat, ask.wait, code)
    }

    /// Ends such a call as `end_call` does.
    #[inline(never)]
    fn end_ask<const SETTLES: bool>(
        &self,
        state: Guard<'_, State<R>>,
        by: &Parker,
        seat: u64,
        before: Wait,
        code: u32,
    ) -> (u32, u64) {
        let wait = before.after(code);
        let waits = wait.has_begun();
        if state.has_file() {
            let wait = Some((seat, wait));
            if waits {
                // It has no answer yet.
                return self.keep_call::<false, u32>(state, Some(by), code, wait);
            }
            return self.keep_call::<SETTLES, u32>(state, Some(by), code, wait);
        }
        // A call that parks a free seat makes no seat due. If others were due before, a call that
        // wakes them is on its way.
        if waits && !before.has_begun() {
            return (code, 0);
        }
        self.wake_next(state, !waits, Some(by));
        (code, 0)
    }

    /// Unlocks the room, and then wakes the next seat that is due. If the call may have changed
    /// something, this also wakes the seat whose call is deferred.
    #[inline]
    fn wake_next(&self, mut state: Guard<'_, State<R>>, has_changed: bool, by: Option<&Parker>) {
        let (due, deferred) = self.next_woken(&mut state, has_changed);
        drop(state);
        self.wake_at(due, by);
        self.wake_at(deferred, by);
    }

    /// The places of the seats that such a call wakes. If it fails as stalled, this notes who waits.
    #[inline]
    fn next_woken(&self, state: &mut State<R>, has_changed: bool) -> (Option<u64>, Option<u64>) {
        let due = state.next_due();
        if !state.sees_to_waits() {
            return (due, None);
        }
        self.note_stalled(state);
        (due, has_changed.then(|| state.take_deferred()).flatten())
    }

    /// Ends a call on a switchboard whose journal has a file. Before the lock is free, the file has
    /// the call's entries. If it hasn't, this refuses the call, and a seat that is in this wait after
    /// it waits no longer. It settles the answer, or returns the position up to which it rests on the
    /// file.
    #[cold]
    fn keep_call<const SETTLES: bool, T: Outcome>(
        &self,
        mut state: Guard<'_, State<R>>,
        by: Option<&Parker>,
        answer: T,
        wait: Option<(u64, Wait)>,
    ) -> (T, u64) {
        let mut waits = wait.is_some_and(|(_, wait)| wait.has_begun());
        let answer = match state.note() {
            code::DONE => answer,
            // The threads that wait are the parent's.
            code::FORKED => return (T::refused(code::FORKED), 0),
            refusal => {
                if let Some((seat, wait)) = wait {
                    state.end_wait(seat, wait);
                    by.into_iter().for_each(Parker::gives_up);
                }
                waits = false;
                T::refused(refusal)
            }
        };
        let (due, deferred) = self.next_woken(&mut state, !waits);
        let (lost, position) = (state.newly_lost(), state.position());
        drop(state);
        match lost {
            0 => {
                self.wake_at(due, by);
                self.wake_at(deferred, by);
            }
            seats => self.wake_all(seats, by),
        }
        match SETTLES {
            true => (self.settled(position, answer), 0),
            false => (answer, position),
        }
    }

    /// This answer, once the file is on the disk up to this position. 0: it waits for nothing.
    #[inline]
    pub(crate) fn settled<T: Outcome>(&self, position: u64, answer: T) -> T {
        match position {
            0 => answer,
            _ => self.settle(position, answer),
        }
    }

    /// Blocks until the file is on the disk up to there, without the lock. If a sync fails, this
    /// refuses the answer, and all who wait fail too.
    #[cold]
    fn settle<T: Outcome>(&self, position: u64, answer: T) -> T {
        let code = self.file.as_ref().map_or(code::DONE, |opened| opened.file.wait(position));
        if code == code::DONE {
            return answer;
        }
        if code == code::FILE_LOST {
            let seats = self.lock().newly_lost();
            self.wake_all(seats, None);
        }
        T::refused(code)
    }

    /// Wakes this many seats: those that wait ask again, and their calls fail too.
    #[cold]
    fn wake_all(&self, seats: u64, by: Option<&Parker>) {
        for parker in (0..seats).filter_map(|place| self.parkers.get(place)) {
            parker.unpark(by);
        }
    }

    /// Looks at the room. Blocks until the disk has what was seen, if the file is kept there.
    pub(crate) fn look<T>(&self, look: impl FnOnce(&mut State<R>) -> T) -> Result<T, Error> {
        let mut state = self.locked()?;
        let seen = look(&mut state);
        if state.position() != 0 {
            // The file may have had no room for the entries of an earlier call.
            done(state.note())?;
        }
        let position = state.position();
        drop(state);
        self.settled(position, Ok(seen))
    }

    /// Looks so where no look can fail.
    ///
    /// # Panics
    ///
    /// In a child of a fork, if a file keeps the journal; and once a file is lost that is kept on the
    /// disk, since nobody knows what is there.
    pub(crate) fn looked_at<T>(&self, look: impl FnOnce(&mut State<R>) -> T) -> T {
        self.look(look).unwrap_or_else(|error| panic!("{error}"))
    }

    /// The room, for a call that makes no seat due and tells nothing of it. `Forked` in a child of a
    /// fork.
    pub(crate) fn locked(&self) -> Result<Guard<'_, State<R>>, Error> {
        match self.is_forked() {
            true => Err(Error::Forked),
            false => Ok(self.lock()),
        }
    }

    /// The room, where no child of a fork comes. A thread that panicked left it between two calls,
    /// where it is whole.
    #[inline]
    pub(crate) fn lock(&self) -> Guard<'_, State<R>> {
        self.try_lock().unwrap_or_else(|| self.lock_late())
    }

    /// The same for any call. `None`: this is a child of a fork, and another thread of its parent had
    /// the lock, maybe for ever. A child that finds it free is refused by the file.
    #[inline]
    fn lock_for_call(&self) -> Option<Guard<'_, State<R>>> {
        match self.try_lock() {
            None if self.is_forked() => None,
            None => Some(self.lock_late()),
            taken => taken,
        }
    }

    /// Whether a file keeps the journal, and this process is a child of that which opened it.
    #[cold]
    fn is_forked(&self) -> bool {
        self.file.as_ref().is_some_and(|file| file.is_forked())
    }

    /// The same, if no thread has the lock.
    #[inline]
    pub(super) fn try_lock(&self) -> Option<Guard<'_, State<R>>> {
        self.state.0.try_lock()
    }

    /// The same, if another thread had the lock just now. To sleep there and to be woken takes far
    /// longer than a call.
    #[cold]
    fn lock_late(&self) -> Guard<'_, State<R>> {
        backoff::look(PAUSES, SPINS, pass_by_yielding, YIELDS, || self.try_lock())
            .unwrap_or_else(|| self.state.0.lock())
    }

    /// Wakes the seat at this place, if a seat is due.
    #[inline]
    fn wake_at(&self, due: Option<u64>, by: Option<&Parker>) {
        if let Some(due) = due.and_then(|place| self.parkers.get(place)) {
            self.wake(due, by);
        }
    }

    /// Wakes a seat that is due. `by` is the parker of the calling seat, if a seat calls. A thread
    /// that is woken makes a call, which wakes the seat after. A task may be polled late, and one
    /// whose waker panics perhaps never. So after a task this wakes the next seat too, up to the
    /// first thread.
    fn wake(&self, due: &Parker, by: Option<&Parker>) {
        let mut next = Some(due);
        while let Some(due) = next {
            let woken = due.unpark(by);
            if let Some(by) = by {
                by.note_woken(due, &woken);
            }
            next = matches!(woken, Woken::Task).then(|| self.next_due()).flatten();
        }
    }

    fn next_due(&self) -> Option<&Parker> {
        let due = self.lock().next_due();
        due.and_then(|place| self.parkers.get(place))
    }
}

/// A call under the lock that hasn't returned. It is dropped only if a sink panics in the call. The
/// call may have made a seat due before, so this wakes the next one.
struct Panicking<'c, R: MessageKind> {
    board: &'c Switchboard<R>,
    by: Option<&'c Parker>,
}

impl<R: MessageKind> Drop for Panicking<'_, R> {
    #[cold]
    fn drop(&mut self) {
        self.board.wake_next(self.board.lock(), true, self.by);
    }
}
