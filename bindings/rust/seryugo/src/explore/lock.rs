//! A lock that threads may have over calls, and its conditions.

use super::board::Pass;
use super::play::{self, Play};
use super::shared::next_number;
use super::step::StepKind;
use std::fmt;
use std::ops::{Deref, DerefMut};
use std::panic::Location;
use std::sync::{Arc, Condvar, Mutex, MutexGuard, PoisonError};
use std::thread;
use std::time::Duration;

/// A lock that a thread may have over calls of the switchboard. It is a [`Mutex`] without poison.
///
/// In an exploration [`lock`](Lock::lock) is a step, which is made once the lock is free. Threads
/// that wait for each other's locks end a run as [`End::Stalled`](super::End::Stalled), with where
/// each lock was made and who has it. Elsewhere it costs a branch more than a [`Mutex`].
///
/// A journal doesn't have who had a lock. So a [`rerun`](super::rerun) may diverge if threads have
/// one over calls.
///
/// ```
/// use seryugo::explore::{explore, scope, Lock, Strategy};
/// use seryugo::Switchboard;
/// use std::sync::Arc;
///
/// let found = explore(Strategy::every(), 100, |_: &Arc<Switchboard>| {
///     let (left, right) = (Lock::new(()), Lock::new(()));
///     scope(|threads| {
///         threads.spawn(|| {
///             let _left = left.lock();
///             let _right = right.lock();
///         });
///         threads.spawn(|| {
///             let _right = right.lock();
///             let _left = left.lock();
///         });
///     });
/// });
/// assert!(found.to_string().contains("which thread 2 has"), "{found}");
/// ```
pub struct Lock<T> {
    made: Made,
    value: Mutex<T>,
}

/// The value of a [`Lock`] that a thread has. If it is dropped, the lock is free.
#[must_use = "the lock is free again if this is dropped"]
pub struct Guard<'l, T> {
    // It is dropped before the exploration gets to know it.
    value: MutexGuard<'l, T>,
    held: Option<Held>,
    lock: &'l Lock<T>,
}

/// What threads wait for that have a [`Lock`]. It is a [`Condvar`].
///
/// In an exploration the beginning of a wait, its end, and each notification are steps. A
/// notification wakes any one of those that wait. The time of a wait passes if no thread can go on,
/// or as [`Strategy::time_outs`](super::Strategy::time_outs) says. A program with conditions has more runs.
///
/// ```
/// use seryugo::explore::{scope, Condition, Lock};
///
/// let (is_open, opened) = (Lock::new(false), Condition::new());
/// scope(|threads| {
///     threads.spawn(|| drop(opened.wait_while(is_open.lock(), |is_open| !*is_open)));
///     *is_open.lock() = true;
///     opened.notify_all();
/// });
/// ```
pub struct Condition {
    made: Made,
    condvar: Condvar,
}

/// What an exploration knows of a lock or a condition.
#[derive(Clone, Copy)]
struct Made {
    number: u64,
    at: &'static Location<'static>,
}

/// Its thread has a lock in an exploration.
struct Held {
    play: Arc<Play>,
    lock: u64,
}

impl Made {
    #[track_caller]
    fn here() -> Made {
        Made {
            number: next_number(),
            at: Location::caller(),
        }
    }

    /// If the thread is one of an exploration, it makes this step once it may.
    #[inline]
    fn pass(self, kind: StepKind, is_timed: bool) -> Option<(Arc<Play>, Pass)> {
        play::own().map(|(play, _)| {
            play.lock().locks.note(self.number, self.at);
            let pass = play.pass_beside(kind.on(self.number), is_timed);
            (play, pass)
        })
    }
}

impl<T> Lock<T> {
    /// A lock that is free.
    #[track_caller]
    pub fn new(value: T) -> Lock<T> {
        Lock {
            made: Made::here(),
            value: Mutex::new(value),
        }
    }

    /// Blocks until no thread has the lock, and takes it. A thread that takes it twice blocks for
    /// ever. If a thread panics that has it, the value stays as it is.
    #[inline]
    pub fn lock(&self) -> Guard<'_, T> {
        let passed = self.made.pass(StepKind::Lock, false);
        self.held_by(passed.map(|(play, _)| play))
    }

    fn held_by(&self, play: Option<Arc<Play>>) -> Guard<'_, T> {
        let lock = self.made.number;
        Guard {
            value: self.value.lock().unwrap_or_else(PoisonError::into_inner),
            held: play.map(|play| Held { play, lock }),
            lock: self,
        }
    }

    /// The value, which nobody shares any more.
    pub fn into_inner(self) -> T {
        self.value.into_inner().unwrap_or_else(PoisonError::into_inner)
    }
}

impl Condition {
    /// A condition for which no thread waits.
    #[must_use]
    #[track_caller]
    pub fn new() -> Condition {
        Condition {
            made: Made::here(),
            condvar: Condvar::new(),
        }
    }

    /// Blocks while this holds. The lock is free meanwhile. It looks again after each notification.
    pub fn wait_while<'l, T>(
        &self,
        guard: Guard<'l, T>,
        holds: impl FnMut(&mut T) -> bool,
    ) -> Guard<'l, T> {
        if guard.held.is_some() {
            return self.wait_explored(guard, false, holds).0;
        }
        let value = self.condvar.wait_while(guard.value, holds);
        let value = value.unwrap_or_else(PoisonError::into_inner);
        Guard { value, ..guard }
    }

    /// As [`wait_while`](Condition::wait_while), but no longer than this. Also returns whether the
    /// time has passed and it still holds. That of [`Duration::MAX`] never passes.
    pub fn wait_timeout_while<'l, T>(
        &self,
        guard: Guard<'l, T>,
        longest: Duration,
        mut holds: impl FnMut(&mut T) -> bool,
    ) -> (Guard<'l, T>, bool) {
        if guard.held.is_none() {
            let waited = self.condvar.wait_timeout_while(guard.value, longest, holds);
            let (value, timed) = waited.unwrap_or_else(PoisonError::into_inner);
            return (Guard { value, ..guard }, timed.timed_out());
        }
        if longest.is_zero() {
            let mut guard = guard;
            let is_late = holds(&mut guard);
            return (guard, is_late);
        }
        self.wait_explored(guard, longest < Duration::MAX, holds)
    }

    /// The same in an exploration.
    fn wait_explored<'l, T>(
        &self,
        mut guard: Guard<'l, T>,
        is_timed: bool,
        mut holds: impl FnMut(&mut T) -> bool,
    ) -> (Guard<'l, T>, bool) {
        while holds(&mut guard) {
            if guard.is_of_stopped_run() && thread::panicking() {
                // A destructor doesn't block.
                return (guard, true);
            }
            let lock = guard.lock;
            self.made.pass(StepKind::Await, false);
            drop(guard);
            let passed = lock.made.pass(StepKind::Relock, is_timed);
            let is_late = matches!(passed, Some((_, Pass::TimedOut)));
            guard = lock.held_by(passed.map(|(play, _)| play));
            if is_late {
                let still = holds(&mut guard);
                return (guard, still);
            }
        }
        (guard, false)
    }

    /// Wakes one thread that waits, if there is one.
    pub fn notify_one(&self) {
        self.made.pass(StepKind::NotifyOne, false);
        self.condvar.notify_one();
    }

    /// Wakes all threads that wait.
    pub fn notify_all(&self) {
        self.made.pass(StepKind::NotifyAll, false);
        self.condvar.notify_all();
    }
}

impl<T> Guard<'_, T> {
    fn is_of_stopped_run(&self) -> bool {
        self.held.as_ref().is_some_and(|held| held.play.is_stopped())
    }
}

impl Drop for Held {
    fn drop(&mut self) {
        self.play.release(self.lock);
    }
}

impl<T> Deref for Guard<'_, T> {
    type Target = T;

    fn deref(&self) -> &T {
        &self.value
    }
}

impl<T> DerefMut for Guard<'_, T> {
    fn deref_mut(&mut self) -> &mut T {
        &mut self.value
    }
}

impl<T: Default> Default for Lock<T> {
    #[track_caller]
    fn default() -> Lock<T> {
        Lock::new(T::default())
    }
}

impl Default for Condition {
    #[track_caller]
    fn default() -> Condition {
        Condition::new()
    }
}

impl<T: fmt::Debug> fmt::Debug for Lock<T> {
    fn fmt(&self, f: &mut fmt::Formatter<'_>) -> fmt::Result {
        f.debug_tuple("Lock").field(&self.value).finish()
    }
}

impl<T: fmt::Debug> fmt::Debug for Guard<'_, T> {
    fn fmt(&self, f: &mut fmt::Formatter<'_>) -> fmt::Result {
        self.value.fmt(f)
    }
}

impl fmt::Debug for Condition {
    fn fmt(&self, f: &mut fmt::Formatter<'_>) -> fmt::Result {
        f.debug_struct("Condition").finish_non_exhaustive()
    }
}
