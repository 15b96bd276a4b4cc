//! A value that threads share beside the switchboard.

use super::play;
use super::scope::aside;
use std::fmt;
use std::sync::atomic::{AtomicU64, Ordering};
use std::sync::{Mutex, PoisonError};

/// A value behind a lock, which threads share beside the switchboard. In an exploration each use is
/// a step, as [`aside`](super::aside) marks one. Otherwise it is a [`Mutex`].
///
/// ```
/// use seryugo::explore::{explore, scope, Shared, Strategy};
/// use seryugo::Switchboard;
/// use std::sync::Arc;
///
/// let found = explore(Strategy::every(), 100, |_: &Arc<Switchboard>| {
///     let count = Shared::new(0);
///     scope(|threads| {
///         for _ in 0..2 {
///             threads.spawn(|| {
///                 let seen = count.with(|count| *count);
///                 count.with(|count| *count = seen + 1);
///             });
///         }
///     });
///     assert_eq!(count.into_inner(), 2, "an update is lost");
/// });
/// assert!(found.to_string().contains("an update is lost"));
/// ```
pub struct Shared<T> {
    /// By which its steps are told from those of other values.
    number: u64,
    value: Mutex<T>,
}

/// Numbers from here on are those of values that a run of an exploration has made.
const MADE_IN_A_RUN: u64 = 3 << 62;

/// Each thread of a run has so many numbers, so that the order of the threads doesn't matter.
const OF_A_THREAD: u64 = 1 << 32;

/// Numbers from here on are those of other values. Lesser ones are the program's own.
const MADE_OUTSIDE: u64 = 1 << 63;

/// How many were made outside explorations.
static OTHERS: AtomicU64 = AtomicU64::new(0);

/// The number of the next value, lock or condition.
pub(super) fn next_number() -> u64 {
    match play::own() {
        Some((play, task)) => {
            MADE_IN_A_RUN + task as u64 * OF_A_THREAD + play.lock().next_shared(task)
        }
        None => MADE_OUTSIDE + OTHERS.fetch_add(1, Ordering::Relaxed),
    }
}

/// A number as a reader sees it: with its thread before it, if that isn't the first one.
pub(super) fn shown(number: u64) -> String {
    let Some(made) = number.checked_sub(MADE_IN_A_RUN) else {
        return number.checked_sub(MADE_OUTSIDE).unwrap_or(number).to_string();
    };
    match (made / OF_A_THREAD, made % OF_A_THREAD) {
        (0, own) => own.to_string(),
        (task, own) => format!("{task}.{own}"),
    }
}

impl<T> Shared<T> {
    /// A value that is shared. In a run of an exploration its number depends on the run alone.
    pub fn new(value: T) -> Shared<T> {
        Shared {
            number: next_number(),
            value: Mutex::new(value),
        }
    }

    /// Uses the value. No other thread does so meanwhile. Make no call of a switchboard in it: in
    /// an exploration another thread may wait for the value then, and never come back. A
    /// [`Lock`](super::Lock) may be had over calls.
    pub fn with<R>(&self, used: impl FnOnce(&mut T) -> R) -> R {
        aside(self.number);
        used(&mut self.value.lock().unwrap_or_else(PoisonError::into_inner))
    }

    /// The value, which nobody shares any more.
    pub fn into_inner(self) -> T {
        self.value.into_inner().unwrap_or_else(PoisonError::into_inner)
    }
}

impl<T: Default> Default for Shared<T> {
    fn default() -> Shared<T> {
        Shared::new(T::default())
    }
}

impl<T: fmt::Debug> fmt::Debug for Shared<T> {
    fn fmt(&self, f: &mut fmt::Formatter<'_>) -> fmt::Result {
        f.debug_tuple("Shared").field(&self.value).finish()
    }
}
