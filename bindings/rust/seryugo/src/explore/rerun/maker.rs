//! A seat, a lane or a feed that has entries in the journal.

use super::plan::NEVER;
use super::threads::NOBODY;
use std::sync::atomic::{AtomicBool, AtomicU64, AtomicUsize, Ordering};
use std::sync::{Mutex, MutexGuard, PoisonError};
use std::thread::{self, Thread};

/// A seat, a lane or a feed that has entries in the journal.
pub(crate) struct Maker {
    /// The position of its next entry, or `NEVER`. It changes while that entry is made.
    next: AtomicUsize,
    /// The number of the thread that called by it last.
    user: AtomicU64,
    /// Whether a thread sleeps until its entry is next.
    sleeps: AtomicBool,
    /// Whether it makes no more calls.
    has_left: AtomicBool,
    notes: Mutex<MakerNotes>,
}

#[derive(Default)]
struct MakerNotes {
    sleeper: Option<Thread>,
    /// Its last call, if that was refused: it has no entry.
    refused: Option<String>,
    /// How it has left.
    left: Option<String>,
}

impl Maker {
    /// One whose first entry has this position.
    pub fn new(first: usize) -> Maker {
        Maker {
            next: AtomicUsize::new(first),
            user: AtomicU64::new(NOBODY),
            sleeps: AtomicBool::new(false),
            has_left: AtomicBool::new(false),
            notes: Mutex::default(),
        }
    }

    fn lock(&self) -> MutexGuard<'_, MakerNotes> {
        self.notes.lock().unwrap_or_else(PoisonError::into_inner)
    }

    #[inline]
    pub fn next(&self) -> Option<usize> {
        let next = self.next.load(Ordering::Acquire);
        (next != NEVER).then_some(next)
    }

    #[inline]
    pub fn set_next(&self, next: usize) {
        self.next.store(next, Ordering::Release);
    }

    #[inline]
    pub fn used_by(&self, thread: u64) {
        self.user.store(thread, Ordering::Relaxed);
    }

    /// Whether this thread has called by it last. Of one that nobody has used yet it is `false`.
    pub fn is_used_by(&self, thread: u64) -> bool {
        thread != NOBODY && self.user.load(Ordering::Relaxed) == thread
    }

    /// The thread is about to sleep. After this it looks once more whether it has to.
    pub fn begins_to_sleep(&self) {
        self.lock().sleeper = Some(thread::current());
        self.sleeps.store(true, Ordering::SeqCst);
    }

    pub fn is_awake(&self) {
        self.sleeps.store(false, Ordering::Relaxed);
    }

    /// Wakes the thread that sleeps until its entry is next.
    #[inline]
    pub fn wake(&self) {
        if self.sleeps.load(Ordering::SeqCst) {
            if let Some(thread) = &self.lock().sleeper {
                thread.unpark();
            }
        }
    }

    /// Its call was refused, which this text says.
    pub fn refused(&self, call: String) {
        self.lock().refused = Some(call);
    }

    /// It leaves, as this text says. Returns the text, with the call that was refused before.
    pub fn leaves(&self, how: &str) -> String {
        let mut notes = self.lock();
        let left = match notes.refused.take() {
            Some(refused) => format!("{refused}; {how}"),
            None => how.to_string(),
        };
        notes.left = Some(left.clone());
        self.has_left.store(true, Ordering::SeqCst);
        left
    }

    /// How it has left.
    #[inline]
    pub fn left(&self) -> Option<String> {
        let has_left = self.has_left.load(Ordering::SeqCst);
        has_left.then(|| self.lock().left.clone()).flatten()
    }
}
