//! What a rerun knows of the thread that runs this.

use super::notes::Notes;
use std::cell::{Cell, RefCell};
use std::sync::atomic::{AtomicU64, Ordering};
use std::sync::Arc;

/// The number of no thread.
pub(crate) const NOBODY: u64 = 0;

static THREADS: AtomicU64 = AtomicU64::new(NOBODY + 1);

thread_local! {
    static OWN: Own = Own {
        number: THREADS.fetch_add(1, Ordering::Relaxed),
        rerun: Cell::new(0),
        notes: RefCell::new(None),
        is_stopped: Cell::new(false),
        said: RefCell::new(None),
    };
}

struct Own {
    number: u64,
    /// The number of the rerun that it called in last, and what that keeps.
    rerun: Cell<u64>,
    notes: RefCell<Option<Arc<Notes>>>,
    /// Whether that rerun has ended a call of it.
    is_stopped: Cell<bool>,
    /// What its last panic said.
    said: RefCell<Option<String>>,
}

/// The thread calls in this rerun: its number.
#[inline]
pub(crate) fn calls_in(notes: &Arc<Notes>) -> u64 {
    OWN.with(|own| {
        if own.rerun.get() != notes.number {
            own.rerun.set(notes.number);
            own.is_stopped.set(false);
            own.notes.replace(Some(Arc::clone(notes)));
            own.said.replace(None);
        }
        own.number
    })
}

/// The rerun has ended a call of this thread. Returns whether it is the first one.
pub(crate) fn is_stopped_first() -> bool {
    OWN.with(|own| !own.is_stopped.replace(true))
}

/// The thread panics, and this is where and why. A panic after the rerun has ended a call is no
/// news.
pub(crate) fn panics(said: &str) {
    // A thread at its end has lost what it knew, and makes no call.
    let _ = OWN.try_with(|own| {
        // The scope's panic follows that of a thread.
        if own.is_stopped.get() || said.ends_with(": a scoped thread panicked") {
            return;
        }
        let Ok(notes) = own.notes.try_borrow() else {
            return;
        };
        if let Some(notes) = &*notes {
            notes.panicked(said);
            own.said.replace(Some(said.to_string()));
        }
    });
}

/// What the thread's last panic said.
pub(crate) fn said() -> Option<String> {
    OWN.try_with(|own| own.said.borrow().clone()).ok().flatten()
}
