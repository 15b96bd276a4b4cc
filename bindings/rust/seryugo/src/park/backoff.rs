//! How a thread looks for what it waits for, before it sleeps.

use std::hint;
use std::sync::atomic::{AtomicU16, AtomicU8, Ordering};
use std::sync::OnceLock;
use std::thread;

/// The backoff of a wait of which nothing is known. The looks take less time than to wake a thread.
pub(crate) type ShortBackoff = Backoff<7>;

/// The backoff of a wait whose answer may be near: the thread's last call has woken a thread that
/// slept, or the one that had woken it. So two threads that answer each other don't sleep at each
/// turn. With 7 yields they took twice as long.
pub(crate) type LongBackoff = Backoff<30>;

/// What a thread does between its later looks: whether it is to look on.
pub(crate) type Pass = fn() -> bool;

/// So often a thread spins before it looks for a wake: for one pause, and then for twice as many
/// each time.
const SPINS: u32 = 5;
/// In this many waits a thread doesn't look, at the most. With 64 two threads that answer each other
/// slept now and then.
const MOST_WITHOUT: u16 = 16;

/// A thread that waits looks at a state. It looks again after each of `SPINS` spins, and then after
/// each of `YIELDS` yields, or of as many spins if it has a time limit. Once it has looked in vain,
/// it doesn't look in its next waits: in one, and then in twice as many each time. For that thread
/// alone.
pub(crate) struct Backoff<const YIELDS: u32> {
    without: AtomicU16,
    left: AtomicU16,
}

impl<const YIELDS: u32> Backoff<YIELDS> {
    pub fn new() -> Self {
        Backoff {
            without: AtomicU16::new(0),
            left: AtomicU16::new(0),
        }
    }

    /// Whether the thread looks in this wait. If not, it counts the wait.
    pub fn is_due(&self) -> bool {
        let left = self.left.load(Ordering::Relaxed);
        if left != 0 {
            self.left.store(left - 1, Ordering::Relaxed);
        }
        left == 0
    }

    /// Whether the state is this before the last look. Before each look the thread spins, or it
    /// passes in that way.
    pub fn look_until(&self, state: &AtomicU8, this: u8, pass: Pass) -> bool {
        let is_seen = || (state.load(Ordering::Acquire) == this).then_some(());
        if is_seen().or_else(|| look(1, SPINS, pass, YIELDS, is_seen)).is_some() {
            self.without.store(0, Ordering::Relaxed);
            return true;
        }
        self.rest();
        false
    }

    fn rest(&self) {
        let without = (2 * self.without.load(Ordering::Relaxed)).clamp(1, MOST_WITHOUT);
        self.without.store(without, Ordering::Relaxed);
        self.left.store(without, Ordering::Relaxed);
    }
}

/// What the first look sees that sees anything. Before each of the first looks the thread spins:
/// for this many pauses, and then for twice as many each time. Before each of the others it passes,
/// until that tells it to stop.
pub(crate) fn look<T>(
    pauses: u32,
    spins: u32,
    pass: Pass,
    passes: u32,
    mut see: impl FnMut() -> Option<T>,
) -> Option<T> {
    if is_alone() {
        return None;
    }
    for doublings in 0..spins {
        spin(pauses << doublings);
        if let Some(seen) = see() {
            return Some(seen);
        }
    }
    for _ in 0..passes {
        if !pass() {
            return see();
        }
        if let Some(seen) = see() {
            return Some(seen);
        }
    }
    None
}

/// Spins in place of a yield. A thread that has a time limit does so: on a busy machine a yield may
/// end long after the limit.
pub(crate) fn pass_by_spinning() -> bool {
    spin(64);
    true
}

fn spin(pauses: u32) {
    for _ in 0..pauses {
        hint::spin_loop();
    }
}

/// Whether the process has one processor. There a thread that looks keeps the processor from the
/// one that it waits for. With yields a token round 63 threads took four times as long.
fn is_alone() -> bool {
    static IS_ALONE: OnceLock<bool> = OnceLock::new();
    *IS_ALONE.get_or_init(|| {
        thread::available_parallelism().is_ok_and(|processors| processors.get() == 1)
    })
}
