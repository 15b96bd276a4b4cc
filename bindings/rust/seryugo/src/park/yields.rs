//! How a thread that looks lets others run, while that is short.

use crate::park::cache_padded::CachePadded;
use std::sync::atomic::{AtomicU64, Ordering};
use std::sync::OnceLock;
use std::thread;
use std::time::{Duration, Instant};

/// A yield that takes longer has let another thread compute for a whole time slice. Threads that
/// only call and look take less, even if many take their turns.
const LONG: Duration = Duration::from_millis(1);
/// After a long yield no thread yields for this many times as long. So long yields take a small part
/// of the time.
const REST: u32 = 16;

/// What the threads of this process know of yields.
static YIELDS: CachePadded<Yields> = CachePadded(Yields::new());

/// Lets other threads run, if yields are short: whether this one was. If not, the caller is not to
/// yield again in its wait.
pub(crate) fn pass_by_yielding() -> bool {
    YIELDS.0.are_short_at(now) && {
        let begun = now();
        thread::yield_now();
        let ended = now();
        YIELDS.0.note(begun, ended)
    }
}

/// Since a thread of this process first yielded.
fn now() -> Duration {
    static FIRST: OnceLock<Instant> = OnceLock::new();
    FIRST.get_or_init(Instant::now).elapsed()
}

/// On a busy machine a yield gives up the whole time slice. So once a yield was long, no thread
/// yields for a while.
struct Yields {
    /// Until then no thread yields, in nanoseconds. 0 if no yield was long before.
    rest_until: AtomicU64,
}

impl Yields {
    const fn new() -> Yields {
        Yields {
            rest_until: AtomicU64::new(0),
        }
    }

    /// Whether a thread may yield.
    fn are_short_at(&self, now: impl FnOnce() -> Duration) -> bool {
        let until = self.rest_until.load(Ordering::Relaxed);
        until == 0 || now() >= Duration::from_nanos(until)
    }

    /// A thread has yielded from then until now: whether that was short.
    fn note(&self, begun: Duration, ended: Duration) -> bool {
        let taken = ended.saturating_sub(begun);
        let is_short = taken < LONG;
        if !is_short {
            let until = ended.saturating_add(taken.saturating_mul(REST));
            self.rest_until
                .store(until.as_nanos().try_into().unwrap_or(u64::MAX), Ordering::Relaxed);
        }
        is_short
    }
}

#[cfg(test)]
mod tests {
    use super::*;

    #[test]
    fn after_a_long_yield_none_is_made_for_a_while() {
        let yields = Yields::new();
        let at = Duration::from_millis;
        let are_short = |ms| yields.are_short_at(|| at(ms));
        assert!(are_short(0));
        assert!(yields.note(at(10), at(10)));
        assert!(are_short(10));
        assert!(!yields.note(at(10), at(14)));
        assert!(!are_short(14) && !are_short(14 + 4 * 16 - 1));
        assert!(are_short(14 + 4 * 16));
        assert!(yields.note(at(300), at(300)));
        assert!(are_short(300));
    }

    #[test]
    fn the_clock_may_go_back() {
        let yields = Yields::new();
        assert!(yields.note(Duration::from_secs(5), Duration::from_secs(4)));
        assert!(yields.are_short_at(|| Duration::ZERO));
    }
}
