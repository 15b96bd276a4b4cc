//! A call that waits, until it is answered or something else has come.

use std::future::Future;
use std::pin::pin;
use std::sync::Arc;
use std::task::{Context, Poll, Wake, Waker};
use std::thread::{self, Thread};

/// Wakes a thread that is parked.
struct Unparks(Thread);

impl Wake for Unparks {
    fn wake(self: Arc<Self>) {
        self.0.unpark();
    }

    fn wake_by_ref(self: &Arc<Self>) {
        self.0.unpark();
    }
}

/// Waits in one thread.
pub struct Waiter(Waker);

impl Waiter {
    pub fn new() -> Waiter {
        Waiter(Waker::from(Arc::new(Unparks(thread::current()))))
    }

    /// Waits for the future, in the thread that made the waiter. Returns `None` if `is_over` holds first: set what it reads, and
    /// unpark the thread.
    pub fn wait<F: Future>(&self, future: F, is_over: impl Fn() -> bool) -> Option<F::Output> {
        let mut context = Context::from_waker(&self.0);
        let mut future = pin!(future);
        while !is_over() {
            if let Poll::Ready(answer) = future.as_mut().poll(&mut context) {
                return Some(answer);
            }
            thread::park();
        }
        None
    }
}

#[cfg(test)]
mod tests {
    use super::*;
    use std::future::{pending, ready};
    use std::sync::atomic::{AtomicBool, Ordering};

    #[test]
    fn a_wait_ends_by_its_answer_or_by_the_flag() {
        let is_over = AtomicBool::new(false);
        let waiter = Waiter::new();
        assert_eq!(waiter.wait(ready(5), || is_over.load(Ordering::Acquire)), Some(5));
        let here = thread::current();
        let ended = thread::scope(|scope| {
            scope.spawn(|| {
                is_over.store(true, Ordering::Release);
                here.unpark();
            });
            waiter.wait(pending::<u64>(), || is_over.load(Ordering::Acquire))
        });
        assert_eq!(ended, None);
    }
}
