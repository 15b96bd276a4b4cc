//! Threads that begin together.

use std::sync::Barrier;
use std::thread;
use std::time::{Duration, Instant};

/// What one thread does.
pub type Job<'a> = Box<dyn FnOnce() + Send + 'a>;

/// Has a thread do each of these, and tells how long that takes from when all threads are there
/// until all are done. On a busy processor some may be done before another thread runs at all, so
/// the first that runs begins the time.
#[must_use]
pub fn timed(jobs: Vec<Job<'_>>) -> Duration {
    let gate = &Barrier::new(jobs.len());
    let begin_and_do = |job: Job<'_>| {
        gate.wait();
        let beginning = Instant::now();
        job();
        beginning
    };
    let beginning = thread::scope(|scope| {
        let threads: Vec<_> =
            jobs.into_iter().map(|job| scope.spawn(move || begin_and_do(job))).collect();
        threads.into_iter().map(|thread| thread.join().unwrap()).min()
    });
    beginning.map_or(Duration::ZERO, |beginning| beginning.elapsed())
}
