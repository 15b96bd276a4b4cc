//! The threads that run a program's threads, in all runs of an exploration.

use super::play::{enter, Play, Stopped};
use std::any::Any;
use std::panic::{catch_unwind, AssertUnwindSafe};
use std::sync::atomic::{AtomicBool, Ordering};
use std::sync::{Arc, Mutex, OnceLock, PoisonError};
use std::thread::{self, JoinHandle, Thread};
use std::time::Duration;

/// What a thread of the program runs, and its number there.
pub(crate) struct Job {
    pub task: usize,
    pub run: Box<dyn FnOnce() + Send>,
}

/// How a thread of the program has ended.
pub(crate) type Ended = Result<(), Box<dyn Any + Send>>;

/// What a thread waits by for its turn. Each wake is for one turn, and is used up by it.
#[derive(Default)]
pub(crate) struct Slot {
    go: AtomicBool,
    thread: OnceLock<Thread>,
    job: Mutex<Option<Job>>,
    is_over: AtomicBool,
}

impl Slot {
    /// That of the thread that runs this.
    pub fn of_this_thread() -> Arc<Slot> {
        let slot = Slot::default();
        let _ = slot.thread.set(thread::current());
        Arc::new(slot)
    }

    pub fn wake(&self) {
        self.go.store(true, Ordering::Release);
        if let Some(thread) = self.thread.get() {
            thread.unpark();
        }
    }

    /// Waits until it is woken, but no longer than this. Returns whether it was.
    pub fn wait(&self, patience: Duration) -> bool {
        if !self.go.swap(false, Ordering::Acquire) {
            thread::park_timeout(patience);
            return self.go.swap(false, Ordering::Acquire);
        }
        true
    }

    /// The thread runs this when it is woken.
    pub fn give(&self, job: Job) {
        *self.job.lock().unwrap_or_else(PoisonError::into_inner) = Some(job);
    }

    fn take(&self) -> Option<Job> {
        self.job.lock().unwrap_or_else(PoisonError::into_inner).take()
    }
}

/// A thread that runs one thread of a program after the other.
pub(crate) struct Worker {
    pub slot: Arc<Slot>,
    thread: JoinHandle<()>,
}

impl Worker {
    pub fn new(play: Arc<Play>) -> Worker {
        let slot = Arc::new(Slot::default());
        let own = Arc::clone(&slot);
        let thread = thread::spawn(move || work(&play, &own));
        let _ = slot.thread.set(thread.thread().clone());
        Worker { slot, thread }
    }

    /// Ends the thread, which waits for a job.
    pub fn end(self) {
        self.slot.is_over.store(true, Ordering::Release);
        self.slot.wake();
        // It ends by no panic.
        let _ = self.thread.join();
    }
}

fn work(play: &Arc<Play>, slot: &Slot) {
    loop {
        while !slot.wait(Duration::MAX) {}
        if slot.is_over.load(Ordering::Acquire) {
            return;
        }
        if let Some(job) = slot.take() {
            enter(play, job.task);
            let ended = run(play, job.run);
            play.finish(job.task, ended);
        }
    }
}

/// Runs a thread of a program. If the run is stopped, it drops what it would run.
fn run(play: &Play, job: Box<dyn FnOnce() + Send>) -> Ended {
    if play.is_stopped() {
        return catch_unwind(AssertUnwindSafe(|| drop(job)));
    }
    catch_unwind(AssertUnwindSafe(job))
}

/// Whether it ended since its run was stopped.
pub(crate) fn was_stopped(panic: &(dyn Any + Send)) -> bool {
    panic.is::<Stopped>()
}
