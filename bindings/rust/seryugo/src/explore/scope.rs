//! The threads of a program.

use super::play::{self, Play};
use super::state::Joins;
use super::step::StepKind;
use std::fmt;
use std::io;
use std::marker::PhantomData;
use std::mem;
use std::sync::{Arc, Mutex, PoisonError};
use std::thread;

/// Where threads are started. They end before [`scope`] returns.
///
/// A thread can't borrow what the body of [`scope`] owns, which goes before the thread ends:
///
/// ```compile_fail,E0373
/// seryugo::explore::scope(|threads| {
///     let number = 5;
///     threads.spawn(|| assert_eq!(number, 5));
/// });
/// ```
#[derive(Clone, Copy)]
pub struct Scope<'scope, 'env: 'scope> {
    threads: &'scope thread::Scope<'scope, 'env>,
    /// The number of its exploration, and its number there.
    explored: Option<(u64, u64)>,
}

/// A thread that was started in a [`Scope`].
pub struct Thread<'scope, T> {
    kind: Started<'scope, T>,
}

enum Started<'scope, T> {
    Free(thread::ScopedJoinHandle<'scope, T>),
    Explored {
        play: Arc<Play>,
        task: usize,
        /// What it has returned.
        returned: Arc<Mutex<Option<T>>>,
        scope: PhantomData<&'scope ()>,
    },
}

/// Starts threads, and waits for them. It is [`std::thread::scope`], and in an exploration it lets
/// one thread run at a time. So your program's own code may use it.
///
/// ```
/// use seryugo::{explore, Switchboard};
///
/// # fn main() -> Result<(), seryugo::Error> {
/// let board = Switchboard::new(1_000)?;
/// let (mut ann, mut ben) = (board.seat()?, board.seat()?);
/// let letters = ben.mailbox::<String>()?;
/// explore::scope(|threads| {
///     threads.spawn(move || ann.send(letters, "Dear Ben"));
///     let received = threads.spawn(move || ben.recv(letters));
///     assert_eq!(received.join().unwrap()?, "Dear Ben");
///     Ok(())
/// })
/// # }
/// ```
pub fn scope<'env, T>(body: impl for<'scope> FnOnce(Scope<'scope, 'env>) -> T) -> T {
    thread::scope(|threads| match play::own() {
        None => body(Scope {
            threads,
            explored: None,
        }),
        Some((play, task)) => play.scope(task, |number| {
            body(Scope {
                threads,
                explored: Some((play.number, number)),
            })
        }),
    })
}

/// Says that the thread uses what lies beside the board under this number: a lock, an atomic, a
/// file. In an exploration it is a step: the threads are run in every order of such steps.
/// Otherwise it does nothing.
///
/// ```
/// use seryugo::explore;
/// use std::sync::atomic::{AtomicBool, Ordering};
///
/// let is_full = AtomicBool::new(false);
/// explore::aside(0);
/// is_full.store(true, Ordering::SeqCst);
/// ```
pub fn aside(number: u64) {
    if let Some((play, _)) = play::own() {
        play.pass_beside(StepKind::Aside.on(number), false);
    }
}

impl<'scope> Scope<'scope, '_> {
    /// Starts a thread.
    ///
    /// ```
    /// let sum = seryugo::explore::scope(|threads| {
    ///     let three = threads.spawn(|| 3);
    ///     four() + three.join().unwrap()
    /// });
    /// assert_eq!(sum, 7);
    /// # fn four() -> u64 { 4 }
    /// ```
    pub fn spawn<T: Send + 'scope>(
        self,
        job: impl FnOnce() -> T + Send + 'scope,
    ) -> Thread<'scope, T> {
        let Some((play, scope)) = self.own() else {
            return Thread {
                kind: Started::Free(self.threads.spawn(job)),
            };
        };
        Thread::explored(play, scope, job)
    }

    /// Starts a thread that this builder describes: its name, and how much stack it has. In an
    /// exploration neither matters.
    ///
    /// ```
    /// # fn main() -> std::io::Result<()> {
    /// let small = std::thread::Builder::new().stack_size(128 << 10);
    /// seryugo::explore::scope(|threads| threads.spawn_as(small, || ()).map(drop))
    /// # }
    /// ```
    ///
    /// # Errors
    ///
    /// The system starts no more threads.
    pub fn spawn_as<T: Send + 'scope>(
        self,
        builder: thread::Builder,
        job: impl FnOnce() -> T + Send + 'scope,
    ) -> io::Result<Thread<'scope, T>> {
        let Some((play, scope)) = self.own() else {
            let kind = Started::Free(builder.spawn_scoped(self.threads, job)?);
            return Ok(Thread { kind });
        };
        Ok(Thread::explored(play, scope, job))
    }

    /// The exploration that has this scope, if the calling thread is one of it, and the scope's
    /// number there.
    fn own(self) -> Option<(Arc<Play>, u64)> {
        let ((number, scope), (play, _)) = self.explored.zip(play::own())?;
        (play.number == number).then_some((play, scope))
    }
}

impl<'scope, T: Send + 'scope> Thread<'scope, T> {
    /// A thread that an exploration starts.
    fn explored(
        play: Arc<Play>,
        scope: u64,
        job: impl FnOnce() -> T + Send + 'scope,
    ) -> Thread<'scope, T> {
        let returned = Arc::new(Mutex::new(None));
        let to = Arc::clone(&returned);
        let run: Box<dyn FnOnce() + Send + 'scope> = Box::new(move || {
            let value = job();
            *to.lock().unwrap_or_else(PoisonError::into_inner) = Some(value);
        });
        // SAFETY: the box has the same layout. What it borrows is there until `scope` returns, and
        // `Play::scope` waits there until the job was run or dropped, also if the body panics.
        let run: Box<dyn FnOnce() + Send> = unsafe { mem::transmute(run) };
        let task = play.start(scope, run);
        Thread {
            kind: Started::Explored {
                play,
                task,
                returned,
                scope: PhantomData,
            },
        }
    }
}

impl<T> Thread<'_, T> {
    /// Waits for the thread's end, and returns what it returned.
    ///
    /// ```
    /// let panicked = seryugo::explore::scope(|threads| threads.spawn(|| panic!("no")).join());
    /// assert!(panicked.is_err());
    /// ```
    ///
    /// # Errors
    ///
    /// The thread's panic. In an exploration the run ends there.
    pub fn join(self) -> thread::Result<T> {
        let (play, task, returned) = match self.kind {
            Started::Free(thread) => return thread.join(),
            Started::Explored {
                play,
                task,
                returned,
                ..
            } => (play, task, returned),
        };
        if let Some((_, own)) = play::own() {
            play.join(own, Joins::Task(task));
        }
        play.unwind_if_stopped();
        let returned = returned.lock().unwrap_or_else(PoisonError::into_inner).take();
        returned.ok_or_else(|| Box::new("the run is stopped") as Box<_>)
    }
}

impl fmt::Debug for Scope<'_, '_> {
    fn fmt(&self, f: &mut fmt::Formatter<'_>) -> fmt::Result {
        f.debug_struct("Scope").finish_non_exhaustive()
    }
}

impl<T> fmt::Debug for Thread<'_, T> {
    fn fmt(&self, f: &mut fmt::Formatter<'_>) -> fmt::Result {
        f.debug_struct("Thread").finish_non_exhaustive()
    }
}
