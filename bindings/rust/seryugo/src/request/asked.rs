//! Whether an asker still waits for its answer, and for how long.

use crate::message::carries::Bytes;
use crate::request::Asker;
use crate::seat::owned::Holds;
use crate::seat::Seat;
use crate::switchboard::Switchboard;
use std::sync::atomic::{AtomicU64, Ordering};
use std::sync::{Arc, OnceLock};
use std::time::{Duration, Instant};

/// The question that is asked by a mailbox for answers. Its seat writes it, and servers read it. Each
/// question has another number, so that a reader sees if it has changed meanwhile.
#[derive(Default)]
pub(crate) struct Asked {
    /// The number of the question that has no answer yet, or 0.
    question: AtomicU64,
    /// When its asker gives up, in nanoseconds. `NEVER`: it doesn't.
    deadline: AtomicU64,
}

const NEVER: u64 = u64::MAX;

/// What all deadlines are counted from.
fn first_instant() -> Instant {
    static FIRST: OnceLock<Instant> = OnceLock::new();
    *FIRST.get_or_init(Instant::now)
}

impl Asked {
    /// The asker begins to wait.
    fn begin(&self, question: u64, deadline: Option<Instant>) {
        let nanoseconds = |deadline: Instant| {
            let later = deadline.saturating_duration_since(first_instant());
            u64::try_from(later.as_nanos()).unwrap_or(NEVER)
        };
        self.question.store(0, Ordering::SeqCst);
        self.deadline.store(deadline.map_or(NEVER, nanoseconds), Ordering::SeqCst);
        self.question.store(question, Ordering::SeqCst);
    }

    /// The asker waits no longer.
    pub fn end(&self) {
        self.question.store(0, Ordering::SeqCst);
    }

    /// The deadline of this question, if its asker still waits.
    fn deadline_of(&self, question: u64) -> Option<u64> {
        let is_asked = || self.question.load(Ordering::SeqCst) == question;
        let before = is_asked();
        let deadline = self.deadline.load(Ordering::SeqCst);
        (before && is_asked()).then_some(deadline)
    }
}

/// A question that is asked until this is dropped.
pub(crate) struct Asking(Arc<Asked>);

impl Asking {
    pub fn begin(asked: &Arc<Asked>, question: u64, deadline: Option<Instant>) -> Asking {
        asked.begin(question, deadline);
        Asking(Arc::clone(asked))
    }
}

impl Drop for Asking {
    fn drop(&mut self) {
        self.0.end();
    }
}

impl Switchboard {
    /// The deadline of the question of this asker, if it still waits.
    pub(crate) fn deadline_of<A>(&self, asker: &Asker<A>) -> Option<u64> {
        self.pass_to_look(asker.mailbox());
        self.locked().ok()?.asked.get(&asker.mailbox())?.deadline_of(asker.question())
    }

    pub(crate) fn gives_up_at<A>(&self, asker: &Asker<A>) -> Option<Instant> {
        match self.deadline_of(asker)? {
            NEVER => None,
            deadline => first_instant().checked_add(Duration::from_nanos(deadline)),
        }
    }
}

/// # Before you answer
///
/// So a server that is slow skips questions whose askers have given up. They know the requests of this
/// switchboard alone: after a restore, and if another program has sent the request, nobody waits.
impl<A> Asker<A> {
    /// Returns whether the asker still waits for the answer. It never blocks. An asker whose future was
    /// forgotten (`mem::forget`) waits until its seat asks again or leaves.
    ///
    /// ```
    /// use seryugo::{Error, Request};
    /// use std::time::Duration;
    ///
    /// # let board = seryugo::Switchboard::new(1_000)?;
    /// let (mut ann, mut ben) = (board.seat()?, board.seat()?);
    /// let doubles = ben.mailbox::<Request<u64, u64>>()?;
    /// assert!(ann.request_timeout(doubles, 4, Duration::from_millis(1)).is_err());
    /// let Request { asker, .. } = ben.recv(doubles)?;
    /// assert!(!asker.is_waiting(&ben));
    /// # Ok::<(), Error>(())
    /// ```
    #[must_use]
    pub fn is_waiting<H: Holds<Bytes>>(&self, seat: &Seat<'_, Bytes, H>) -> bool {
        seat.board.deadline_of(self).is_some()
    }

    /// Returns when the asker gives up. It never blocks. `None`: it has no time limit, or
    /// [waits](Asker::is_waiting) no longer.
    ///
    /// ```
    /// use seryugo::Request;
    /// use std::time::{Duration, Instant};
    ///
    /// # fn main() -> Result<(), seryugo::Error> {
    /// # let board = seryugo::Switchboard::new(1_000)?;
    /// let (mut ann, mut ben) = (board.seat()?, board.seat()?);
    /// let doubles = ben.mailbox::<Request<u64, u64>>()?;
    /// let deadline = Instant::now() + Duration::from_secs(60);
    /// std::thread::scope(|scope| {
    ///     scope.spawn(move || ann.request_deadline(doubles, 4, deadline).map_err(|_| ()));
    ///     let Request { question, asker } = ben.recv(doubles)?;
    ///     assert_eq!(asker.gives_up_at(&ben), Some(deadline));
    ///     Ok(asker.answer(&mut ben, 2 * question)?)
    /// })
    /// # }
    /// ```
    #[must_use]
    pub fn gives_up_at<H: Holds<Bytes>>(&self, seat: &Seat<'_, Bytes, H>) -> Option<Instant> {
        seat.board.gives_up_at(self)
    }
}
