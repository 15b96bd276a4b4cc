//! A program whose threads go in the order of a journal that another run has written.

mod entering;
mod feeds;
mod follower;
mod lanes;
mod line;
mod maker;
mod notes;
mod plan;
mod reran;
mod threads;
mod waits;

use super::conductor::Conductor;
use super::end::End;
use super::panics::keep_panics;
use super::play;
use crate::error::Error;
use crate::journal::checker::CheckError;
use crate::journal::Journal;
use crate::message::carries::MessageKind;
use crate::switchboard::Switchboard;
use follower::{Habits, TICK};
use plan::Plan;
use std::fmt;
use std::io::BufRead;
use std::panic::{catch_unwind, AssertUnwindSafe};
use std::sync::Arc;
use std::time::Duration;

pub(crate) use entering::Entering;
pub(crate) use follower::Follower;
pub(crate) use lanes::RerunLane;
pub(crate) use line::{bytes_of, word_of};
pub use reran::{Diverged, Reran, Stop};
pub(crate) use threads::panics;
pub(crate) use waits::{Caller, WaitKind, Waits};

/// How many entries the switchboard of a rerun takes: the journal's, and those after its end.
const MOST_ENTRIES: u64 = 1 << 32;

/// What becomes of calls after the last entry.
#[derive(Clone, Copy, Debug, PartialEq, Eq)]
pub(crate) enum AtEnd {
    Stop,
    GoOn,
}

/// A journal that is to be followed.
///
/// ```
/// use seryugo::explore::Rerun;
/// use seryugo::{Error, Numbers};
///
/// let journal = "journal 1\nseat 0 mailbox: made 0\nseat 0 send 0 5: done\nend 2\n";
/// let board = Rerun::<Numbers>::read(journal.as_bytes())?.board()?;
/// let mut seat = board.seat()?;
/// let mailbox = seat.mailbox()?;
/// seat.send(mailbox, 5)?;
/// assert_eq!(seat.recv(mailbox), Err(Error::RerunEnded));
/// let reran = board.reran().unwrap();
/// assert!(reran.is_followed());
/// assert_eq!(reran.stops()[0].to_string(), "seat 0 at recv 0");
/// # Ok::<(), Box<dyn std::error::Error>>(())
/// ```
#[must_use = "a journal does nothing before a program follows it"]
pub struct Rerun<R: MessageKind> {
    plan: Arc<Plan<R>>,
    habits: Habits,
}

/// Why a journal can't be followed.
///
/// ```
/// use seryugo::explore::{Rerun, RerunError};
/// use seryugo::{Bytes, Numbers};
///
/// let journal = "journal 1\nfrom 7\nseat 0 mailbox: made 0\nend 8\n".as_bytes();
/// let refused = Rerun::<Numbers>::read(journal).unwrap_err();
/// assert!(matches!(refused, RerunError::AfterCut(7)));
/// let refused = Rerun::<Bytes>::read(journal).unwrap_err();
/// assert!(matches!(refused, RerunError::OtherMessages));
/// ```
#[derive(Debug)]
#[non_exhaustive]
pub enum RerunError {
    /// The text has a fault, or isn't lawful, or can't be read.
    Check(CheckError),
    /// The journal begins at this position: what was before was cut away, or a switchboard goes on
    /// from it. Give the pieces before it too.
    AfterCut(u64),
    /// The messages are numbers, and the switchboard is one of bytes, or the other way round.
    OtherMessages,
    /// The library takes this line, and this crate doesn't know it.
    Unknown(String),
}

impl fmt::Display for RerunError {
    fn fmt(&self, f: &mut fmt::Formatter<'_>) -> fmt::Result {
        match self {
            RerunError::Check(error) => error.fmt(f),
            RerunError::AfterCut(position) => {
                write!(f, "the journal begins at position {position}, and not at 0")
            }
            RerunError::OtherMessages => CheckError::OtherMessages.fmt(f),
            RerunError::Unknown(line) => write!(f, "the line `{line}` is of an unknown kind"),
        }
    }
}

impl std::error::Error for RerunError {
    fn source(&self) -> Option<&(dyn std::error::Error + 'static)> {
        match self {
            RerunError::Check(error) => Some(error),
            _ => None,
        }
    }
}

/// Runs a program once, with threads of the system, in the order of a journal's text. See
/// [`Rerun`].
///
/// ```
/// use seryugo::explore::rerun;
/// use seryugo::{Numbers, Switchboard};
/// use std::sync::Arc;
/// use std::thread;
///
/// let program = |board: &Arc<Switchboard<Numbers>>| {
///     let mut receives = board.seat().unwrap();
///     let letters = receives.mailbox().unwrap();
///     let seats = [board.seat().unwrap(), board.seat().unwrap()];
///     thread::scope(|threads| {
///         for (letter, mut seat) in (0..).zip(seats) {
///             threads.spawn(move || seat.send(letters, letter).unwrap());
///         }
///     });
///     receives.recv(letters).unwrap()
/// };
/// let journal = "journal 1\nseat 0 mailbox: made 0\nseat 2 send 0 1: done\n\
///     seat 1 send 0 0: done\nseat 0 recv 0: 1\nend 4\n";
/// let reran = rerun(journal.as_bytes(), |board| assert_eq!(program(board), 1))?;
/// assert!(reran.is_followed(), "{reran}");
/// # Ok::<(), seryugo::explore::RerunError>(())
/// ```
///
/// # Errors
///
/// The journal can't be followed.
///
/// # Panics
///
/// As [`Rerun::run`].
pub fn rerun<R: MessageKind>(
    journal: impl BufRead,
    program: impl FnOnce(&Arc<Switchboard<R>>),
) -> Result<Reran, RerunError> {
    Ok(Rerun::read(journal)?.run(program))
}

impl<R: MessageKind> Rerun<R> {
    /// Reads a journal's text from its first piece on. If the text is torn, its whole lines are
    /// followed.
    ///
    /// # Errors
    ///
    /// The journal can't be followed.
    pub fn read(mut journal: impl BufRead) -> Result<Rerun<R>, RerunError> {
        let mut text = Vec::new();
        journal.read_to_end(&mut text).map_err(CheckError::Io)?;
        Ok(Rerun::of_plan(Plan::read(&text)?))
    }

    /// Follows a journal that was taken.
    ///
    /// ```
    /// use seryugo::explore::Rerun;
    /// use seryugo::Switchboard;
    ///
    /// let board = Switchboard::of_numbers(1_000)?;
    /// board.seat()?.mailbox()?;
    /// let rerun = Rerun::of(&board.take_journal()?)?;
    /// let reran = rerun.run(|board| drop(board.seat().unwrap().mailbox()));
    /// assert!(reran.is_followed(), "{reran}");
    /// # Ok::<(), Box<dyn std::error::Error>>(())
    /// ```
    ///
    /// # Errors
    ///
    /// [`AfterCut`](RerunError::AfterCut).
    pub fn of(journal: &Journal<R>) -> Result<Rerun<R>, RerunError> {
        match journal.first() {
            0 => Ok(Rerun::of_plan(Plan::new(journal))),
            first => Err(RerunError::AfterCut(first)),
        }
    }

    fn of_plan(plan: Plan<R>) -> Rerun<R> {
        let rerun = Rerun {
            plan: Arc::new(plan),
            habits: Habits {
                at_end: AtEnd::Stop,
                patience: 0,
                first_end: None,
            },
        };
        rerun.patience(Duration::from_secs(5))
    }

    /// After the last entry the calls go on freely. Until you say it, each fails with
    /// [`RerunEnded`](Error::RerunEnded).
    pub fn goes_on(mut self) -> Rerun<R> {
        self.habits.at_end = AtEnd::GoOn;
        self
    }

    /// A thread waits so long in vain before something is done: if the entry that is next is that
    /// of another seat of the same thread, the run isn't the journal's any more. Else a line on
    /// standard error says who waits. A call that may have timed out does so. Until you say it, it
    /// is five seconds. The thread counts its waits of ten milliseconds, and reads no clock.
    pub fn patience(mut self, patience: Duration) -> Rerun<R> {
        let ticks = patience.as_millis() / TICK.as_millis();
        self.habits.patience = u64::try_from(ticks).unwrap_or(u64::MAX).max(1);
        self
    }

    /// Says how the first run ended. If the journal is followed and the end is another, then
    /// [`Reran::beside`] says that something beside the board decides. It compares the calls of
    /// [`End::Stalled`], and whether there is the panic of [`End::Panicked`].
    pub fn ends_as(mut self, end: &End) -> Rerun<R> {
        self.habits.first_end = Some((end.clone(), false));
        self
    }

    /// The same of a run in which calls were let fail as stalled.
    pub(super) fn ends_as_told(mut self, end: &End) -> Rerun<R> {
        self.habits.first_end = Some((end.clone(), true));
        self
    }

    /// A switchboard whose calls are made in the order of the journal, for a program that makes its
    /// own: put it in place of [`Switchboard::new`]. Afterwards [`Switchboard::reran`] says how it
    /// went.
    ///
    /// # Errors
    ///
    /// Those of [`Switchboard::new`].
    pub fn board(&self) -> Result<Switchboard<R>, Error> {
        keep_panics();
        let follower = Follower::new(Arc::clone(&self.plan), self.habits.clone());
        let board = Switchboard::with_limit(MOST_ENTRIES)?;
        Ok(board.conducted_by(Conductor::Rerun(Arc::new(follower))))
    }

    /// Runs a program once, and waits until all of its seats have left. Its panics are printed as
    /// usual, and end here.
    ///
    /// # Panics
    ///
    /// If a thread of a program that is explored calls it, if the linked library isn't of this
    /// crate's version, or if it has no memory.
    pub fn run(&self, program: impl FnOnce(&Arc<Switchboard<R>>)) -> Reran {
        assert!(play::own().is_none(), "a program that is explored reruns another one");
        let board = Arc::new(self.board().expect("a switchboard"));
        let follower = Arc::clone(board.follower().expect("a rerun has it"));
        threads::calls_in(&follower.notes);
        // The panic is kept already.
        let _ = catch_unwind(AssertUnwindSafe(|| program(&board)));
        follower.wait_for_all();
        follower.ends();
        follower.reran()
    }
}

impl<R: MessageKind> fmt::Debug for Rerun<R> {
    fn fmt(&self, f: &mut fmt::Formatter<'_>) -> fmt::Result {
        f.debug_struct("Rerun").field("entries", &self.plan.entries.len()).finish_non_exhaustive()
    }
}

impl<R: MessageKind> Switchboard<R> {
    /// How the [rerun](crate::explore::Rerun) of this switchboard goes. `None` if it isn't rerun.
    ///
    /// ```
    /// assert!(seryugo::Switchboard::new(1_000)?.reran().is_none());
    /// # Ok::<(), seryugo::Error>(())
    /// ```
    pub fn reran(&self) -> Option<Reran> {
        Some(self.follower()?.reran())
    }
}
