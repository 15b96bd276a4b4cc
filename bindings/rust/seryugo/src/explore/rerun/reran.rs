//! What a rerun has seen.

use super::line::name_of;
use crate::explore::{End, Waits};
use crate::journal::entry::Who;
use std::collections::BTreeSet;
use std::fmt;

/// How a rerun went. Its text is what a failing test shows.
#[derive(Clone, Debug, PartialEq, Eq)]
#[must_use = "see whether the journal was followed"]
pub struct Reran {
    pub(crate) entries: usize,
    pub(crate) followed: usize,
    pub(crate) diverged: Option<Diverged>,
    pub(crate) stops: Vec<Stop>,
    pub(crate) panics: Vec<String>,
    pub(crate) beside: Option<String>,
}

/// Where a run differs from the journal.
///
/// ```
/// use seryugo::explore::{rerun, Diverged};
/// use seryugo::{Numbers, Switchboard};
/// use std::sync::Arc;
///
/// let journal = "journal 1\nseat 0 mailbox: made 0\nseat 0 send 0 5: done\nend 2\n";
/// let reran = rerun(journal.as_bytes(), |board: &Arc<Switchboard<Numbers>>| {
///     let mut seat = board.seat().unwrap();
///     let mailbox = seat.mailbox().unwrap();
///     seat.send(mailbox, 6).unwrap_err();
/// })?;
/// let diverged = Diverged {
///     position: 1,
///     expected: "seat 0 send 0 5: done".to_string(),
///     found: "seat 0 send 0 6: done".to_string(),
/// };
/// assert_eq!(reran.diverged(), Some(&diverged));
/// # Ok::<(), seryugo::explore::RerunError>(())
/// ```
#[derive(Clone, Debug, PartialEq, Eq, Hash)]
pub struct Diverged {
    /// The position of the first entry that differs, counted from 0.
    pub position: u64,
    /// The journal's line there.
    pub expected: String,
    /// The line of the call that was made in its place, or what happened.
    pub found: String,
}

/// A call that would go on after the journal's last entry.
#[derive(Clone, Debug, PartialEq, Eq, PartialOrd, Ord, Hash)]
pub struct Stop {
    /// Who makes it.
    pub who: Who,
    /// The call with its object, in the journal's words.
    pub call: String,
    /// Whether it may block.
    pub(crate) blocks: bool,
}

impl Reran {
    /// Whether all entries were made again, each with its reply.
    #[must_use]
    pub fn is_followed(&self) -> bool {
        self.diverged.is_none() && self.followed == self.entries
    }

    /// Whether the journal was followed, and nothing that is known of the first run's end differs.
    #[must_use]
    pub fn is_same(&self) -> bool {
        self.is_followed() && self.beside.is_none()
    }

    /// How many entries were made again.
    #[must_use]
    pub fn followed(&self) -> usize {
        self.followed
    }

    /// Where the run was no longer the journal's.
    #[must_use]
    pub fn diverged(&self) -> Option<&Diverged> {
        self.diverged.as_ref()
    }

    /// The calls that would go on after the last entry, of each thread the first, by seats. So this
    /// is where the threads were as the first run ended.
    #[must_use]
    pub fn stops(&self) -> &[Stop] {
        &self.stops
    }

    /// Where and why threads panicked: those alone whose calls the rerun hadn't ended.
    #[must_use]
    pub fn panics(&self) -> &[String] {
        &self.panics
    }

    /// Why something beside the board decides what the threads do: the journal was followed, and
    /// the run ended in another way than the first one.
    #[must_use]
    pub fn beside(&self) -> Option<&str> {
        self.beside.as_deref()
    }

    /// Compares the end with how the first run ended. If calls were let fail as stalled there, a
    /// call that blocks is no difference.
    pub(crate) fn compared_with(mut self, end: &End, tells_stalls: bool) -> Reran {
        if self.is_followed() && !self.is_like(end, tells_stalls) {
            self.beside = Some(format!(
                "the journal was followed, and the first run ended otherwise: something beside the \
                 board decides. The first run ended so: {end}"
            ));
        }
        self
    }

    fn is_like(&self, end: &End, tells_stalls: bool) -> bool {
        match end {
            End::Done => {
                let may_be_told = |stop: &Stop| tells_stalls && stop.blocks;
                self.stops.iter().all(may_be_told) && self.panics.is_empty()
            }
            End::Panicked { message, .. } => self.panics.contains(message),
            End::Stalled { waits, free, .. } => {
                let waited: BTreeSet<Stop> = waits.iter().filter_map(Stop::of).collect();
                // Who joins others, or has another seat, goes on once a call has failed.
                let may_go_on = |stop: &Stop| free.iter().any(|seat| stop.who == Who::Seat(*seat));
                let mut others = self.stops.iter().filter(|stop| !waited.contains(stop));
                waited.iter().all(|stop| self.stops.contains(stop))
                    && others.all(|stop| may_go_on(stop) || (tells_stalls && stop.blocks))
            }
            _ => true,
        }
    }
}

impl Stop {
    /// A call at which a thread waited.
    fn of(waits: &Waits) -> Option<Stop> {
        Some(Stop {
            who: Who::Seat(waits.seat?),
            call: waits.call.clone()?,
            blocks: true,
        })
    }
}

impl fmt::Display for Reran {
    fn fmt(&self, f: &mut fmt::Formatter<'_>) -> fmt::Result {
        if let Some(diverged) = &self.diverged {
            diverged.fmt(f)?;
        } else {
            write!(f, "{} of {} entries were made again", self.followed, self.entries)?;
        }
        self.stops.iter().try_for_each(|stop| write!(f, "\n  {stop}"))?;
        self.panics.iter().try_for_each(|said| write!(f, "\n  a thread panicked at {said}"))?;
        match &self.beside {
            Some(beside) => write!(f, "\n{beside}"),
            None => Ok(()),
        }
    }
}

impl fmt::Display for Diverged {
    fn fmt(&self, f: &mut fmt::Formatter<'_>) -> fmt::Result {
        let Diverged {
            position,
            expected,
            found,
        } = self;
        write!(f, "the run isn't the journal's at position {position}: ")?;
        write!(f, "expected `{expected}`, found `{found}`")
    }
}

impl fmt::Display for Stop {
    fn fmt(&self, f: &mut fmt::Formatter<'_>) -> fmt::Result {
        write!(f, "{} at {}", name_of(self.who), self.call)
    }
}
