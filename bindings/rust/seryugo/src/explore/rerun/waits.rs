//! When a thread that waits for its entry gives up.

use super::follower::{Follower, TICK};
use super::line::{line_of, name_of};
use super::maker::Maker;
use super::threads::NOBODY;
use crate::explore::step::{Step, StepKind};
use crate::journal::entry::Who;
use crate::message::carries::MessageKind;
use std::fmt;
use std::io::{self, Write};

/// What a thread waits for.
pub(crate) struct Waits {
    pub caller: Caller,
    pub kind: WaitKind,
    /// The number of the thread.
    pub thread: u64,
}

/// Who makes a call, and which call.
#[derive(Clone, Copy)]
pub(crate) struct Caller {
    pub who: Who,
    pub step: Step,
}

impl Caller {
    pub fn of_seat(seat: u64, step: Step) -> Caller {
        Caller {
            who: Who::Seat(seat),
            step,
        }
    }
}

impl Waits {
    /// A seat of this thread waits for what has no entry.
    pub fn of_seat(seat: u64) -> Waits {
        Waits {
            caller: Caller::of_seat(seat, StepKind::Mailbox.makes()),
            kind: WaitKind::MayPass,
            thread: NOBODY,
        }
    }
}

/// What becomes of the call if its entry never is next.
#[derive(Clone, Copy, PartialEq, Eq)]
pub(crate) enum WaitKind {
    /// It always has an entry.
    Made,
    /// It may block, and fails as stalled if nobody else can go on.
    Blocks,
    /// Its time may pass, or it may find nothing.
    MayPass,
    /// It waits until messages of its lane have moved.
    Moves,
}

/// How long nothing has changed.
pub(crate) struct Still {
    cursor: usize,
    pub ticks: u64,
}

impl Still {
    pub fn at(cursor: usize) -> Still {
        Still { cursor, ticks: 0 }
    }

    /// A tick has passed.
    pub fn ticks_at(&mut self, cursor: usize) {
        self.ticks = if cursor == self.cursor {
            self.ticks + 1
        } else {
            0
        };
        self.cursor = cursor;
    }
}

/// A thread whose own other seat is next waits so much shorter.
const SHORTER: u64 = 100;

impl<R: MessageKind> Follower<R> {
    /// Whether a thread that waits has waited in vain.
    pub(super) fn gives_up(&self, maker: Option<&Maker>, waits: &Waits, still: &Still) -> bool {
        let Some(next) = self.next_entry() else {
            return false;
        };
        let other = &self.makers[next.maker];
        let is_own = other.is_used_by(waits.thread);
        let is_to_come = self.is_to_come(next.entry.who);
        let is_long = still.ticks >= self.habits.patience;
        let is_short = still.ticks > self.habits.patience / SHORTER;
        let makes_none = maker.and_then(Maker::next).is_none();
        match waits.kind {
            WaitKind::MayPass => is_long || (is_short && is_own),
            // Another thread may be about to make the seat.
            WaitKind::Blocks if makes_none && is_to_come => is_long,
            WaitKind::Moves if is_own => is_long,
            _ if is_long && is_own => {
                let found = format!("{}, from the thread of the entry that is next", waits.caller);
                self.diverge(self.cursor(), found);
                false
            }
            _ => {
                if is_long && self.reports(self.cursor()) {
                    self.report(waits);
                }
                false
            }
        }
    }

    fn report(&self, waits: &Waits) {
        let Some(next) = self.next_entry() else {
            return;
        };
        // If a test doesn't end and its output is kept, this text says why.
        let _ = writeln!(
            io::stderr(),
            "rerun: for {:?} nobody has made the entry at position {}, `{}`. {} waits for its own \
             entry.",
            TICK * u32::try_from(self.habits.patience).unwrap_or(u32::MAX),
            self.cursor(),
            line_of(&next.entry),
            waits.caller
        );
    }
}

impl fmt::Display for Caller {
    fn fmt(&self, f: &mut fmt::Formatter<'_>) -> fmt::Result {
        write!(f, "{} {}", name_of(self.who), self.step)
    }
}
