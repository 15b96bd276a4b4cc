//! What an exploration has found.

use super::end::End;
use super::rerun::{Reran, Rerun, RerunError};
use super::schedule::Schedule;
use crate::message::carries::MessageKind;
use crate::switchboard::Switchboard;
use std::fmt;
use std::sync::Arc;

/// What [`explore`](super::explore) has found. Its text is what a failing test shows.
#[derive(Clone, Debug)]
#[must_use = "see whether it is clean"]
pub struct Found {
    pub(crate) strategy: String,
    pub(crate) runs: u64,
    pub(crate) repeats: u64,
    pub(crate) is_whole: bool,
    pub(crate) beside: Option<String>,
    pub(crate) bad: Option<Bad>,
}

/// A run that ended badly.
#[derive(Clone, Debug)]
pub struct Bad {
    pub(crate) run: u64,
    pub(crate) end: End,
    pub(crate) schedule: String,
    pub(crate) journal: String,
    pub(crate) steps: u64,
}

impl Found {
    /// Whether no run ended badly.
    #[must_use]
    pub fn is_clean(&self) -> bool {
        self.bad.is_none()
    }

    /// Whether every order was run, or one like it. If some runs are missing, and none ended badly,
    /// give [`explore`](super::explore) more of them, or another [`Strategy`](super::Strategy).
    #[must_use]
    pub fn is_whole(&self) -> bool {
        self.is_whole
    }

    /// How many runs there were until the first bad one.
    #[must_use]
    pub fn runs(&self) -> u64 {
        self.runs
    }

    /// How many runs left the same as an earlier one.
    #[must_use]
    pub fn repeats(&self) -> u64 {
        self.repeats
    }

    /// Why something beside the board decides what the threads do. If it does,
    /// [`Strategy::every`](super::Strategy::every) goes on as [`every_plainly`](super::Strategy::every_plainly).
    #[must_use]
    pub fn beside(&self) -> Option<&str> {
        self.beside.as_deref()
    }

    /// The run that ended badly, if there was one.
    #[must_use]
    pub fn bad(&self) -> Option<&Bad> {
        self.bad.as_ref()
    }
}

impl Bad {
    /// Which run it was, from 1.
    #[must_use]
    pub fn run(&self) -> u64 {
        self.run
    }

    /// How it ended.
    #[must_use]
    pub fn end(&self) -> &End {
        &self.end
    }

    /// Who went on at each choice: [`again`](super::again) takes it.
    #[must_use]
    pub fn schedule(&self) -> &str {
        &self.schedule
    }

    /// The journal as text, as [`Journal::write_to`](crate::Journal::write_to) writes it.
    #[must_use]
    pub fn journal(&self) -> &str {
        &self.journal
    }

    /// Runs the program again with threads of the system, in the order of the journal, and compares
    /// the end. See [`Rerun`].
    ///
    /// ```
    /// use seryugo::explore::{explore, Strategy};
    /// use seryugo::Switchboard;
    /// use std::sync::Arc;
    ///
    /// let program = |board: &Arc<Switchboard>| {
    ///     let mut seat = board.seat().unwrap();
    ///     let letters = seat.mailbox::<String>().unwrap();
    ///     seat.recv(letters).unwrap();
    /// };
    /// let found = explore(Strategy::every(), 1_000, program);
    /// let reran = found.bad().unwrap().rerun(program)?;
    /// assert!(reran.is_same(), "{reran}");
    /// assert_eq!(reran.stops()[0].to_string(), "seat 0 at recv 0");
    /// # Ok::<(), seryugo::explore::RerunError>(())
    /// ```
    ///
    /// # Errors
    ///
    /// The journal can't be followed, as if the run ended before the library could write it.
    ///
    /// # Panics
    ///
    /// As [`Rerun::run`].
    pub fn rerun<R: MessageKind>(
        &self,
        program: impl FnOnce(&Arc<Switchboard<R>>),
    ) -> Result<Reran, RerunError> {
        let rerun = Rerun::read(self.journal.as_bytes())?;
        let rerun = match Schedule::read(&self.schedule) {
            Some(Schedule {
                tells_stalls: true, ..
            }) => rerun.ends_as_told(&self.end),
            _ => rerun.ends_as(&self.end),
        };
        Ok(rerun.run(program))
    }
}

impl fmt::Display for Found {
    fn fmt(&self, f: &mut fmt::Formatter<'_>) -> fmt::Result {
        if let Some(bad) = &self.bad {
            write!(f, "run {} of {}: {bad}", bad.run, self.strategy)?;
        } else {
            let runs = if self.runs == 1 { "run" } else { "runs" };
            write!(f, "no bad end in {} {runs} of {}", self.runs, self.strategy)?;
            f.write_str(if self.is_whole {
                ""
            } else {
                ", which were not all"
            })?;
        }
        match &self.beside {
            Some(beside) => write!(f, "\n{beside}"),
            None => Ok(()),
        }
    }
}

impl fmt::Display for Bad {
    fn fmt(&self, f: &mut fmt::Formatter<'_>) -> fmt::Result {
        let Bad {
            end,
            schedule,
            journal,
            ..
        } = self;
        writeln!(f, "{end}\nto run it again: explore::again(\"{schedule}\", program)")?;
        write!(f, "to rerun its journal with threads of the system: bad.rerun(program)\n{journal}")
    }
}
