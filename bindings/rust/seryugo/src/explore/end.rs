//! How a run ends.

use std::fmt;

/// How a run of a program ends.
#[derive(Clone, Debug, PartialEq, Eq)]
#[non_exhaustive]
pub enum End {
    /// All threads came to their ends.
    Done,
    /// No thread can go on. These wait.
    Stalled {
        /// Each thread that waits, and at what.
        waits: Vec<Waits>,
        /// Whether one of these calls would fail with [`Stalled`](crate::Error::Stalled) outside an
        /// exploration. If not, all of them block for ever.
        fails_as_stalled: bool,
        /// The seats that are free, such as one of a thread that joins others. While there is one,
        /// no call fails with `Stalled`.
        free: Vec<u64>,
    },
    /// A thread panicked.
    Panicked {
        /// The thread's number. The first one has 0.
        thread: usize,
        /// Where it was, and what it said.
        message: String,
    },
    /// The journal was full.
    Full,
    /// The run was longer than the bound of steps.
    Endless {
        /// The bound.
        steps: u64,
        /// What the last steps were, each once.
        last: Vec<Waits>,
    },
    /// After the same choices as before, the program went on differently.
    NotDeterministic(String),
    /// A thread made a call that [`scope`](super::scope) hasn't started, or two threads shared a
    /// future.
    UnknownThread(String),
    /// The schedule isn't one of this program.
    Unfit(String),
}

/// A thread at a call.
#[derive(Clone, Debug, PartialEq, Eq)]
pub struct Waits {
    /// The thread's number. The first one has 0.
    pub thread: usize,
    /// The seat from which it calls.
    pub seat: Option<u64>,
    /// The call with its object, in the journal's words, or with its lane or feed. For a
    /// [`Lock`](super::Lock) also where it was made, and which thread has it. `None`: it joins
    /// threads.
    pub call: Option<String>,
}

impl End {
    /// Whether something is to be reported.
    pub(crate) fn is_bad(&self) -> bool {
        *self != End::Done
    }

    /// Whether the other end is as this one, whatever the numbers are.
    pub(crate) fn is_like(&self, other: &End) -> bool {
        match (self, other) {
            (End::Panicked { message, .. }, End::Panicked { message: other, .. }) => {
                message == other
            }
            _ => std::mem::discriminant(self) == std::mem::discriminant(other),
        }
    }
}

impl fmt::Display for Waits {
    fn fmt(&self, f: &mut fmt::Formatter<'_>) -> fmt::Result {
        write!(f, "thread {}", self.thread)?;
        match (self.seat, &self.call) {
            (Some(seat), Some(call)) => write!(f, " (seat {seat}) at {call}"),
            (None, Some(call)) => write!(f, " at {call}"),
            (_, None) => f.write_str(" joins other threads"),
        }
    }
}

impl fmt::Display for End {
    fn fmt(&self, f: &mut fmt::Formatter<'_>) -> fmt::Result {
        match self {
            End::Done => f.write_str("done"),
            End::Stalled {
                waits,
                fails_as_stalled,
                free,
            } => {
                f.write_str("stalled: no thread can go on\n")?;
                waits.iter().try_for_each(|waits| writeln!(f, "  {waits}"))?;
                f.write_str("outside an exploration ")?;
                f.write_str(match fails_as_stalled {
                    true => "one of these calls fails with `Stalled`",
                    false => "these calls block for ever, without `Stalled`: ",
                })?;
                match (fails_as_stalled, &free[..]) {
                    (true, _) => Ok(()),
                    (false, []) => {
                        f.write_str("a lane is open, a future waits, or somebody is awaited")
                    }
                    (false, [seat]) => write!(f, "seat {seat} is free"),
                    (false, seats) => write!(f, "the seats {seats:?} are free"),
                }
            }
            End::Panicked { thread, message } => write!(f, "thread {thread} panicked at {message}"),
            End::Full => f.write_str("the journal was full"),
            End::Endless { steps, last } => {
                writeln!(f, "no end within {steps} steps; the last ones were")?;
                let lines: Vec<String> = last.iter().map(|step| format!("  {step}")).collect();
                f.write_str(&lines.join("\n"))
            }
            End::NotDeterministic(why) | End::UnknownThread(why) | End::Unfit(why) => {
                f.write_str(why)
            }
        }
    }
}
