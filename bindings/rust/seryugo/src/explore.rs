//! Runs a program of threads in many orders, finds one in which it fails, and runs that one again.
//!
//! A test hands [`explore`] a program: a closure that makes seats on the switchboard it is given,
//! and starts threads by [`scope`]. The program is run many times, one thread of it at a time. What
//! a thread does between two calls is one piece. At each call it is open which thread goes on.
//!
//! ```
//! use seryugo::explore::{self, Strategy};
//! use seryugo::Switchboard;
//! use std::sync::Arc;
//!
//! let found = explore::explore(Strategy::every(), 1_000, |board: &Arc<Switchboard>| {
//!     let mut seat = board.seat().unwrap();
//!     let account = seat.mvar_init(100).unwrap();
//!     explore::scope(|threads| {
//!         for sum in [10, 20] {
//!             let mut seat = board.seat().unwrap();
//!             threads.spawn(move || {
//!                 let held = seat.get(account).unwrap();
//!                 seat.swap(account, held + sum).unwrap();
//!             });
//!         }
//!     });
//!     assert_eq!(seat.take(account).unwrap(), 130, "a payment is lost");
//! });
//! let bad = found.bad().unwrap();
//! assert!(found.to_string().contains("a payment is lost"));
//! assert_eq!(bad.schedule(), "122");
//! ```
//!
//! The text of what was found has the end of the bad run, its schedule, and its journal. A test
//! that is to stay clean says `assert!(found.is_clean(), "{found}")`.
//!
//! [`rerun`] runs a program with threads of the system, in the order of a journal that another run
//! wrote: one that was explored, or one in production.
//!
//! `docs/EXPLORE.md` says what is explored and what is not: above all, mark by [`aside`] what
//! threads share beside the switchboard.

mod board;
mod choose;
mod clock;
#[cfg(test)]
mod comparison;
mod conductor;
mod end;
mod found;
mod history;
mod lock;
mod moves;
mod panics;
mod pinned;
mod play;
mod races;
mod rerun;
mod runs;
mod schedule;
mod scope;
mod shared;
mod shorten;
mod state;
mod step;
mod strategy;
mod tree;
mod worker;

pub(crate) use board::Pass;
pub(crate) use conductor::Conductor;
pub(crate) use rerun::{bytes_of, word_of, RerunLane};
pub(crate) use step::{Step, StepKind};

pub use end::{End, Waits};
pub use found::{Bad, Found};
pub use lock::{Condition, Guard, Lock};
pub use rerun::{rerun, Diverged, Reran, Rerun, RerunError, Stop};
pub use runs::{again, explore};
pub use scope::{aside, scope, Scope, Thread};
pub use shared::Shared;
pub use strategy::Strategy;
#[allow(deprecated)]
pub use strategy::Way;
