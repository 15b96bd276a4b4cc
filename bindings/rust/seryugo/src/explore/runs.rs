//! The runs of an exploration.

use super::board::Board;
use super::choose::Chooser;
use super::conductor::Conductor;
use super::end::End;
use super::found::{Bad, Found};
use super::history::History;
use super::panics::keep_panics;
use super::pinned::Pinned;
use super::play::{self, Play};
use super::schedule::Schedule;
use super::shorten::shortened;
use super::state::State;
use super::strategy::{Order, Strategy};
use super::worker::Slot;
use crate::message::carries::MessageKind;
use crate::switchboard::Switchboard;
use std::mem;
use std::panic::{catch_unwind, AssertUnwindSafe};
use std::sync::Arc;

/// Runs a program until a run ends badly, every order was run, or there were this many runs.
///
/// The program is given a new switchboard in each run. It starts its threads by
/// [`scope`](super::scope). It must be deterministic: if the threads go on in the same order, it
/// must make the same calls.
///
/// ```
/// use seryugo::explore::{self, explore, Strategy};
/// use seryugo::Switchboard;
/// use std::sync::Arc;
///
/// let found = explore(Strategy::every(), 1_000, |board: &Arc<Switchboard>| {
///     let (mut ann, mut ben) = (board.seat().unwrap(), board.seat().unwrap());
///     let letters = ben.mailbox::<String>().unwrap();
///     explore::scope(|threads| {
///         threads.spawn(move || ann.send(letters, "Dear Ben").unwrap());
///         threads.spawn(move || assert_eq!(ben.recv(letters).unwrap(), "Dear Ben"));
///     });
/// });
/// assert!(found.is_clean() && found.is_whole(), "{found}");
/// ```
///
/// # Panics
///
/// If a thread of a program that is explored calls it, if the linked library isn't of this crate's
/// version, or if it has no memory.
pub fn explore<R: MessageKind>(
    strategy: Strategy,
    runs: u64,
    program: impl Fn(&Arc<Switchboard<R>>),
) -> Found {
    let explorer = Explorer::new(strategy);
    let mut found = explorer.explore(runs, &program);
    let mut strategy = explorer.strategy.clone();
    strategy.limits.polls_are_steps = explorer.play.lock().limits.polls_are_steps;
    drop(explorer);
    found.bad = found.bad.map(|bad| shortened(&strategy, bad, &program));
    found
}

/// Runs a program once, by a schedule that [`Bad::schedule`](super::Bad::schedule) has. Panics are
/// printed as usual.
///
/// ```
/// use seryugo::explore::{again, explore, Strategy};
/// use seryugo::Switchboard;
/// use std::sync::Arc;
///
/// let program = |board: &Arc<Switchboard>| {
///     let mut seat = board.seat().unwrap();
///     let letters = seat.mailbox::<String>().unwrap();
///     seat.recv(letters).unwrap();
/// };
/// let found = explore(Strategy::every(), 1_000, program);
/// let schedule = found.bad().unwrap().schedule();
/// assert_eq!(again(schedule, program).bad().unwrap().end(), found.bad().unwrap().end());
/// ```
///
/// # Panics
///
/// As [`explore`], and if it isn't a line that a schedule was written as.
pub fn again<R: MessageKind>(schedule: &str, program: impl Fn(&Arc<Switchboard<R>>)) -> Found {
    explore(Strategy::again(schedule), 1, program)
}

/// An exploration, from its caller's side.
pub(super) struct Explorer {
    strategy: Strategy,
    pub(super) play: Arc<Play>,
    main: Arc<Slot>,
    _pinned: Pinned,
}

/// One run, as it ended.
pub(super) struct Run {
    pub end: End,
    /// Whether it left the same as a run before.
    pub is_repeat: bool,
}

impl Explorer {
    pub fn new(strategy: Strategy) -> Explorer {
        assert!(play::own().is_none(), "a program that is explored explores another one");
        keep_panics();
        let state = State::new(strategy.chooser(), strategy.limits);
        Explorer {
            play: Play::new(state, strategy.patience, strategy.is_again()),
            main: Slot::of_this_thread(),
            _pinned: Pinned::new(),
            strategy,
        }
    }

    fn explore<R: MessageKind>(&self, most: u64, program: &impl Fn(&Arc<Switchboard<R>>)) -> Found {
        let mut found = Found {
            strategy: self.strategy.to_string(),
            runs: 0,
            repeats: 0,
            is_whole: false,
            beside: None,
            bad: None,
        };
        while found.runs < most && !found.is_whole {
            let run = self.run(found.runs, program);
            if self.begins_again(&found) {
                continue;
            }
            found.runs += 1;
            found.repeats += u64::from(run.is_repeat);
            if run.end.is_bad() {
                found.bad = Some(self.bad(found.runs, run.end));
            }
            let is_anew = self.looks_beside(&mut found);
            if found.bad.is_some() {
                break;
            }
            found.is_whole = !is_anew && !self.next_run();
        }
        found
    }

    /// Runs the program once.
    pub fn run<R: MessageKind>(&self, run: u64, program: &impl Fn(&Arc<Switchboard<R>>)) -> Run {
        let limits = self.strategy.limits;
        let board = Switchboard::<R>::with_limit(limits.entries).expect("a switchboard");
        let board = match limits.open_waits_stall {
            true => board.open_waits_stall(),
            false => board,
        };
        let board = Arc::new(board.conducted_by(Conductor::Exploration(Arc::clone(&self.play))));
        self.play.lock().begin(Arc::clone(&board) as Arc<dyn Board>, &self.main, run);
        play::enter(&self.play, 0);
        let ended = catch_unwind(AssertUnwindSafe(|| program(&board)));
        let end = self.play.end_run(ended);
        play::leave();
        let is_repeat = self.play.lock().chooser.tree().is_some_and(super::tree::Tree::is_repeat);
        Run { end, is_repeat }
    }

    /// If something beside the board decides, this begins again, plainly. Returns whether it does.
    fn looks_beside(&self, found: &mut Found) -> bool {
        let mut state = self.play.lock();
        if state.beside.is_none() || found.beside.is_some() {
            return false;
        }
        found.beside.clone_from(&state.beside);
        state.chooser = self.chooser(found);
        true
    }

    /// If the run was stopped since polls are steps from now on, this begins again. Returns whether
    /// it does.
    fn begins_again(&self, found: &Found) -> bool {
        let mut state = self.play.lock();
        if !mem::take(&mut state.begins_again) {
            return false;
        }
        // What threads did before is another history.
        state.history = History::default();
        state.beside.clone_from(&found.beside);
        state.chooser = self.chooser(found);
        true
    }

    /// How choices are made from now on.
    fn chooser(&self, found: &Found) -> Chooser {
        let mut strategy = self.strategy.clone();
        if found.beside.is_some() {
            strategy.order = Order::Every { sleeps: false };
        }
        strategy.chooser()
    }

    /// Whether there is another run.
    pub fn next_run(&self) -> bool {
        self.play.lock().chooser.next_run()
    }

    /// A run that has ended so.
    pub fn bad(&self, run: u64, end: End) -> Bad {
        let schedule = self.schedule().to_string();
        let state = self.play.lock();
        Bad {
            run,
            end,
            schedule,
            journal: state.text.clone(),
            steps: state.steps,
        }
    }

    /// The schedule of the last run.
    pub fn schedule(&self) -> Schedule {
        self.play.lock().schedule()
    }
}

impl Drop for Explorer {
    fn drop(&mut self) {
        self.play.end();
    }
}
