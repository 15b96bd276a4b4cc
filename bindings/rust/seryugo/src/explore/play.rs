//! A run that is explored: one of its threads runs at a time, and hands its turn over at each step.

use super::board::{Board, Pass};
use super::end::End;
use super::panics::said;
use super::state::{Joins, Polled, State, Watched};
use super::step::{Step, NONE};
use super::worker::{was_stopped, Ended, Job, Worker};
use std::any::Any;
use std::cell::RefCell;
use std::io::{self, Write};
use std::panic::{catch_unwind, resume_unwind, AssertUnwindSafe};
use std::sync::atomic::{AtomicU64, Ordering};
use std::sync::{Arc, Mutex, MutexGuard, PoisonError};
use std::thread;
use std::time::Duration;
use std::{mem, process};

/// What a thread unwinds with if its run is stopped.
pub(crate) struct Stopped;

/// An exploration, from its threads' side.
pub(crate) struct Play {
    pub number: u64,
    state: Mutex<State>,
    /// If a thread has its turn for so long, it is reported.
    patience: Duration,
    /// Whether a panic is printed as usual.
    pub is_loud: bool,
}

/// How many explorations there were.
static PLAYS: AtomicU64 = AtomicU64::new(0);

thread_local! {
    /// The exploration of which this is a thread, and its number there.
    static OWN: RefCell<Option<(Arc<Play>, usize)>> = const { RefCell::new(None) };
    /// What the thread's last panic said.
    static SAID: RefCell<Option<String>> = const { RefCell::new(None) };
}

/// From now on this thread is that one of the exploration.
pub(crate) fn enter(play: &Arc<Play>, task: usize) {
    OWN.set(Some((Arc::clone(play), task)));
    SAID.set(None);
}

pub(crate) fn leave() {
    OWN.set(None);
}

/// The exploration of which this is a thread, and its number there.
#[inline]
pub(crate) fn own() -> Option<(Arc<Play>, usize)> {
    match PLAYS.load(Ordering::Relaxed) {
        0 => None,
        _ => OWN.with_borrow(Clone::clone),
    }
}

/// Whether this thread's panics are kept, and if so, whether they are printed too.
pub(crate) fn keeps_panics() -> Option<bool> {
    let is_loud = |own: &RefCell<Option<(Arc<Play>, usize)>>| {
        own.try_borrow().ok()?.as_ref().map(|(play, _)| play.is_loud)
    };
    OWN.try_with(is_loud).ok().flatten()
}

/// Keeps where a panic was, and what it said.
pub(crate) fn keep_said(said: String) {
    let _ = SAID.try_with(|kept| kept.replace(Some(said)));
}

impl Play {
    pub fn new(state: State, patience: Duration, is_loud: bool) -> Arc<Play> {
        Arc::new(Play {
            number: PLAYS.fetch_add(1, Ordering::Relaxed),
            state: Mutex::new(state),
            patience,
            is_loud,
        })
    }

    pub fn lock(&self) -> MutexGuard<'_, State> {
        self.state.lock().unwrap_or_else(PoisonError::into_inner)
    }

    pub fn is_stopped(&self) -> bool {
        self.lock().end.is_some()
    }

    /// The number of the thread that runs this, if it is one of this exploration.
    fn task(&self) -> Option<usize> {
        OWN.with_borrow(|own| match own {
            Some((play, task)) if play.number == self.number => Some(*task),
            _ => None,
        })
    }

    /// The calling thread is about to make a step, and waits until it may.
    #[cold]
    pub fn pass(&self, board: &dyn Board, seat: u64, step: Step, is_timed: bool) -> Pass {
        let mut state = self.lock();
        if !state.is_on(board) {
            // The switchboard's run is over, and it is one as any other.
            return Pass::Go;
        }
        if let Some(task) = self.task_in(&mut state, seat, step) {
            state.arrive(task, seat, step, is_timed);
            state = self.hand_over(state, task);
            if state.end.is_none() {
                return state.tasks[task].pass;
            }
        }
        drop(state);
        unwind(board, step)
    }

    /// The calling thread is about to make a step beside the board, and waits until it may.
    #[cold]
    pub fn pass_beside(&self, step: Step, is_timed: bool) -> Pass {
        let board = self.lock().board.clone();
        board.map_or(Pass::Go, |board| self.pass(&*board, NONE, step, is_timed))
    }

    /// The calling thread lets this lock go.
    #[cold]
    pub fn release(&self, lock: u64) {
        if let Some(task) = self.task() {
            self.lock().release(task, lock);
        }
    }

    /// The calling thread polls a future that calls so. `None`: the future isn't answered, and is to
    /// be polled again.
    #[cold]
    pub fn poll(&self, board: &dyn Board, seat: u64, step: Step) -> Option<Pass> {
        let mut state = self.lock();
        if !state.is_on(board) {
            return Some(Pass::Go);
        }
        if let Some(task) = self.task_in(&mut state, seat, step) {
            match state.poll(task, seat, step) {
                Polled::Pending => return None,
                Polled::Answered => (),
                Polled::Waits => state = self.hand_over(state, task),
            }
            if state.end.is_none() {
                let is_answered = state.is_polled(task, seat);
                return is_answered.then_some(state.tasks[task].pass);
            }
        }
        drop(state);
        Some(unwind(board, step))
    }

    /// A future of this seat is dropped that has no answer.
    #[cold]
    pub fn withdraw(&self, board: &dyn Board, seat: u64) {
        let mut state = self.lock();
        if state.is_on(board) && state.end.is_none() {
            state.withdraw(seat);
        }
    }

    /// The number of the thread that runs this. `None`: the run is stopped, also since the thread
    /// isn't one of this exploration.
    fn task_in(&self, state: &mut State, seat: u64, step: Step) -> Option<usize> {
        let task = self.task();
        if task.is_none() {
            let who = match seat {
                NONE => "a thread".to_string(),
                seat => format!("seat {seat}"),
            };
            state.stop(End::UnknownThread(format!(
                "{who} calls {step} from a thread that the exploration doesn't know: start threads \
                 by `explore::scope`"
            )));
        }
        task.filter(|_| state.end.is_none())
    }

    /// The calling thread's last step was answered by this, which has no entry.
    #[cold]
    pub fn saw(&self, board: &dyn Board, answer: u64) {
        let mut state = self.lock();
        if let Some(task) = self.task().filter(|_| state.is_on(board) && state.end.is_none()) {
            state.saw(task, answer);
        }
    }

    /// The calling thread makes a step that no other one sees.
    #[cold]
    pub fn count(&self, board: &dyn Board, step: Step) {
        let mut state = self.lock();
        if !state.is_on(board) {
            return;
        }
        if let Some(task) = self.task_in(&mut state, NONE, step) {
            match state.count(task, step) {
                Ok(()) => return,
                Err(end) => state.stop(end),
            }
        }
        drop(state);
        unwind(board, step);
    }

    /// Gives the turn away, and returns once this thread has it again.
    fn hand_over<'p>(
        &'p self,
        mut state: MutexGuard<'p, State>,
        task: usize,
    ) -> MutexGuard<'p, State> {
        let next = state.pick();
        if next == task {
            return state;
        }
        let (theirs, own) =
            (Arc::clone(&state.tasks[next].slot), Arc::clone(&state.tasks[task].slot));
        drop(state);
        theirs.wake();
        let mut was_unparked = false;
        loop {
            let is_woken = own.wait(self.patience);
            let mut state = self.lock();
            if is_woken && state.current == task {
                if was_unparked {
                    // It may have been for an executor of this thread, which parks later.
                    thread::current().unpark();
                }
                return state;
            }
            if !is_woken {
                was_unparked = true;
                self.report(&mut state);
            }
        }
    }

    /// Says which thread has had its turn for long, once.
    fn report(&self, state: &mut State) {
        let turn = state.turns;
        let watched = state.watched.get_or_insert_with(|| Watched::new(turn));
        if watched.turn != turn {
            *watched = Watched::new(turn);
        }
        if watched.is_reported || watched.since.elapsed() < self.patience {
            return;
        }
        watched.is_reported = true;
        // If a test doesn't end and its output is kept, this text says why.
        let _ = writeln!(
            io::stderr(),
            "explore: for {:?} there was no call after that of {}. It computes, or waits for what \
             the exploration doesn't know: a lock of std that another thread has over a call, \
             another channel, a thread that it joins.",
            self.patience,
            state.running()
        );
    }

    /// A thread of the program is at its end, and gives its turn away.
    pub fn finish(&self, task: usize, ended: Ended) {
        let mut state = self.lock();
        if let Err(panic) = ended {
            stop_by(&mut state, task, &*panic);
        }
        state.finish(task);
        let slot = Arc::clone(&state.tasks[task].slot);
        state.idle.push(slot);
        let next = state.pick();
        let next = Arc::clone(&state.tasks[next].slot);
        leave();
        drop(state);
        next.wake();
    }

    /// Starts a thread of the program.
    pub fn start(self: &Arc<Self>, scope: u64, run: Box<dyn FnOnce() + Send>) -> usize {
        let mut state = self.lock();
        let slot = state.idle.pop().unwrap_or_else(|| {
            let worker = Worker::new(Arc::clone(self));
            let slot = Arc::clone(&worker.slot);
            state.workers.push(worker);
            slot
        });
        let task = state.add(Arc::clone(&slot), scope);
        slot.give(Job { task, run });
        task
    }

    /// Waits until these threads are at their ends. It never unwinds.
    pub fn join(&self, task: usize, joins: Joins) {
        let mut state = self.lock();
        state.joins(task, joins);
        drop(self.hand_over(state, task));
    }

    /// Runs what starts threads under this scope's number, and waits for them, also if it panics.
    pub fn scope<T>(&self, task: usize, body: impl FnOnce(u64) -> T) -> T {
        let scope = {
            let mut state = self.lock();
            state.scopes += 1;
            state.scopes
        };
        let joining = Joining {
            play: self,
            task,
            scope,
        };
        let ended = catch_unwind(AssertUnwindSafe(|| body(scope)));
        if let Err(panic) = &ended {
            stop_by(&mut self.lock(), task, &**panic);
        }
        drop(joining);
        self.unwind_if_stopped();
        ended.unwrap_or_else(|panic| resume_unwind(panic))
    }

    /// Unwinds if the run is stopped.
    pub fn unwind_if_stopped(&self) {
        if self.is_stopped() && !thread::panicking() {
            resume_unwind(Box::new(Stopped));
        }
    }

    /// The run is over: its first thread has ended so. Returns how the run ended.
    pub fn end_run(&self, ended: Ended) -> End {
        let mut state = self.lock();
        if let Err(panic) = ended {
            stop_by(&mut state, 0, &*panic);
        }
        state.finish(0);
        state.board = None;
        state.end.clone().unwrap_or(End::Done)
    }

    /// Ends the threads of the exploration.
    pub fn end(&self) {
        let workers = mem::take(&mut self.lock().workers);
        workers.into_iter().for_each(Worker::end);
    }
}

/// Waits for the threads of a scope, also if what starts them panics.
struct Joining<'p> {
    play: &'p Play,
    task: usize,
    scope: u64,
}

impl Drop for Joining<'_> {
    fn drop(&mut self) {
        // What these threads borrow must outlive them.
        let bomb = AbortsAtPanic;
        self.play.join(self.task, Joins::Scope(self.scope));
        mem::forget(bomb);
    }
}

struct AbortsAtPanic;

impl Drop for AbortsAtPanic {
    fn drop(&mut self) {
        process::abort();
    }
}

/// The run ends by a panic of this thread.
fn stop_by(state: &mut State, task: usize, panic: &(dyn Any + Send)) {
    if !was_stopped(panic) && state.end.is_none() {
        let message = SAID.take().unwrap_or_else(|| said(panic).to_string());
        state.stop(End::Panicked {
            thread: task,
            message,
        });
    }
}

/// The run is stopped: the thread unwinds. A destructor that calls while it unwinds goes on, and
/// doesn't block.
fn unwind(board: &dyn Board, step: Step) -> Pass {
    if !thread::panicking() {
        resume_unwind(Box::new(Stopped));
    }
    match board.look(step).is_answered {
        true => Pass::Go,
        false => Pass::Stalled,
    }
}
