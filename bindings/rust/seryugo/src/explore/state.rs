//! Where a run is: its threads, and whose turn it is.

use super::board::{Board, Pass};
use super::choose::Chooser;
use super::end::End;
use super::history::{self, Done, History};
use super::moves::{By, Move};
use super::schedule::Choice;
use super::step::{Step, StepKind, NONE};
use super::worker::{Slot, Worker};
use crate::switchboard::moving::MOST_MOVED;
use calls::{Awaited, Call};
use locks::Locks;
use std::collections::VecDeque;
use std::ptr;
use std::sync::Arc;
use std::time::Instant;

pub(crate) use calls::Polled;

mod calls;
mod ending;
mod locks;
mod notes;

/// What a thread joins: the threads of a scope, or one.
#[derive(Clone, Copy, PartialEq)]
pub(crate) enum Joins {
    Scope(u64),
    Task(usize),
}

/// Where a thread of the program is.
#[derive(Clone, Copy, PartialEq)]
pub(crate) enum At {
    /// It has not run yet.
    Start,
    Running,
    Step,
    /// It waits for one of its futures.
    Futures,
    Joins(Joins),
    End,
}

/// A thread of the program.
pub(crate) struct Task {
    pub at: At,
    pub slot: Arc<Slot>,
    scope: u64,
    /// Its step, or its last one.
    pub call: Call,
    /// The calls of its futures that have no answer.
    awaited: Vec<Awaited>,
    /// The seat of the future whose call is answered once it is polled.
    granted: Option<u64>,
    pub pass: Pass,
    done: Done,
    /// Whether it has made a step since it was started.
    has_stepped: bool,
    /// How many shared values, locks and conditions it has made.
    shared: u64,
    /// How many entries the journal had had before that step.
    entries: u64,
}

/// What bounds a run.
#[derive(Clone, Copy, Debug)]
pub(crate) struct Limits {
    pub steps: u64,
    pub entries: u64,
    pub tells_stalls: bool,
    /// Whether calls with a time limit and futures may fail as stalled.
    pub open_waits_stall: bool,
    /// This many calls may end by their time though something else can happen.
    pub time_outs: u32,
    /// Whether each poll of a future is a step.
    pub polls_are_steps: bool,
}

pub(crate) struct State {
    pub limits: Limits,
    pub chooser: Chooser,
    pub board: Option<Arc<dyn Board>>,
    pub tasks: Vec<Task>,
    /// Whose turn it is.
    pub current: usize,
    pub steps: u64,
    /// The journal has no more entries than this.
    most_entries: u64,
    /// How many calls have ended by their time though something else could happen.
    time_outs: u32,
    pub locks: Locks,
    /// The choices of the run that had more than one way.
    pub choices: Vec<Choice>,
    /// The step on the object that the last step may have changed. `None`: on more of them.
    changed: Option<Step>,
    /// The last steps of the run.
    last: VecDeque<(usize, u64, Step)>,
    /// How the run ends, and its journal. From then on each thread unwinds.
    pub end: Option<End>,
    pub text: String,
    pub history: History,
    /// Whether the exploration begins again, since polls are steps from now on.
    pub begins_again: bool,
    /// Why something beside the board decides.
    pub beside: Option<String>,
    pub scopes: u64,
    pub workers: Vec<Worker>,
    pub idle: Vec<Arc<Slot>>,
    /// How many turns were given, in all runs.
    pub turns: u64,
    /// The turn that lasts long.
    pub watched: Option<Watched>,
}

/// A turn that was seen to last.
pub(crate) struct Watched {
    pub turn: u64,
    pub since: Instant,
    pub is_reported: bool,
}

impl Watched {
    pub fn new(turn: u64) -> Watched {
        Watched {
            turn,
            since: Instant::now(),
            is_reported: false,
        }
    }
}

/// This many of the last steps tell of a run without an end.
const LAST: usize = 64;

impl State {
    pub fn new(chooser: Chooser, limits: Limits) -> State {
        State {
            limits,
            chooser,
            board: None,
            tasks: Vec::new(),
            current: 0,
            steps: 0,
            most_entries: 0,
            time_outs: 0,
            locks: Locks::default(),
            choices: Vec::new(),
            changed: None,
            last: VecDeque::new(),
            end: None,
            text: String::new(),
            history: History::default(),
            begins_again: false,
            beside: None,
            scopes: 0,
            workers: Vec::new(),
            idle: Vec::new(),
            turns: 0,
            watched: None,
        }
    }

    /// A run begins, whose first thread has this slot.
    pub fn begin(&mut self, board: Arc<dyn Board>, main: &Arc<Slot>, run: u64) {
        self.chooser.begin(run);
        let is_more = self.limits.tells_stalls || self.limits.time_outs > 0;
        if is_more || self.limits.polls_are_steps {
            self.chooser.tree_mut().iter_mut().for_each(|tree| tree.ask_for_all());
        }
        self.history.begin();
        self.board = Some(board);
        self.tasks.clear();
        self.choices.clear();
        self.last.clear();
        (self.current, self.steps, self.scopes, self.most_entries) = (0, 0, 0, 0);
        (self.time_outs, self.locks) = (0, Locks::default());
        (self.end, self.text, self.changed) = (None, String::new(), None);
        self.add(Arc::clone(main), 0);
        self.tasks[0].at = At::Running;
    }

    /// Whether the run that is on has this switchboard.
    pub fn is_on(&self, board: &dyn Board) -> bool {
        self.board.as_ref().is_some_and(|own| ptr::addr_eq(Arc::as_ptr(own), board))
    }

    /// A thread of this scope, which the one that has the turn starts: its number.
    pub fn add(&mut self, slot: Arc<Slot>, scope: u64) -> usize {
        let number = self.tasks.len();
        let parent = self.tasks.get(self.current).map(|task| task.done).unwrap_or_default();
        self.tasks.push(Task {
            at: At::Start,
            slot,
            scope,
            call: Call::none(),
            awaited: Vec::new(),
            granted: None,
            pass: Pass::Go,
            done: History::child(parent, number),
            has_stepped: false,
            shared: 0,
            entries: 0,
        });
        if let Some(tree) = self.chooser.tree_mut() {
            tree.started(number, self.current);
        }
        number
    }

    /// The run ends so, unless it has ended before.
    pub fn stop(&mut self, end: End) {
        if self.end.is_none() {
            self.text = self.board.as_ref().map(|board| board.text()).unwrap_or_default();
            self.end = Some(end);
        }
    }

    /// How many values, locks and conditions this thread has made, with one more.
    pub fn next_shared(&mut self, task: usize) -> u64 {
        self.tasks[task].shared += 1;
        self.tasks[task].shared
    }

    /// A thread makes a step that only itself sees. `Err`: there were too many steps.
    pub fn count(&mut self, task: usize, step: Step) -> Result<(), End> {
        self.steps += 1;
        if self.steps <= self.limits.steps {
            return Ok(());
        }
        self.last.push_back((task, NONE, step));
        Err(self.endless())
    }
}

/// Whose turn it is.
impl State {
    /// Whose turn is next.
    pub fn pick(&mut self) -> usize {
        self.turns += 1;
        let next = self.next();
        self.current = next;
        let task = &mut self.tasks[next];
        if task.at != At::End {
            task.at = At::Running;
        }
        next
    }

    fn next(&mut self) -> usize {
        if self.end.is_none() {
            if let Some(next) = self.free() {
                return next;
            }
            match self.choose() {
                Ok(next) => return next,
                Err(end) => self.stop(end),
            }
        }
        // A thread unwinds once those that it has started are at their ends: they have higher
        // numbers.
        self.tasks.iter().rposition(|task| task.at != At::End).unwrap_or(0)
    }

    /// A thread that goes on without a choice: what it does until its next step is between the two.
    fn free(&mut self) -> Option<usize> {
        if let Some(next) = self.tasks.iter().position(|task| task.at == At::Start) {
            return Some(next);
        }
        let next = self.tasks.iter().position(|task| match task.at {
            At::Joins(joins) => self.is_joined(joins),
            _ => false,
        })?;
        let At::Joins(joins) = self.tasks[next].at else {
            return None;
        };
        let mut done = self.tasks[next].done;
        let joined = |(number, task): &(usize, &Task)| joins.has(*number, task);
        for (number, task) in self.tasks.iter().enumerate().filter(joined) {
            History::joined(&mut done, task.done);
            if let Some(tree) = self.chooser.tree_mut() {
                tree.joined(next, number);
            }
        }
        self.tasks[next].done = done;
        Some(next)
    }

    fn is_joined(&self, joins: Joins) -> bool {
        let mut tasks = self.tasks.iter().enumerate();
        tasks.all(|(number, task)| task.at == At::End || !joins.has(number, task))
    }

    /// Chooses a thread that may go on.
    fn choose(&mut self) -> Result<usize, End> {
        let Some(moves) = self.moves() else {
            return Err(self.stalled());
        };
        if self.steps >= self.limits.steps {
            return Err(self.endless());
        }
        let last = self.last.back().map_or(0, |last| last.0);
        let (is_choice, may_step) = (moves.len() > 1, moves[0].by == By::Step);
        let chosen = self.chooser.choose(moves, last, self.choices.len());
        let chosen = chosen.map_err(|astray| self.astray(&astray))?;
        if is_choice {
            self.choices.push(Choice::of(&chosen));
        }
        self.time_outs += u32::from(may_step && chosen.by == By::TimeOut);
        self.go(&chosen)?;
        Ok(chosen.task)
    }

    fn go(&mut self, chosen: &Move) -> Result<(), End> {
        self.steps += 1;
        if self.last.len() == LAST {
            self.last.pop_front();
        }
        let (kind, as_if) = (chosen.step.kind, chosen.as_if);
        let needs_entries = self.is_checked() || self.most_entries >= self.limits.entries;
        let board = self.board.as_ref().filter(|_| needs_entries);
        let entries = board.map_or((0, self.most_entries), |board| board.entries());
        let most = if kind.moves_many() { MOST_MOVED } else { 1 };
        self.most_entries = entries.1.saturating_add(most);
        let is_on_one = !kind.opens_or_ends() && as_if.kind != StepKind::LookAtAll;
        self.changed = is_on_one.then_some(as_if);
        self.take_turn(chosen);
        self.locks.made(chosen.task, chosen.step, chosen.by == By::TimeOut);
        let task = &mut self.tasks[chosen.task];
        self.last.push_back((chosen.task, task.call.seat, task.call.step));
        task.entries = entries.0;
        task.has_stepped = true;
        task.pass = match chosen.by {
            By::Step if task.call.is_poll && !task.call.is_answered() => Pass::Pending,
            By::Step => Pass::Go,
            By::TimeOut => Pass::TimedOut,
            By::Stall => Pass::Stalled,
        };
        let is_full = entries.1 >= self.limits.entries && chosen.by == By::Step;
        if is_full && (chosen.step.kind.has_entry() || chosen.step.kind.moves_many()) {
            return Err(End::Full);
        }
        Ok(())
    }

    /// A thread's step was chosen. If it is at the calls of its futures, this is one of them.
    fn take_turn(&mut self, chosen: &Move) {
        let is_checked = self.is_checked();
        let task = &mut self.tasks[chosen.task];
        if task.at != At::Futures {
            return;
        }
        task.call = task.awaited[chosen.at].call;
        task.granted = Some(task.call.seat);
        if is_checked {
            history::saw(&mut task.done, chosen.at as u64);
        }
    }

    /// What may happen next: first what the thread does that went on last. `None`: nothing may.
    fn moves(&mut self) -> Option<Vec<Move>> {
        self.look();
        let last = self.last.back().map_or(0, |last| last.0);
        let others = (0..self.tasks.len()).filter(|task| *task != last);
        let mut moves = Vec::with_capacity(self.tasks.len());
        let mut stuck = Vec::new();
        let numbers = std::iter::once(last).chain(others);
        for (way, is_answered) in numbers.flat_map(|number| self.ways(number)) {
            if is_answered {
                moves.push(way);
            } else {
                stuck.push(way);
            }
        }
        if let Some(tree) = self.chooser.tree_mut() {
            tree.wait(&stuck);
        }
        if moves.is_empty() {
            moves = self.late(stuck);
        } else {
            moves.extend(self.early(&moves, &stuck));
        }
        (!moves.is_empty()).then_some(moves)
    }

    /// Looks again at the objects that the last step may have changed.
    fn look(&mut self) {
        let Some(board) = &self.board else { return };
        let changed = self.changed.map(|changed| changed.object);
        for (number, task) in self.tasks.iter_mut().enumerate() {
            for call in task.calls_mut() {
                if call.step.kind.is_beside() {
                    call.look = Some(self.locks.look(number, call.step));
                    continue;
                }
                call.look_at(&**board, changed);
                #[cfg(test)]
                call.is_new(&**board);
            }
        }
    }

    /// The calls whose time may pass though something else can happen.
    fn early(&self, moves: &[Move], stuck: &[Move]) -> Vec<Move> {
        if self.time_outs >= self.limits.time_outs {
            return Vec::new();
        }
        let is_timed = |way: &&Move| {
            let task = &self.tasks[way.task];
            task.at == At::Step && self.may_pass(way)
        };
        let passes = |way: &Move| Move {
            by: By::TimeOut,
            ..*way
        };
        moves.iter().chain(stuck).filter(is_timed).map(passes).collect()
    }

    /// Whether the time of a call may pass: who waits for a condition has its lock again then.
    fn may_pass(&self, way: &Move) -> bool {
        self.tasks[way.task].call.is_timed && self.locks.is_free(way.step)
    }

    /// What may happen if all threads are stuck at these calls.
    fn late(&self, mut stuck: Vec<Move>) -> Vec<Move> {
        let is_timed = stuck.iter().any(|way| self.may_pass(way));
        let by = if is_timed { By::TimeOut } else { By::Stall };
        if is_timed {
            stuck.retain(|way| self.may_pass(way));
        } else if !self.limits.tells_stalls || !self.stall().0 {
            stuck.clear();
        }
        stuck.retain(|way| is_timed || !way.step.kind.is_beside());
        for way in &mut stuck {
            way.by = by;
        }
        stuck
    }
}

impl Joins {
    fn has(self, number: usize, task: &Task) -> bool {
        match self {
            Joins::Scope(scope) => task.scope == scope,
            Joins::Task(joined) => number == joined,
        }
    }
}
