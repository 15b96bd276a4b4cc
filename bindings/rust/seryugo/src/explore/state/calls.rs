//! Where a thread is: at a step, or at the calls of its futures.

use super::{At, Joins, State, Task};
use crate::explore::board::{sum_of, Board, Look};
use crate::explore::end::End;
use crate::explore::moves::{By, Move};
use crate::explore::step::{Step, StepKind, NONE};

/// A step that a thread is about to make.
#[derive(Clone, Copy)]
pub(crate) struct Call {
    pub seat: u64,
    pub step: Step,
    /// As in [`Move`].
    pub as_if: Step,
    /// As in [`Move`].
    pub channel: u64,
    pub is_timed: bool,
    /// Whether it is that of a future, which returns if it isn't answered.
    pub is_poll: bool,
    /// What the step finds.
    pub look: Option<Look>,
}

impl Call {
    /// A step of a thread that has made none.
    pub fn none() -> Call {
        Call {
            seat: NONE,
            step: StepKind::Aside.on(NONE),
            as_if: StepKind::Aside.on(NONE),
            channel: NONE,
            is_timed: false,
            is_poll: false,
            look: None,
        }
    }

    /// Looks at the object, if the last step may have changed it.
    pub fn look_at(&mut self, board: &dyn Board, changed: Option<u64>) {
        let is_old = |changed| changed == self.as_if.object || changed == self.channel;
        if self.look.is_some() && !changed.is_none_or(is_old) {
            return;
        }
        self.look = Some(board.look(self.step));
        if self.step.kind == StepKind::Drain {
            // Its lane may be opened or closed meanwhile.
            self.as_if = board.as_if(self.step);
        }
    }

    /// What was found before is found now, too.
    #[cfg(test)]
    pub fn is_new(&self, board: &dyn Board) {
        assert_eq!(self.look, Some(board.look(self.step)), "{}", self.step);
        assert!(self.is_poll || self.as_if == board.as_if(self.step), "{}", self.step);
    }

    /// Whether it is answered now.
    pub fn is_answered(&self) -> bool {
        self.look.is_some_and(|look| look.is_answered)
    }
}

/// A call of a future that was polled, and has no answer.
pub(crate) struct Awaited {
    pub call: Call,
    /// Whether the thread has made no step since the future was made, or its last poll.
    pub is_fresh: bool,
    /// How often it was polled since then.
    pub polls: u32,
}

/// What a poll of a future does.
pub(crate) enum Polled {
    /// Its call is answered, or fails: the scheduler has said so.
    Answered,
    /// It returns, and is polled again.
    Pending,
    /// The thread gives its turn away first.
    Waits,
}

/// If a future is polled so often while its thread makes no step, all others of the thread were
/// polled meanwhile. So the thread waits.
const POLLS: u32 = 32;

impl Task {
    /// The steps at which the thread is.
    pub fn calls(&self) -> impl Iterator<Item = &Call> {
        let own = (self.at == At::Step).then_some(&self.call);
        let are_awaited = self.at == At::Futures;
        let awaited = self.awaited.iter().filter(move |_| are_awaited);
        own.into_iter().chain(awaited.map(|awaited| &awaited.call))
    }

    pub fn calls_mut(&mut self) -> impl Iterator<Item = &mut Call> {
        let own = (self.at == At::Step).then_some(&mut self.call);
        let are_awaited = self.at == At::Futures;
        let awaited = self.awaited.iter_mut().filter(move |_| are_awaited);
        own.into_iter().chain(awaited.map(|awaited| &mut awaited.call))
    }

    /// The thread has made a step.
    fn goes_on(&mut self) {
        for awaited in &mut self.awaited {
            (awaited.is_fresh, awaited.polls) = (true, 0);
        }
    }
}

/// Threads arrive.
impl State {
    /// A thread is about to make a step.
    pub fn arrive(&mut self, task: usize, seat: u64, step: Step, is_timed: bool) {
        self.leaves_futures(task);
        // A future that was forgotten has lost its seat.
        self.tasks[task].awaited.retain(|awaited| awaited.call.seat != seat);
        self.tasks[task].granted = None;
        self.tasks[task].goes_on();
        let mut call = Call {
            is_timed,
            ..self.call(seat, step)
        };
        if step.kind == StepKind::Relock {
            call.channel = self.locks.awaited_by(task);
        }
        self.arrive_at(task, call);
    }

    fn arrive_at(&mut self, task: usize, call: Call) {
        self.settle(task);
        (self.tasks[task].at, self.tasks[task].call) = (At::Step, call);
        self.note_next(task, sum_of(&call.step), &call.step);
    }

    fn call(&self, seat: u64, step: Step) -> Call {
        let board = self.board.as_ref();
        let as_if = board.map_or(step, |board| board.as_if(step));
        let port = board.filter(|_| as_if.kind.may_be_on_port());
        Call {
            seat,
            step,
            as_if,
            channel: port.map_or(NONE, |board| board.channel(as_if.object)),
            ..Call::none()
        }
    }

    /// A thread waits for others.
    pub fn joins(&mut self, task: usize, joins: Joins) {
        self.leaves_futures(task);
        self.tasks[task].at = At::Joins(joins);
    }

    /// A thread is at its end.
    pub fn finish(&mut self, task: usize) {
        if self.end.is_none() {
            self.leaves_futures(task);
            self.settle(task);
            self.note_next(task, NONE, &"its end");
        }
        self.tasks[task].at = At::End;
    }
}

/// Futures are polled and dropped.
///
/// While each thread has one future at a time, and makes no step before that is answered, the
/// future waits as a call that blocks: that is one order for all in which it is polled in vain. If
/// a thread does otherwise, the run begins again, and polls are steps.
impl State {
    /// A thread polls the future of this seat, which makes this step.
    pub fn poll(&mut self, task: usize, seat: u64, step: Step) -> Polled {
        if self.tasks[task].granted == Some(seat) {
            return Polled::Answered;
        }
        self.takes(task, seat);
        let awaited = &self.tasks[task].awaited;
        let is_known = |awaited: &Awaited| awaited.call.seat == seat && awaited.call.step == step;
        let at = awaited.iter().position(is_known).unwrap_or_else(|| self.begins(task, seat, step));
        let polls_are_steps = self.limits.polls_are_steps;
        let own = &mut self.tasks[task];
        if own.granted.is_some() {
            return Polled::Pending;
        }
        let awaited = &mut own.awaited[at];
        if polls_are_steps && std::mem::take(&mut awaited.is_fresh) {
            let call = Call {
                is_poll: true,
                as_if: awaited.call.step.polled(),
                look: None,
                ..awaited.call
            };
            self.arrive_at(task, call);
            return Polled::Waits;
        }
        awaited.polls += 1;
        if awaited.polls < POLLS && self.end.is_none() {
            return Polled::Pending;
        }
        self.awaits(task);
        Polled::Waits
    }

    /// The thread waits until a call of one of its futures is answered.
    fn awaits(&mut self, task: usize) {
        self.settle(task);
        let own = &mut self.tasks[task];
        own.at = At::Futures;
        for awaited in &mut own.awaited {
            (awaited.polls, awaited.call.look) = (0, None);
        }
        let steps: Vec<Step> = own.awaited.iter().map(|awaited| awaited.call.step).collect();
        self.note_next(task, sum_of(&steps), &"its futures");
    }

    /// A thread has a new future: its place.
    fn begins(&mut self, task: usize, seat: u64, step: Step) -> usize {
        self.tasks[task].awaited.retain(|awaited| awaited.call.seat != seat);
        self.leaves_futures(task);
        let call = self.call(seat, step);
        let awaited = &mut self.tasks[task].awaited;
        awaited.push(Awaited {
            call,
            is_fresh: true,
            polls: 0,
        });
        awaited.len() - 1
    }

    /// The future of this seat is polled by this thread, maybe for the first time.
    fn takes(&mut self, task: usize, seat: u64) {
        let mut others = (0..self.tasks.len()).filter(|other| *other != task);
        let other = others.find(|other| self.tasks[*other].awaits(seat));
        if let Some(other) = other {
            self.drops(other, seat);
        }
    }

    /// The thread's future of this seat is dropped, or polled by another thread.
    fn drops(&mut self, owner: usize, seat: u64) {
        if self.tasks[owner].at == At::Futures {
            self.stop(End::UnknownThread(format!(
                "a future of seat {seat} is used by two threads: an exploration doesn't know \
                 executors that share their tasks between threads"
            )));
        }
        self.leaves_futures(owner);
        let owner = &mut self.tasks[owner];
        owner.awaited.retain(|awaited| awaited.call.seat != seat);
        owner.granted = owner.granted.filter(|granted| *granted != seat);
    }

    /// A future of this seat is dropped that has no answer.
    pub fn withdraw(&mut self, seat: u64) {
        let owner = (0..self.tasks.len()).find(|task| self.tasks[*task].awaits(seat));
        if let Some(owner) = owner {
            self.drops(owner, seat);
        }
    }

    /// The thread has its turn again after a poll. Whether the call is answered, or fails.
    pub fn is_polled(&mut self, task: usize, seat: u64) -> bool {
        let own = &mut self.tasks[task];
        let is_answered = match own.call.is_poll {
            true => own.call.is_answered(),
            false => own.granted == Some(seat),
        };
        if is_answered {
            own.granted = None;
            own.awaited.retain(|awaited| awaited.call.seat != seat);
            own.goes_on();
        }
        is_answered
    }

    /// A thread goes on though a future of it has no answer. If polls are no steps yet, they are
    /// from now on.
    fn leaves_futures(&mut self, task: usize) {
        if !self.limits.polls_are_steps && !self.tasks[task].awaited.is_empty() {
            (self.limits.polls_are_steps, self.begins_again) = (true, true);
            self.stop(End::Unfit("polls are no steps in this schedule".to_string()));
        }
    }
}

impl Task {
    fn awaits(&self, seat: u64) -> bool {
        self.awaited.iter().any(|awaited| awaited.call.seat == seat)
    }
}

/// The moves of threads.
impl State {
    /// The moves of a thread, and whether each call would be answered.
    pub(super) fn ways(&self, number: usize) -> impl Iterator<Item = (Move, bool)> + '_ {
        let calls = self.tasks[number].calls().enumerate();
        calls.filter_map(move |(at, call)| {
            let look = call.look?;
            let way = Move {
                task: number,
                at,
                step: call.step,
                as_if: self.as_if(call),
                channel: call.channel,
                is_full: look.is_full,
                place: look.place,
                by: By::Step,
            };
            Some((way, look.is_answered || call.is_poll))
        })
    }

    /// If the journal may become full within a step, all that has an entry matters to it.
    fn as_if(&self, call: &Call) -> Step {
        let most = self.most_entries.saturating_add(super::MOST_MOVED);
        match call.step.kind.moves_many() && most > self.limits.entries {
            true => StepKind::LookAtAll.on(NONE),
            false => call.as_if,
        }
    }
}
