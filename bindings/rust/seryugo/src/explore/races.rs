//! Which choices of a run ask for other ways: those at which a step was made that another thread's
//! later step could have come before.
//!
//! A step needs the earlier steps of its thread, and the earlier ones with which it doesn't commute.
//! It also needs what those need. Two steps that don't commute are a race, unless the later one
//! waited for the other one. Then the choice of the first step asks for a thread that leads to the
//! other order. A thread that waits is in a race too, with the step that took what it waits for.
//! A thread takes a lock after all that its last holder did before it let the lock go.
//!
//! If the choice has already a way that leads there, it asks for nothing. So most orders that leave
//! the same are run once. Others call this dynamic partial order reduction by source sets.

use super::clock::Clock;
use super::moves::{By, Move};
use super::step::StepKind;
use std::collections::HashMap;

/// A step of the run, with those that it needs.
struct Event {
    made: Move,
    past: Clock,
}

/// The choice at this place asks for one of these threads. If there is none, it asks for all.
pub(crate) struct Ask {
    pub at: usize,
    pub tasks: Vec<usize>,
}

/// The steps of the run that is on.
#[derive(Default)]
pub(crate) struct Races {
    events: Vec<Event>,
    now: Vec<Thread>,
    /// What came before each lock was let go.
    released: HashMap<u64, Clock>,
}

/// A thread of the run that is on.
#[derive(Clone, Default)]
struct Thread {
    /// What its next step needs at least.
    clock: Clock,
    /// That step waits, and the steps before this place were looked at.
    seen: usize,
}

impl Races {
    pub fn begin(&mut self) {
        self.now.clear();
        self.released.clear();
    }

    /// The next run has the first steps of this one, this many.
    pub fn keep(&mut self, steps: usize) {
        self.events.truncate(steps);
    }

    /// A thread starts another one.
    pub fn started(&mut self, task: usize, by: usize) {
        let clock = self.now.get(by).map(|thread| thread.clock.clone()).unwrap_or_default();
        self.now.resize_with(task + 1, Thread::default);
        self.now[task] = Thread { clock, seen: 0 };
    }

    /// A thread has joined another one.
    pub fn joined(&mut self, task: usize, other: usize) {
        let clock = self.now[other].clock.clone();
        self.now[task].clock.join(&clock);
    }

    /// A thread lets this lock go.
    pub fn released(&mut self, task: usize, lock: u64) {
        self.released.insert(lock, self.now[task].clock.clone());
    }

    /// The step at this place is made. Returns what it asks for, of choices that have more ways.
    pub fn made(&mut self, at: usize, made: &Move, has_ways: impl Fn(usize) -> bool) -> Vec<Ask> {
        let mut asked = Vec::new();
        if self.events.len() == at {
            let before = &self.now[made.task].clock;
            let mut past = before.clone();
            if made.by != By::Step {
                self.now.iter().for_each(|thread| past.join(&thread.clock));
            }
            for (place, event) in self.since_late().filter(|(_, event)| made.follows(&event.made)) {
                let is_race = made.by == By::Step && !before.has(event.made.task, place);
                if is_race && has_ways(place) {
                    asked.extend(self.race(place, made, before));
                }
                past.join(&event.past);
                past.add(event.made.task, place);
            }
            if made.step.kind == StepKind::Lock {
                self.released.get(&made.step.object).iter().for_each(|before| past.join(before));
            }
            self.events.push(Event { made: *made, past });
        }
        let thread = &mut self.now[made.task];
        thread.clock.clone_from(&self.events[at].past);
        thread.clock.add(made.task, at);
        thread.seen = 0;
        asked
    }

    /// These wait after the last step. What they wait for may have been taken from them.
    pub fn wait(&mut self, waits: &[Move], has_ways: impl Fn(usize) -> bool) -> Vec<Ask> {
        let mut asked = Vec::new();
        for wait in waits {
            let thread = &self.now[wait.task];
            let new = self.since_late().take_while(|(place, _)| *place >= thread.seen);
            let taken = new.filter(|(place, event)| {
                let is_race = !thread.clock.has(event.made.task, *place);
                event.made.takes_from(wait) && is_race && has_ways(*place)
            });
            asked.extend(taken.map(|(place, _)| self.ask(place, wait, &thread.clock)));
            self.now[wait.task].seen = self.events.len();
        }
        asked
    }

    /// The steps, from the last one back to the last one that was made since no thread could go on.
    fn since_late(&self) -> impl Iterator<Item = (usize, &Event)> {
        let mut is_before = false;
        self.events.iter().enumerate().rev().take_while(move |(_, event)| {
            !std::mem::replace(&mut is_before, event.made.by != By::Step)
        })
    }

    /// What the race of the step at this place with a later one asks for. `before` is what the
    /// later one's thread needed.
    fn race(&self, at: usize, later: &Move, before: &Clock) -> Option<Ask> {
        let made = &self.events[at].made;
        if made.by != By::Step || later.waits_for(made) {
            return None;
        }
        if later.may_wait_without(made) {
            return Some(Ask {
                at,
                tasks: Vec::new(),
            });
        }
        Some(self.ask(at, later, before))
    }

    /// Of the steps after this one that don't need it, the threads that may make theirs first.
    fn ask(&self, at: usize, later: &Move, before: &Clock) -> Ask {
        let first = self.events[at].made.task;
        let mut tasks = Vec::new();
        let mut is_later_first = true;
        for (place, event) in self.events.iter().enumerate().skip(at + 1) {
            let task = event.made.task;
            if task == first || event.past.has(first, at) {
                continue;
            }
            is_later_first &= !before.has(task, place) && !later.follows(&event.made);
            if !event.past.has_after(at) {
                tasks.push(task);
            }
        }
        if is_later_first {
            tasks.insert(0, later.task);
        }
        Ask { at, tasks }
    }
}
