//! The locks of a run: who has which, and who waits for a condition.

use crate::explore::board::Look;
use crate::explore::step::{Step, StepKind, NONE};
use std::collections::HashMap;
use std::panic::Location;

/// The locks and conditions of a run.
#[derive(Default)]
pub(crate) struct Locks {
    /// Which thread has a lock.
    holders: HashMap<u64, usize>,
    /// Who waits for a condition: the condition, and the thread.
    waiting: Vec<(u64, usize)>,
    /// Each wakes one of its threads.
    notified: Vec<Vec<usize>>,
    /// Where each lock and condition was made.
    places: HashMap<u64, &'static Location<'static>>,
}

impl Locks {
    /// Notes where a lock or a condition was made.
    pub fn note(&mut self, number: u64, place: &'static Location<'static>) {
        self.places.insert(number, place);
    }

    /// What such a step of a thread finds.
    pub fn look(&self, task: usize, step: Step) -> Look {
        let is_woken = step.kind != StepKind::Relock || self.is_notified(task);
        Look {
            is_answered: self.is_free(step) && is_woken,
            is_full: false,
            place: NONE,
        }
    }

    /// Whether nobody has the lock that a step takes.
    pub fn is_free(&self, step: Step) -> bool {
        !step.kind.locks() || !self.holders.contains_key(&step.object)
    }

    /// The condition that a thread waits for, or `NONE`.
    pub fn awaited_by(&self, task: usize) -> u64 {
        self.waiting.iter().find(|(_, waits)| *waits == task).map_or(NONE, |waits| waits.0)
    }

    /// A thread makes such a step, or its time has passed.
    pub fn made(&mut self, task: usize, step: Step, is_late: bool) {
        match step.kind {
            StepKind::Lock => drop(self.holders.insert(step.object, task)),
            StepKind::Relock => {
                self.holders.insert(step.object, task);
                self.wake(task, is_late);
            }
            StepKind::Await => self.waiting.push((step.object, task)),
            StepKind::NotifyOne | StepKind::NotifyAll => {
                let of_condition = self.waiting.iter().filter(|waits| waits.0 == step.object);
                let woken: Vec<usize> = of_condition.map(|waits| waits.1).collect();
                match step.kind {
                    StepKind::NotifyOne => self.notified.push(woken),
                    _ => self.notified.extend(woken.iter().map(|task| vec![*task])),
                }
                self.notified.retain(|woken| !woken.is_empty());
            }
            _ => (),
        }
    }

    /// The thread waits no more. It uses up one notification, unless it is late, and no other one
    /// wakes it.
    fn wake(&mut self, task: usize, is_late: bool) {
        let mut notified = self.notified.iter();
        if let Some(used) = notified.position(|woken| !is_late && woken.contains(&task)) {
            self.notified.remove(used);
        }
        self.waiting.retain(|(_, waits)| *waits != task);
        for woken in &mut self.notified {
            woken.retain(|other| *other != task);
        }
        self.notified.retain(|woken| !woken.is_empty());
    }

    /// A thread lets a lock go. Returns whether it had it.
    pub fn release(&mut self, task: usize, lock: u64) -> bool {
        let had = self.holders.get(&lock) == Some(&task);
        if had {
            self.holders.remove(&lock);
        }
        had
    }

    /// What a thread waits at: a lock with who has it, or a condition, with where it was made.
    pub fn told(&self, task: usize, step: Step) -> String {
        if !step.kind.locks() {
            return step.to_string();
        }
        let awaited = self.awaited_by(task);
        let is_at_lock = step.kind == StepKind::Lock || self.is_notified(task);
        let (on, holder) = match is_at_lock {
            true => (StepKind::Lock.on(step.object), self.holders.get(&step.object)),
            false => (StepKind::Await.on(awaited), None),
        };
        let place = self.places.get(&on.object);
        let place = place.map(|place| format!(" of {}:{}", place.file(), place.line()));
        let holder = holder.map(|holder| format!(", which thread {holder} has"));
        [
            on.to_string(),
            place.unwrap_or_default(),
            holder.unwrap_or_default(),
        ]
        .concat()
    }

    fn is_notified(&self, task: usize) -> bool {
        self.notified.iter().any(|woken| woken.contains(&task))
    }
}
