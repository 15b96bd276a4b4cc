//! What the exploration notes of each thread: its history, and whether something beside the board
//! decides.

use super::State;
use crate::explore::board::sum_of;
use crate::explore::choose::mix;
use crate::explore::history::{self, Done};
use crate::explore::step::{Step, StepKind};
use crate::explore::tree::Tree;
use std::fmt;

impl State {
    pub(super) fn is_checked(&self) -> bool {
        self.chooser.tree().is_some_and(Tree::sleeps)
    }

    /// Notes how the thread's last step was answered.
    pub(super) fn settle(&mut self, number: usize) {
        let is_checked = self.is_checked();
        let task = &mut self.tasks[number];
        if !std::mem::take(&mut task.has_stepped) || !is_checked {
            return;
        }
        let (step, pass, entries) = (task.call.step, task.pass, task.entries);
        let mut done = task.done;
        let board = self.board.as_ref().filter(|_| step.kind.has_entry());
        let sums = board.and_then(|board| board.entry_sums(entries));
        let is_same = if let Some((call, reply)) = sums {
            self.history.made(&mut done, call, reply)
        } else {
            self.history.went(&mut done, sum_of(&step), pass as u64);
            true
        };
        self.see(&mut done, step, entries);
        self.tasks[number].done = done;
        self.note(number, is_same, &format_args!("another message by {step}"));
    }

    /// Notes what a step saw that has no entry, and what it may have changed. The journal had had
    /// this many entries before.
    fn see(&mut self, done: &mut Done, step: Step, entries: u64) {
        let thing = thing(step);
        match step.kind {
            StepKind::LookAtAll => self.history.saw_all(done),
            StepKind::Look => match self.board.as_ref().and_then(|board| board.counts(step.object))
            {
                Some(counts) => history::saw(done, counts),
                None => self.history.saw(done, thing),
            },
            StepKind::Aside => {
                self.history.saw(done, thing);
                self.history.changed(*done, thing);
            }
            StepKind::Lock | StepKind::Relock => self.history.saw(done, thing),
            StepKind::Put | StepKind::Take | StepKind::TakePoll | StepKind::Swap => {
                self.history.changed(*done, thing);
            }
            StepKind::Pump => {
                let board = self.board.iter();
                let sums = board
                    .flat_map(|board| (entries..).map_while(|position| board.entry_sums(position)));
                sums.for_each(|(_, message)| history::saw(done, message));
            }
            _ => (),
        }
    }

    /// A thread lets a lock go. Who has it next sees what this one did before.
    pub fn release(&mut self, task: usize, lock: u64) {
        if !self.locks.release(task, lock) || self.end.is_some() {
            return;
        }
        self.settle(task);
        self.history.changed(self.tasks[task].done, thing(StepKind::Lock.on(lock)));
        if let Some(tree) = self.chooser.tree_mut() {
            tree.released(task, lock);
        }
    }

    /// The thread's last step was answered by this, which has no entry.
    pub fn saw(&mut self, task: usize, answer: u64) {
        if self.is_checked() {
            history::saw(&mut self.tasks[task].done, answer);
        }
    }

    pub(super) fn note_next(&mut self, task: usize, next: u64, to: &dyn fmt::Display) {
        if self.is_checked() {
            let is_same = self.history.is_next(self.tasks[task].done, next);
            self.note(task, is_same, to);
        }
    }

    fn note(&mut self, task: usize, is_same: bool, to: &dyn fmt::Display) {
        if !is_same && self.beside.is_none() {
            self.beside = Some(format!(
                "threads share something beside the board, or the program isn't deterministic: in \
                 two runs thread {task} got the same replies, and went on differently, in one to \
                 {to}"
            ));
        }
    }
}

/// Marks the number of what lies beside the board, which may also be that of an object.
fn thing(step: Step) -> u64 {
    mix(step.object, u64::from(step.kind.is_beside()))
}
