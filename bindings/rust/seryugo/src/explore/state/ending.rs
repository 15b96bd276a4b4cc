//! How a run ends if it can't go on.

use super::calls::Call;
use super::{At, State, Task};
use crate::explore::board::Blocked;
use crate::explore::end::{End, Waits};
use crate::explore::moves::Move;
use crate::explore::schedule::Schedule;
use crate::explore::step::{Step, NONE};
use crate::explore::tree::Astray;

impl State {
    /// As [`Board::stall`].
    pub(super) fn stall(&self) -> (bool, Vec<u64>) {
        let blocked = |task: &'_ Task| {
            let awaits = task.at == At::Futures;
            let calls = task.calls().filter(|call| !call.step.kind.is_beside());
            let at = |call: &Call| Blocked {
                seat: call.seat,
                step: call.step,
                is_open: awaits || call.is_timed,
            };
            calls.map(at).collect::<Vec<_>>()
        };
        let waits: Vec<Blocked> = self.tasks.iter().flat_map(blocked).collect();
        self.board.as_ref().map(|board| board.stall(&waits)).unwrap_or_default()
    }

    pub(super) fn stalled(&self) -> End {
        let tasks = self.tasks.iter().enumerate();
        let waits = tasks.flat_map(|(number, task)| {
            let joins = matches!(task.at, At::Joins(_)).then_some(Waits {
                thread: number,
                seat: None,
                call: None,
            });
            let at = move |call: &Call| Waits {
                call: Some(self.locks.told(number, call.step)),
                ..waits(number, call.seat, call.step)
            };
            task.calls().map(at).chain(joins)
        });
        let (fails_as_stalled, free) = self.stall();
        End::Stalled {
            waits: waits.collect(),
            fails_as_stalled,
            free,
        }
    }

    pub(super) fn endless(&self) -> End {
        let mut last: Vec<Waits> = Vec::new();
        for &(thread, seat, step) in &self.last {
            let step = waits(thread, seat, step);
            if !last.contains(&step) {
                last.push(step);
            }
        }
        End::Endless {
            steps: self.limits.steps,
            last,
        }
    }

    pub(super) fn astray(&mut self, astray: &Astray) -> End {
        match astray {
            Astray::Differs { choice, before } => {
                let now = self.moves().unwrap_or_default();
                End::NotDeterministic(format!(
                    "the program isn't deterministic: at step {choice}, after the same steps, the \
                     threads were first at {}, and then at {}",
                    listed(before),
                    listed(&now)
                ))
            }
            Astray::Unfit { choice, task } => End::Unfit(format!(
                "the schedule is of another program: at choice {choice} it has thread {task}, \
                 which can't go on"
            )),
        }
    }

    /// The schedule of the run so far.
    pub fn schedule(&self) -> Schedule {
        Schedule {
            choices: self.choices.clone(),
            tells_stalls: self.limits.tells_stalls,
            open_waits_stall: self.limits.open_waits_stall,
            polls_are_steps: self.limits.polls_are_steps,
            time_outs: self.limits.time_outs,
        }
    }

    /// Who has the turn, and its last step.
    pub fn running(&self) -> String {
        let task = &self.tasks[self.current];
        waits(self.current, task.call.seat, task.call.step).to_string()
    }
}

fn waits(thread: usize, seat: u64, step: Step) -> Waits {
    Waits {
        thread,
        seat: (seat != NONE).then_some(seat),
        call: Some(step.to_string()),
    }
}

fn listed(moves: &[Move]) -> String {
    let each = moves.iter().map(|way| format!("{} (thread {})", way.step, way.task));
    each.collect::<Vec<_>>().join(", ")
}
