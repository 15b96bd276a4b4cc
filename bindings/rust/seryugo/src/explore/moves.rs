//! What may happen next in a run, and which of it commutes.

use super::step::{Step, StepKind, NONE};

/// What makes a thread go on.
#[derive(Clone, Copy, PartialEq, Eq, Hash, Debug)]
pub(crate) enum By {
    /// Its step is made.
    Step,
    /// Its call's time has passed.
    TimeOut,
    /// Its call fails, since nothing could answer it any more.
    Stall,
}

/// A thread that may go on.
#[derive(Clone, Copy, PartialEq, Eq, Debug)]
pub(crate) struct Move {
    pub task: usize,
    /// Which of the thread's futures it is, if it waits for them.
    pub at: usize,
    pub step: Step,
    /// What the step does to objects, as a step on one of them.
    pub as_if: Step,
    /// The channel of the port that the step uses, the condition that it has waited for, or `NONE`.
    pub channel: u64,
    /// Whether the object has something: a message, or that it is closed.
    pub is_full: bool,
    /// Which message of the mailbox or channel it sends or receives, or `NONE`.
    pub place: u64,
    pub by: By,
}

impl Move {
    /// Whether two moves that may both happen now leave the same in either order: the objects, and
    /// both replies. Neither keeps the other from happening.
    pub fn commutes_with(&self, other: &Move) -> bool {
        self.commutes_if(other, self.is_full || other.is_full)
    }

    /// As above, if their object has something or not.
    fn commutes_if(&self, other: &Move, is_full: bool) -> bool {
        if self.task == other.task || self.by != By::Step || other.by != By::Step {
            return false;
        }
        let (one, two) = (self.as_if.kind, other.as_if.kind);
        if one.is_beside() || two.is_beside() {
            return !one.is_beside() || !two.is_beside() || !self.meets_beside(other);
        }
        if one == StepKind::LookAtAll || two == StepKind::LookAtAll || self.is_on_lane_of(other) {
            return false;
        }
        if is_in_rings(one) || is_in_rings(two) {
            // Lanes are numbered in the order in which they are opened.
            return one != StepKind::OpenLane || two != StepKind::OpenLane;
        }
        // Objects are numbered in the order in which they are made, and a program sees the numbers.
        if one.is_maker() && two.is_maker() {
            return false;
        }
        if self.as_if.object != other.as_if.object {
            return self.is_apart_from(other) && other.is_apart_from(self);
        }
        on_one_object(one, two, is_full) || on_one_object(two, one, is_full)
    }

    /// Whether both use one thing beside the board.
    fn meets_beside(&self, other: &Move) -> bool {
        let theirs = [other.as_if.object, other.channel];
        [self.as_if.object, self.channel].iter().any(|own| *own != NONE && theirs.contains(own))
    }

    /// Whether both use one lane.
    fn is_on_lane_of(&self, other: &Move) -> bool {
        let are_on_lanes = self.step.kind.is_on_lane() && other.step.kind.is_on_lane();
        are_on_lanes && self.step.object == other.step.object
    }

    /// Whether a step on another object does nothing to this one: all but what a channel does to
    /// its ports, and looks at either.
    fn is_apart_from(&self, other: &Move) -> bool {
        if self.channel == NONE || self.channel != other.as_if.object {
            return true;
        }
        match (self.as_if.kind, other.as_if.kind) {
            // A port that is empty has a message after it.
            (StepKind::Recv | StepKind::Poll, StepKind::Multicast) => self.is_full,
            (StepKind::Copy | StepKind::Close, StepKind::Multicast) => true,
            (_, StepKind::Port) => true,
            _ => false,
        }
    }
}

/// Two steps of one run, of which one is the earlier.
impl Move {
    /// Whether this step had to come after the earlier one, to leave what it did.
    pub fn follows(&self, earlier: &Move) -> bool {
        if self.task != earlier.task && self.may_receive_from(earlier) {
            return self.place == earlier.place;
        }
        !earlier.commutes_if(self, earlier.is_full)
    }

    /// Whether it is a receive where the earlier step sent.
    fn may_receive_from(&self, earlier: &Move) -> bool {
        let are_steps = self.by == By::Step && earlier.by == By::Step;
        let object = match earlier.as_if.kind {
            StepKind::Send => self.as_if.object,
            StepKind::Multicast => self.channel,
            _ => return false,
        };
        are_steps && self.receives() && object == earlier.as_if.object
    }

    fn receives(&self) -> bool {
        matches!(self.as_if.kind, StepKind::Recv | StepKind::Poll)
    }

    /// Whether it took what this step waits for.
    pub fn takes_from(&self, waits: &Move) -> bool {
        let takes = match self.as_if.kind {
            StepKind::Recv | StepKind::Poll => self.place != NONE,
            StepKind::Take | StepKind::TakePoll => self.is_full,
            StepKind::Lock => true,
            _ => false,
        };
        takes && self.by == By::Step && self.as_if.object == waits.as_if.object
    }

    /// Whether this step, which doesn't commute with the earlier one, couldn't be made before it.
    /// What it waits for wasn't there, and came after it or by it.
    pub fn waits_for(&self, earlier: &Move) -> bool {
        let is_empty = match earlier.as_if.kind {
            // A multicast commutes with these.
            StepKind::Close | StepKind::Copy => false,
            _ => self.as_if.object == earlier.as_if.object && !earlier.is_full,
        };
        self.as_if.kind.blocks() && (is_empty || self.may_receive_from(earlier))
    }

    /// Whether without the earlier step, which closed an empty port, this one may find a message
    /// from a step that commutes with both.
    pub fn may_wait_without(&self, earlier: &Move) -> bool {
        let is_closed = earlier.as_if.kind == StepKind::Close && !earlier.is_full;
        is_closed && self.receives() && self.as_if.object == earlier.as_if.object
    }
}

/// Whether such a step uses no object.
fn is_in_rings(kind: StepKind) -> bool {
    matches!(kind, StepKind::OpenLane | StepKind::LaneSend)
}

/// The pairs of steps on one object that commute, each in one of its two orders.
fn on_one_object(one: StepKind, two: StepKind, is_full: bool) -> bool {
    match (one, two) {
        (
            StepKind::Look | StepKind::Get | StepKind::GetPoll,
            StepKind::Look | StepKind::Get | StepKind::GetPoll,
        ) => true,
        // One at the end of a queue, and one at its front.
        (StepKind::Send, StepKind::Recv | StepKind::Poll) => is_full,
        // A put into a full variable does nothing, and a swap leaves it full.
        (StepKind::Put, StepKind::Put | StepKind::Get | StepKind::GetPoll | StepKind::Swap) => {
            is_full
        }
        // Polls that find nothing do nothing.
        (StepKind::Poll, StepKind::Poll) => !is_full,
        (StepKind::TakePoll, StepKind::TakePoll | StepKind::GetPoll) => !is_full,
        _ => false,
    }
}
