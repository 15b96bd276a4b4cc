//! Which steps of a run come before another one, whatever the order of those that commute.

/// For each thread its last step that comes before. The thread's earlier ones do so too.
#[derive(Clone, Default)]
pub(crate) struct Clock {
    /// One more than the place of the step in the run.
    last: Vec<usize>,
}

impl Clock {
    /// Whether the step at this place, which this thread made, comes before.
    pub fn has(&self, task: usize, at: usize) -> bool {
        self.last.get(task).is_some_and(|last| *last > at)
    }

    /// Whether a step after this place comes before.
    pub fn has_after(&self, at: usize) -> bool {
        self.last.iter().any(|last| *last > at + 1)
    }

    pub fn add(&mut self, task: usize, at: usize) {
        if self.last.len() <= task {
            self.last.resize(task + 1, 0);
        }
        self.last[task] = self.last[task].max(at + 1);
    }

    /// Adds all that comes before another one.
    pub fn join(&mut self, other: &Clock) {
        if self.last.len() < other.last.len() {
            self.last.resize(other.last.len(), 0);
        }
        for (last, theirs) in self.last.iter_mut().zip(&other.last) {
            *last = (*last).max(*theirs);
        }
    }
}
