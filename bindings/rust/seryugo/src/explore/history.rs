//! Whether what the threads do depends on the board alone.
//!
//! A thread's history is what it was started with, its calls and their replies. If two runs have a
//! thread with the same history, and it goes on differently, then something beside the board
//! decides. So orders aren't the same in which only steps are exchanged that commute on the board.

use super::choose::mix;
use std::collections::HashMap;
use std::hash::{BuildHasherDefault, Hasher};

/// It keeps at most this many histories.
const MOST: usize = 2_000_000;

/// What each thread's history was followed by, in all runs.
#[derive(Default)]
pub(crate) struct History {
    followed: HashMap<u64, u64, BuildHasherDefault<Sum>>,
    /// A number for all steps of the run so far, in their order.
    all: u64,
    /// The same for the steps on each thing that has changed.
    things: HashMap<u64, u64, BuildHasherDefault<Sum>>,
}

/// What a thread has done in this run.
#[derive(Clone, Copy, Default)]
pub(crate) struct Done {
    sum: u64,
}

impl History {
    pub fn begin(&mut self) {
        self.all = 0;
        self.things.clear();
    }

    /// A thread that this one starts, as its child of this number.
    pub fn child(parent: Done, number: usize) -> Done {
        Done {
            sum: mix(parent.sum, number as u64 + 1),
        }
    }

    /// A thread has made a call that was accepted. `false`: it made another one after the same
    /// history.
    pub fn made(&mut self, done: &mut Done, call: u64, reply: u64) -> bool {
        let is_same = self.is_followed(mix(done.sum, 1), call);
        self.went(done, call, reply);
        is_same
    }

    /// A thread has made a step that has no entry, so that its message isn't known.
    pub fn went(&mut self, done: &mut Done, step: u64, end: u64) {
        done.sum = mix(mix(done.sum, step), end);
        self.all = mix(self.all, done.sum);
    }

    /// The thread's last step has changed this thing, maybe.
    pub fn changed(&mut self, done: Done, thing: u64) {
        let sum = self.things.entry(thing).or_default();
        *sum = mix(*sum, done.sum);
    }

    /// A thread has seen this thing.
    pub fn saw(&self, done: &mut Done, thing: u64) {
        saw(done, self.things.get(&thing).copied().unwrap_or_default());
    }

    /// A thread has seen what any thread may have changed.
    pub fn saw_all(&self, done: &mut Done) {
        saw(done, self.all);
    }

    /// A thread has joined another one.
    pub fn joined(done: &mut Done, other: Done) {
        done.sum = mix(done.sum, other.sum);
    }

    /// A thread is about to make this step, or to end. `false`: after the same history it was about
    /// to do something else.
    pub fn is_next(&mut self, done: Done, step: u64) -> bool {
        self.is_followed(mix(done.sum, 2), step)
    }

    fn is_followed(&mut self, history: u64, by: u64) -> bool {
        if self.followed.len() >= MOST {
            return self.followed.get(&history).is_none_or(|known| *known == by);
        }
        *self.followed.entry(history).or_insert(by) == by
    }
}

/// A thread has seen this.
pub(crate) fn saw(done: &mut Done, seen: u64) {
    done.sum = mix(done.sum, seen);
}

/// A sum is a hash already.
#[derive(Default)]
pub(crate) struct Sum(u64);

impl Hasher for Sum {
    fn finish(&self) -> u64 {
        self.0
    }

    fn write(&mut self, bytes: &[u8]) {
        for byte in bytes {
            self.0 = mix(self.0, u64::from(*byte));
        }
    }

    fn write_u64(&mut self, number: u64) {
        self.0 = number;
    }
}
