//! What a rerun keeps for its report.

use super::reran::{Diverged, Stop};
use std::sync::atomic::{AtomicU64, Ordering};
use std::sync::{Mutex, MutexGuard, PoisonError};

/// What a rerun keeps for its report.
pub(crate) struct Notes {
    /// No other rerun of the process has it.
    pub number: u64,
    diverged: Mutex<Option<Diverged>>,
    said: Mutex<Said>,
}

#[derive(Clone, Default)]
pub(crate) struct Said {
    /// The calls that the end of the journal ended, one of each thread.
    pub stops: Vec<Stop>,
    /// Where and why threads panicked before.
    pub panics: Vec<String>,
}

/// How many reruns there were.
static RERUNS: AtomicU64 = AtomicU64::new(1);

impl Notes {
    pub fn new() -> Notes {
        Notes {
            number: RERUNS.fetch_add(1, Ordering::Relaxed),
            diverged: Mutex::default(),
            said: Mutex::default(),
        }
    }

    /// Where the run is no longer the journal's. Who declares it has this until it is written.
    pub fn diverged(&self) -> MutexGuard<'_, Option<Diverged>> {
        self.diverged.lock().unwrap_or_else(PoisonError::into_inner)
    }

    fn lock(&self) -> MutexGuard<'_, Said> {
        self.said.lock().unwrap_or_else(PoisonError::into_inner)
    }

    pub fn panicked(&self, said: &str) {
        self.lock().panics.push(said.to_string());
    }

    pub fn stopped(&self, stop: Stop) {
        self.lock().stops.push(stop);
    }

    /// What was noted so far, in an order that no thread decides.
    pub fn said(&self) -> Said {
        let mut said = self.lock().clone();
        said.stops.sort();
        said
    }
}
